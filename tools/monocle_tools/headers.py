"""Headers and matches of OpenFlow 1.0, as monocle reads them.

A header is twelve numbers. A match is two numbers of 264 bits: the bits that are compared, and their values. So one
match overlaps another, or covers it, or takes a header, by a few operations on whole numbers.
"""

from __future__ import annotations

import struct
from dataclasses import dataclass
from functools import cached_property
from typing import Dict, Mapping, NamedTuple, Optional

NO_VLAN = 0xFFFF
IPV4, ARP, RARP = 0x0800, 0x0806, 0x8035
ICMP, TCP, UDP = 1, 6, 17
DROP_MARK = 0x024D4F4E4F00


class Header(NamedTuple):
    """The fields of a packet at a port; what a packet lacks is 0, and the VLAN id of an untagged one 0xffff."""

    in_port: int = 0
    dl_src: int = 0
    dl_dst: int = 0
    dl_vlan: int = NO_VLAN
    dl_vlan_pcp: int = 0
    dl_type: int = 0
    nw_tos: int = 0
    nw_proto: int = 0
    nw_src: int = 0
    nw_dst: int = 0
    tp_src: int = 0
    tp_dst: int = 0

    def number(self) -> int:
        """The 264 bits, the most significant bit of the first field first."""
        number = 0
        for value, bits in zip(self, BITS.values()):
            number = number << bits | value
        return number

    def digits(self) -> str:
        return self.number().to_bytes(33, "big").hex()


BITS: Dict[str, int] = dict(zip(Header._fields, (16, 48, 48, 16, 8, 16, 8, 8, 32, 32, 16, 16)))
SHIFTS: Dict[str, int] = {}
_below = 0
for _name in reversed(Header._fields):
    SHIFTS[_name] = _below
    _below += BITS[_name]
WHOLE = (1 << _below) - 1

# the wildcard bit of each field that is compared whole, and where the count of an address begins
FLAGS = {
    "in_port": 0, "dl_vlan": 1, "dl_src": 2, "dl_dst": 3, "dl_type": 4, "nw_proto": 5, "tp_src": 6, "tp_dst": 7,
    "dl_vlan_pcp": 20, "nw_tos": 21,
}  # fmt: skip
COUNTS = {"nw_src": 8, "nw_dst": 14}
LAYOUT = struct.Struct(">IH6s6sHBxHBBxxIIHH")


def header_of(number: int) -> Header:
    """The header with these 264 bits."""
    return Header(*(number >> SHIFTS[name] & (1 << bits) - 1 for name, bits in BITS.items()))


@dataclass(frozen=True)
class Match:
    """Which headers a rule takes: those whose bits under `mask` are those of `value`."""

    value: int
    mask: int

    def takes(self, header: int) -> bool:
        return (header ^ self.value) & self.mask == 0

    def overlaps(self, other: Match) -> bool:
        return (self.value ^ other.value) & self.mask & other.mask == 0

    def covers(self, other: Match) -> bool:
        return self.mask & ~other.mask == 0 and (self.value ^ other.value) & self.mask == 0

    @property
    def exact(self) -> bool:
        """Nothing is wildcarded, which OpenFlow 1.0 ranks above every priority."""
        return self.mask == WHOLE

    def compared(self, name: str) -> int:
        """How many leading bits of a field are compared."""
        return bin(self.mask >> SHIFTS[name] & (1 << BITS[name]) - 1).count("1")

    def field(self, name: str) -> Optional[int]:
        """The value of a field of which something is compared, or None."""
        return self.value >> SHIFTS[name] & (1 << BITS[name]) - 1 if self.compared(name) else None

    @cached_property
    def wire(self) -> bytes:
        """The 40 bytes of the match, normalised."""
        fields = header_of(self.value)
        wildcards = sum(1 << bit for name, bit in FLAGS.items() if not self.compared(name))
        wildcards |= sum(32 - self.compared(name) << shift for name, shift in COUNTS.items())
        return LAYOUT.pack(
            wildcards, fields.in_port, fields.dl_src.to_bytes(6, "big"), fields.dl_dst.to_bytes(6, "big"), *fields[3:]
        )

    def digits(self) -> str:
        return self.wire.hex()


def match_of(fields: Mapping[str, int], prefixes: Mapping[str, int] = {}) -> Match:
    """The match that compares these fields, addresses only by as many leading bits as `prefixes` says."""
    value = mask = 0
    for name, number in fields.items():
        bits = BITS[name]
        ignored = bits - prefixes.get(name, bits)
        compared = (1 << bits) - (1 << ignored)
        if name == "nw_tos":
            number &= 0xFC
        value |= (number & compared) << SHIFTS[name]
        mask |= compared << SHIFTS[name]
    return Match(value, mask)


def read_match(wire: bytes) -> Match:
    """The match of 40 bytes (OpenFlow 1.0.0, flow match structures), normalised."""
    wildcards, in_port, dl_src, dl_dst, *rest = LAYOUT.unpack(wire)
    header = Header(in_port, int.from_bytes(dl_src, "big"), int.from_bytes(dl_dst, "big"), *rest)._asdict()
    prefixes = {name: max(0, 32 - (wildcards >> shift & 0x3F)) for name, shift in COUNTS.items()}
    named = [name for name, bit in FLAGS.items() if not wildcards >> bit & 1]
    named += [name for name, bits in prefixes.items() if bits]
    return match_of({name: header[name] for name in named}, prefixes)


# headers that a probe can have


def class_fault(h: Header) -> Optional[str]:
    """Why no probe packet has this header, or None where one can."""
    if h.dl_vlan >= 4096 and h.dl_vlan != NO_VLAN or h.dl_vlan == NO_VLAN and h.dl_vlan_pcp or h.dl_vlan_pcp > 7:
        return "no packet has such a VLAN tag"
    if h.nw_tos & 3:
        return "no packet has such a type of service"
    if h.dl_type == IPV4:
        if h.nw_proto == ICMP and max(h.tp_src, h.tp_dst) > 255:
            return "no ICMP packet has such a type or code"
        if h.nw_proto not in (ICMP, TCP, UDP) and (h.tp_src or h.tp_dst):
            return f"probes of IP protocol {h.nw_proto} have no ports"
        return None
    if h.dl_type == ARP:
        return "probes of ARP have no type of service and no ports" if h.nw_tos or h.tp_src or h.tp_dst else None
    if h.dl_type < 0x0600 or h.dl_type in (0x8100, 0x88A8, 0x8808, 0x8809):
        return f"there are no probes of Ethernet type 0x{h.dl_type:04x}"
    if any(h[6:]):
        return f"probes of Ethernet type 0x{h.dl_type:04x} have no IP fields"
    return None


# words


def dotted(number: int) -> str:
    return ".".join(str(byte) for byte in number.to_bytes(4, "big"))


def ethernet(number: int) -> str:
    return ":".join(f"{byte:02x}" for byte in number.to_bytes(6, "big"))


PORT_NAMES = {
    0xFFF8: "IN_PORT", 0xFFF9: "TABLE", 0xFFFA: "NORMAL", 0xFFFB: "FLOOD", 0xFFFC: "ALL", 0xFFFD: "CONTROLLER",
    0xFFFE: "LOCAL", 0xFFFF: "NONE",
}  # fmt: skip
# shorthands of Open vSwitch, by Ethernet type and IP protocol
SHORTHANDS = {
    (IPV4, TCP): "tcp", (IPV4, UDP): "udp", (IPV4, ICMP): "icmp", (IPV4, 132): "sctp", (IPV4, None): "ip",
    (ARP, None): "arp", (RARP, None): "rarp", (0x86DD, None): "ipv6", (0x8847, None): "mpls", (0x8848, None): "mplsm",
}  # fmt: skip


def shorthand(match: Match) -> "tuple[list[str], set[str]]":
    """The shorthand for a match's Ethernet type and IP protocol, if there is one, and the fields that it says."""
    kind, protocol = match.field("dl_type"), match.field("nw_proto")
    if kind is not None and (kind, protocol) in SHORTHANDS and protocol is not None:
        return [SHORTHANDS[kind, protocol]], {"dl_type", "nw_proto"}
    if kind is not None and (kind, None) in SHORTHANDS:
        return [SHORTHANDS[kind, None]], {"dl_type"}
    return [], set()


def field_word(match: Match, name: str) -> str:
    """One field in the words of ovs-ofctl, such as `nw_dst=10.0.0.0/24`."""
    value, kind = match.field(name) or 0, match.field("dl_type")
    if kind in (ARP, RARP):
        name = {"nw_src": "arp_spa", "nw_dst": "arp_tpa", "nw_proto": "arp_op"}.get(name, name)
    if kind == IPV4 and match.field("nw_proto") == ICMP:
        name = {"tp_src": "icmp_type", "tp_dst": "icmp_code"}.get(name, name)
    if name in ("dl_src", "dl_dst"):
        return f"{name}={ethernet(value)}"
    if name in ("nw_src", "nw_dst", "arp_spa", "arp_tpa"):
        bits = match.compared({"arp_spa": "nw_src", "arp_tpa": "nw_dst"}.get(name, name))
        return f"{name}={dotted(value)}" + (f"/{bits}" if bits < 32 else "")
    if name == "in_port":
        return f"in_port={PORT_NAMES.get(value, value)}"
    if name in ("dl_type",) or name == "dl_vlan" and value == NO_VLAN:
        return f"{name}=0x{value:04x}"
    return f"{name}={value}"


def match_words(match: Match) -> str:
    """A match in the words of ovs-ofctl, such as `tcp,nw_dst=10.0.0.0/24,tp_dst=80`; empty where it takes all."""
    words, said = shorthand(match)
    if match.field("dl_vlan") == NO_VLAN and match.field("dl_vlan_pcp") == 0:
        # Open vSwitch takes `dl_vlan_pcp` to ask for a tag, and says so that there is none
        words, said = words + ["vlan_tci=0x0000"], said | {"dl_vlan", "dl_vlan_pcp"}
    order = ("in_port", "dl_vlan", "dl_vlan_pcp", "dl_src", "dl_dst", "dl_type", "nw_src", "nw_dst", "nw_proto",
             "nw_tos", "tp_src", "tp_dst")  # fmt: skip
    words += [field_word(match, name) for name in order if name not in said and match.compared(name)]
    return ",".join(words)


def packet_words(header: Header) -> str:
    """A packet in the same words, without the fields that its kind of packet doesn't have."""
    fields = header._asdict()
    if header.dl_type not in (IPV4, ARP, RARP):
        absent = ["nw_tos", "nw_proto", "nw_src", "nw_dst", "tp_src", "tp_dst"]
    elif header.dl_type != IPV4:
        absent = ["nw_tos", "tp_src", "tp_dst"]
    else:
        absent = [] if header.nw_proto in (ICMP, TCP, UDP) else ["tp_src", "tp_dst"]
    if header.dl_vlan == NO_VLAN:
        absent.append("dl_vlan_pcp")
    return match_words(match_of({name: value for name, value in fields.items() if value or name not in absent}))
