"""Flow dumps of Open vSwitch (`ovs-ofctl dump-flows -O OpenFlow10`), line by line."""

from __future__ import annotations

import re
from typing import Callable, Dict, List, NamedTuple, Optional, Tuple

from . import actions as act
from .actions import Action
from .files import BadInput, Rule
from .headers import ARP, ICMP, IPV4, PORT_NAMES, RARP, SHORTHANDS, TCP, UDP, match_of


class LeftOut(NamedTuple):
    """A line that says something which OpenFlow 1.0 or monocle cannot, and why."""

    number: int
    text: str
    reasons: Tuple[str, ...]


class NotUnderstood(Exception):
    """A word that has no meaning here."""


class Unsayable(Exception):
    """A word of Open vSwitch that OpenFlow 1.0 or monocle cannot say."""


# numbers and addresses


def number(word: str, largest: int) -> int:
    """A decimal number, or a hexadecimal one behind 0x."""
    if not re.fullmatch("0x[0-9a-fA-F]+|0|[1-9][0-9]*", word):
        raise NotUnderstood(f"`{word}` is no number")
    value = int(word, 16) if word.startswith("0x") else int(word)
    if value > largest:
        raise NotUnderstood(f"`{word}` is above {largest}")
    return value


def ethernet(word: str) -> int:
    if "/" in word:
        raise Unsayable(f"OpenFlow 1.0 compares whole Ethernet addresses, and not `{word}`")
    if not re.fullmatch("([0-9a-fA-F]{1,2}:){5}[0-9a-fA-F]{1,2}", word):
        raise NotUnderstood(f"`{word}` is no Ethernet address")
    return int("".join(part.zfill(2) for part in word.split(":")), 16)


def ipv4(word: str) -> int:
    parts = word.split(".")
    if len(parts) != 4 or not all(re.fullmatch("0|[1-9][0-9]{0,2}", part) and int(part) < 256 for part in parts):
        raise NotUnderstood(f"`{word}` is no IPv4 address")
    return int.from_bytes(bytes(map(int, parts)), "big")


def prefix(word: str) -> Tuple[int, int]:
    """An address and how many of its leading bits count: `10.0.0.0/8` or `10.0.0.0/255.0.0.0`."""
    address, slash, mask = word.partition("/")
    if not slash:
        return ipv4(address), 32
    if "." not in mask:
        return ipv4(address), number(mask, 32)
    bits = ipv4(mask)
    ignored = ~bits & 0xFFFFFFFF
    if ignored & ignored + 1:
        raise Unsayable(f"OpenFlow 1.0 compares leading bits of addresses, and not those of `{word}`")
    return ipv4(address), bin(bits).count("1")


NUMBERS_OF_PORTS = {name: number for number, name in PORT_NAMES.items()}


def port(word: str) -> int:
    """A port's number, or the name of one of OpenFlow's own."""
    if word.upper() in NUMBERS_OF_PORTS:
        return NUMBERS_OF_PORTS[word.upper()]
    if not re.fullmatch("0x[0-9a-fA-F]+|[0-9]+", word):
        raise NotUnderstood(f"`{word}` is no port's number; `ovs-ofctl --no-names dump-flows` writes numbers")
    return number(word, 0xFFFF)


def split_words(text: str) -> List[str]:
    """The parts of a text between commas that stand in no brackets."""
    words, depth, start = [], 0, 0
    for place, letter in enumerate(text):
        depth += (letter in "([{") - (letter in ")]}")
        if letter == "," and depth == 0:
            words.append(text[start:place])
            start = place + 1
    return [word.strip() for word in words + [text[start:]] if word.strip()]


# matches

# fields of the match, by each name that Open vSwitch has for them
NAMES = {
    "in_port": "in_port", "dl_vlan": "dl_vlan", "dl_vlan_pcp": "dl_vlan_pcp", "dl_src": "dl_src", "eth_src": "dl_src",
    "dl_dst": "dl_dst", "eth_dst": "dl_dst", "dl_type": "dl_type", "eth_type": "dl_type", "nw_src": "nw_src",
    "ip_src": "nw_src", "nw_dst": "nw_dst", "ip_dst": "nw_dst", "nw_proto": "nw_proto", "ip_proto": "nw_proto",
    "nw_tos": "nw_tos", "arp_spa": "nw_src", "arp_tpa": "nw_dst", "arp_op": "nw_proto", "icmp_type": "tp_src",
    "icmp_code": "tp_dst", "tp_src": "tp_src", "tp_dst": "tp_dst", "tcp_src": "tp_src", "tcp_dst": "tp_dst",
    "udp_src": "tp_src", "udp_dst": "tp_dst",
}  # fmt: skip
KINDS = {word: kinds for kinds, word in SHORTHANDS.items()}
# what else Open vSwitch compares: OpenFlow 1.0 has no such field
FOREIGN = re.compile(
    "reg[0-9]+|x{1,2}reg[0-9]+|metadata|tun_.*|tunnel_id|ct_.*|pkt_mark|dp_hash|recirc_id|conj_id|packet_type|nw_ttl|"
    "nw_ecn|ip_ecn|ip_dscp|ip_frag|nw_frag|tcp_flags|arp_sha|arp_tha|ipv6_.*|icmpv6_.*|nd_.*|mpls_.*|sctp_.*|nsh_.*|"
    "vlan_vid|vlan_pcp|vlan_tci1|dl_vlan1|in_port_oxm|actset_output|skb_priority"
)
FOREIGN_KINDS = {"tcp6", "udp6", "sctp6", "icmp6"}
STATISTICS = {"cookie", "duration", "n_packets", "n_bytes", "idle_age", "hard_age", "importance"}
FLAG_WORDS = {"send_flow_rem", "check_overlap", "reset_counts", "no_packet_counts", "no_byte_counts"}


class FlowLine:
    """One line of a dump, as it is read word by word."""

    def __init__(self, unsure: bool) -> None:
        self.fields: Dict[str, int] = {}
        self.prefixes: Dict[str, int] = {}
        self.names: Dict[str, str] = {}
        self.priority, self.accept_timeouts, self.unsure = 32768, unsure, False
        self.actions: List[Action] = []
        self.reasons: List[str] = []

    def attempt(self, read: Callable[[str], None], word: str) -> None:
        """Reads a word; one that cannot be said here is kept as a reason."""
        try:
            read(word)
        except Unsayable as why:
            self.reasons.append(str(why))

    def put(self, name: str, value: int, word: str) -> None:
        if self.fields.get(name, value) != value:
            raise NotUnderstood(f"`{word}` says {name} anew")
        self.fields[name] = value
        self.names[name] = word.partition("=")[0]

    def match_word(self, word: str) -> None:
        """A word in front of `actions=`."""
        name, equals, value = word.partition("=")
        if not equals:
            self.bare_word(word)
        elif name in STATISTICS:
            return
        elif name == "priority":
            self.priority = number(value, 0xFFFF)
        elif name == "table":
            if number(value, 255):
                raise Unsayable(f"monocle follows table 0, and this is in table {value}")
        elif name in ("idle_timeout", "hard_timeout"):
            self.timeout(name, number(value, 0xFFFF))
        elif name == "vlan_tci":
            self.vlan(value)
        elif name in NAMES:
            self.put_field(NAMES[name], name, value)
        elif FOREIGN.fullmatch(name):
            raise Unsayable(f"OpenFlow 1.0 has no field {name}")
        else:
            raise NotUnderstood(f"`{word}` is unknown")

    def bare_word(self, word: str) -> None:
        """A word without a value: a shorthand for a kind of packet, or a flag of the entry."""
        if word in KINDS:
            kind, protocol = KINDS[word]
            self.put("dl_type", kind, word)
            if protocol is not None:
                self.put("nw_proto", protocol, word)
        elif word in FOREIGN_KINDS:
            raise Unsayable(f"OpenFlow 1.0 has no fields of IPv6, so no `{word}`")
        elif word not in FLAG_WORDS:
            raise NotUnderstood(f"`{word}` is unknown")

    def timeout(self, name: str, seconds: int) -> None:
        if not seconds:
            return
        if not self.accept_timeouts:
            raise Unsayable(f"{name}={seconds}: the entry may vanish, which table files of version 1 cannot say")
        self.unsure = True

    def vlan(self, value: str) -> None:
        """`vlan_tci=0x0000` is what Open vSwitch writes of a match that takes untagged packets alone."""
        if value not in ("0x0000", "0x0000/0x1fff", "0x0000/0xffff", "0"):
            raise Unsayable(f"OpenFlow 1.0 has no field vlan_tci, so no `vlan_tci={value}`")
        self.put("dl_vlan", 0xFFFF, "dl_vlan")
        self.put("dl_vlan_pcp", 0, "dl_vlan_pcp")

    def put_field(self, field: str, name: str, value: str) -> None:
        """One field of the match."""
        if field in ("nw_src", "nw_dst"):
            address, bits = prefix(value)
            self.put(field, address, f"{name}={value}")
            self.prefixes[field] = bits
        elif field in ("dl_src", "dl_dst"):
            self.put(field, ethernet(value), f"{name}={value}")
        elif "/" in value:
            raise Unsayable(f"OpenFlow 1.0 compares {name} whole, and not `{value}`")
        elif field == "in_port":
            self.put(field, port(value), f"{name}={value}")
        else:
            largest = {"nw_tos": 255, "nw_proto": 255, "dl_vlan_pcp": 7}.get(field, 0xFFFF)
            largest = 255 if name in ("icmp_type", "icmp_code") else largest
            self.put(field, number(value, largest), f"{name}={value}")
            if field == "nw_tos" and self.fields[field] & 3:
                raise Unsayable(f"nw_tos={value}: OpenFlow 1.0 compares the upper six bits alone")
            if field == "dl_vlan" and 4096 <= self.fields[field] < 0xFFFF:
                raise NotUnderstood(f"`{name}={value}` is no VLAN id")

    def prerequisites(self) -> None:
        """Fields of IP and of transport say something only behind their kind of packet."""
        kind, protocol = self.fields.get("dl_type"), self.fields.get("nw_proto")
        for field in ("nw_src", "nw_dst", "nw_proto", "nw_tos"):
            kinds = (IPV4,) if field == "nw_tos" else (IPV4, ARP, RARP)
            if field in self.fields and kind not in kinds:
                self.reasons.append(
                    f"{self.names[field]} says nothing without {'ip' if len(kinds) == 1 else 'ip or arp'}"
                )
        for field in ("tp_src", "tp_dst"):
            if field in self.fields and (kind != IPV4 or protocol not in (ICMP, TCP, UDP)):
                self.reasons.append(
                    f"{self.names[field]}: OpenFlow 1.0 has ports of TCP and UDP, and types of ICMP, alone"
                )

    def rule(self) -> Rule:
        return Rule(self.priority, match_of(self.fields, self.prefixes), tuple(self.actions), self.unsure)

    # actions

    def action_word(self, word: str) -> None:
        """A word behind `actions=`."""
        name, _, value = word.replace("(", ":(", 1).partition(":") if "(" in word else word.partition(":")
        if name == "drop" and not value:
            return
        if name in SETTERS:
            kind, read = SETTERS[name]
            self.actions.append(Action(kind, read(value)))
        elif name in ("strip_vlan", "pop_vlan") and not value:
            self.actions.append(Action(act.STRIP_VLAN))
        elif name == "enqueue":
            self.enqueue(value)
        elif name == "output":
            self.output(value)
        elif name.upper() == "CONTROLLER":
            if value.startswith("("):
                raise Unsayable(f"`{word}`: OpenFlow 1.0 sends to the controller as CONTROLLER:N alone")
            self.actions.append(Action(act.OUTPUT, act.CONTROLLER, number(value, 0xFFFF) if value else 0xFFFF))
        elif not value and (name.upper() in NUMBERS_OF_PORTS or re.fullmatch("[0-9]+", name)):
            self.actions.append(Action(act.OUTPUT, port(name)))
        elif FOREIGN_ACTIONS.fullmatch(name):
            raise Unsayable(f"OpenFlow 1.0 has no action `{word}`")
        else:
            raise NotUnderstood(f"action `{word}` is unknown")

    def output(self, value: str) -> None:
        """`output:2`; a register, or a port for which packets are cut, is beyond OpenFlow 1.0."""
        if "[" in value or value.startswith("("):
            raise Unsayable(f"OpenFlow 1.0 has no action `output{'' if value.startswith('(') else ':'}{value}`")
        where = port(value)
        self.actions.append(Action(act.OUTPUT, where, 0xFFFF if where == act.CONTROLLER else 0))

    def enqueue(self, value: str) -> None:
        where, mark, queue = value.strip("()").replace(",", ":").partition(":")
        if not mark:
            raise NotUnderstood(f"`enqueue:{value}` has no queue")
        self.actions.append(Action(act.ENQUEUE, port(where), number(queue, 2**32 - 1)))


def up_to(largest: int) -> Callable[[str], int]:
    return lambda word: number(word, largest)


SETTERS: Dict[str, Tuple[int, Callable[[str], int]]] = {
    "mod_vlan_vid": (act.SET_VLAN_VID, up_to(4095)), "mod_vlan_pcp": (act.SET_VLAN_PCP, up_to(7)),
    "mod_dl_src": (act.SET_DL_SRC, ethernet), "mod_dl_dst": (act.SET_DL_DST, ethernet),
    "mod_nw_src": (act.SET_NW_SRC, ipv4), "mod_nw_dst": (act.SET_NW_DST, ipv4),
    "mod_nw_tos": (act.SET_NW_TOS, up_to(255)), "mod_tp_src": (act.SET_TP_SRC, up_to(65535)),
    "mod_tp_dst": (act.SET_TP_DST, up_to(65535)),
}  # fmt: skip
FOREIGN_ACTIONS = re.compile(
    "resubmit|load|move|set_field|push_vlan|push_mpls|pop_mpls|push_nsh|pop_nsh|encap|decap|dec_ttl|set_queue|pop_queue|"
    "note|learn|ct|ct_clear|nat|group|goto_table|multipath|bundle|bundle_load|exit|conjunction|set_tunnel|set_tunnel64|"
    "fin_timeout|sample|clone|write_metadata|write_actions|apply_actions|clear_actions|meter|push|pop|stack_push|"
    "stack_pop|mod_nw_ecn|mod_nw_ttl|dec_mpls_ttl|set_mpls_.*|dec_nsh_ttl|output_reg|check_pkt_larger|delete_field|"
    "debug_.*|reg_load|set_vlan_vid|set_vlan_pcp"
)
REPLY = re.compile(r"(NXST|OFPST)_FLOW reply( \([^)]*\))*:?( flags=\[more\])?:?")


def read_flow(text: str, unsure: bool) -> Tuple[Optional[Rule], List[str]]:
    """The rule of one line, or why it cannot be said; NotUnderstood for a line that has no meaning."""
    found = re.fullmatch(r"(.*?)[\s,]*\bactions=(.*)", text)
    if not found:
        raise NotUnderstood("has no `actions=`")
    line = FlowLine(unsure)
    for word in split_words(re.sub(r"\s+", ",", found[1].strip())):
        line.attempt(line.match_word, word)
    actions = split_words(found[2])
    if not actions or "drop" in actions and len(actions) > 1:
        raise NotUnderstood(f"has the actions `{found[2]}`")
    for word in actions:
        line.attempt(line.action_word, word)
    if not line.reasons:
        line.prerequisites()
    if len(act.write_actions(line.actions)) > 512:
        line.reasons.append("has more than the 512 bytes of actions that monocle takes")
    return (None if line.reasons else line.rule()), line.reasons


def flow_of(rule: Rule) -> str:
    """A rule as a flow that ovs-ofctl takes; Unsayable where that would be another rule."""
    words = rule.words()
    if rule.unsure:
        raise Unsayable("it has a timeout, and how long that is a table does not say")
    try:
        back, reasons = read_flow(words, False)
    except NotUnderstood as why:
        raise Unsayable(str(why)) from None
    # of an OUTPUT the length bears on the controller alone
    meant = tuple(one if one.value == act.CONTROLLER or one.kind != act.OUTPUT else one._replace(extra=0)
                  for one in rule.actions)  # fmt: skip
    if reasons or back is None:
        raise Unsayable("; ".join(reasons))
    if (back.priority, back.match, back.actions) != (rule.priority, rule.match, meant):
        raise Unsayable(f"`{words}` would be another rule")
    return words


def read_dump(name: str, text: str, unsure: bool) -> Tuple[List[Rule], List[LeftOut]]:
    """The rules of a dump in table order, and the lines that cannot be said."""
    found: Dict[Tuple[int, bytes], Tuple[int, Rule]] = {}
    left: List[LeftOut] = []
    for place, line in enumerate(text.splitlines(), 1):
        stripped = line.strip()
        if not stripped or stripped.startswith("#") or REPLY.fullmatch(stripped):
            continue
        try:
            rule, reasons = read_flow(stripped, unsure)
        except (NotUnderstood, Unsayable) as why:
            raise BadInput(name, str(why), place, stripped) from None
        if rule is not None and rule.order() in found:
            earlier = found[rule.order()][0]
            reasons.append(f"monocle tells it apart from line {earlier} by nothing: match and rank are the same")
        if reasons or rule is None:
            left.append(LeftOut(place, stripped, tuple(reasons)))
        else:
            found[rule.order()] = place, rule
    if len(found) > 4096:
        raise BadInput(name, f"has {len(found)} rules, and monocle's tables hold 4096")
    return [found[key][1] for key in sorted(found)], left
