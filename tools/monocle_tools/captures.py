"""Captures (pcap and pcapng), the TCP segments in them, and the streams that these make."""

from __future__ import annotations

import struct
from heapq import heappop, heappush
from typing import Dict, Iterator, List, NamedTuple, Optional, Tuple

from .files import BadInput

NANOSECONDS = 10**9


class Unreadable(Exception):
    """A packet with a part of a TCP segment that cannot be told from it."""


class Packet(NamedTuple):
    """A captured packet: its number from 1, its time in nanoseconds, its kind of link, its bytes, and its length on the
    wire, which is more where the capture cut it."""

    number: int
    time: int
    link: int
    wire: bytes
    length: int


# files


def read_capture(name: str, content: bytes) -> Iterator[Packet]:
    """The packets of a capture file of either kind."""
    magic = content[:4]
    for order in "<>":
        for number, scale in ((0xA1B2C3D4, 1000), (0xA1B23C4D, 1)):
            if magic == struct.pack(f"{order}I", number):
                return read_pcap(name, content, order, scale)
    if magic == b"\x0a\x0d\x0d\x0a":
        return read_pcapng(name, content)
    raise BadInput(name, "is neither a pcap nor a pcapng file")


def read_pcap(name: str, content: bytes, order: str, scale: int) -> Iterator[Packet]:
    """The packets of a pcap file; `scale` is how many nanoseconds a fraction of its times has."""
    head, place, number = struct.Struct(f"{order}IIII"), 24, 0
    if len(content) < place:
        raise BadInput(name, "ends in its header")
    link = struct.unpack_from(f"{order}I", content, 20)[0] & 0x0FFFFFFF
    while place < len(content):
        number += 1
        if len(content) - place < head.size:
            raise BadInput(name, f"packet {number}: the file ends in it")
        seconds, fraction, kept, length = head.unpack_from(content, place)
        place += head.size
        if kept > len(content) - place:
            raise BadInput(name, f"packet {number}: the file ends in it")
        yield Packet(number, seconds * NANOSECONDS + fraction * scale, link, content[place : place + kept], length)
        place += kept


class Interface(NamedTuple):
    """An interface of a pcapng section: its kind of link, how many units a second has, and its offset in seconds."""

    link: int
    units: int
    offset: int


def read_interface(body: bytes, order: str) -> Interface:
    """An interface description, with the options on its times."""
    units, offset, place = 10**6, 0, 8
    while place + 4 <= len(body):
        code, size = struct.unpack_from(f"{order}HH", body, place)
        value = body[place + 4 : place + 4 + size]
        if code == 9 and size:
            units = 2 ** (value[0] & 0x7F) if value[0] & 0x80 else 10 ** value[0]
        if code == 14 and size == 8:
            offset = struct.unpack(f"{order}q", value)[0]
        place += 4 + (size + 3) // 4 * 4
    return Interface(struct.unpack_from(f"{order}H", body)[0], units, offset)


def read_blocks(name: str, content: bytes) -> Iterator[Tuple[str, int, bytes]]:
    """The blocks of a pcapng file: their byte order, type and body."""
    place, order = 0, "<"
    while place < len(content):
        if content[place : place + 4] == b"\x0a\x0d\x0d\x0a":
            order = "<" if content[place + 8 : place + 12] == b"\x4d\x3c\x2b\x1a" else ">"
        if len(content) - place < 12:
            raise BadInput(name, f"byte {place}: the file ends in a block")
        kind, size = struct.unpack_from(f"{order}II", content, place)
        if size < 12 or size % 4 or size > len(content) - place:
            raise BadInput(name, f"byte {place}: a block has a wrong length")
        yield order, kind, content[place + 8 : place + size - 4]
        place += size


def read_pcapng(name: str, content: bytes) -> Iterator[Packet]:
    """The packets of a pcapng file."""
    interfaces: List[Interface] = []
    number = 0
    for order, kind, body in read_blocks(name, content):
        if kind == 0x0A0D0D0A:
            interfaces = []
        elif kind == 1 and len(body) >= 8:
            interfaces.append(read_interface(body, order))
        elif kind in (2, 3):
            raise BadInput(
                name, f"packet {number + 1}: is of a kind without a time or out of use; write it anew by editcap"
            )
        elif kind == 6:
            number += 1
            yield enhanced_packet(name, number, order, body, interfaces)


def enhanced_packet(name: str, number: int, order: str, body: bytes, interfaces: List[Interface]) -> Packet:
    """A packet of a pcapng file."""
    if len(body) < 20:
        raise BadInput(name, f"packet {number}: its block is too short")
    where, high, low, kept, length = struct.unpack_from(f"{order}IIIII", body)
    if where >= len(interfaces) or kept > len(body) - 20:
        raise BadInput(name, f"packet {number}: has no interface, or is longer than its block")
    link, units, offset = interfaces[where]
    time = offset * NANOSECONDS + (high << 32 | low) * NANOSECONDS // units
    return Packet(number, time, link, body[20 : 20 + kept], length)


# segments

FIN, SYN, RST, ACK = 1, 2, 4, 16


class End(NamedTuple):
    """An end of a connection: its address in words, and its port."""

    address: str
    port: int

    def __str__(self) -> str:
        return f"[{self.address}]:{self.port}" if ":" in self.address else f"{self.address}:{self.port}"


class Segment(NamedTuple):
    """A TCP segment (RFC 9293)."""

    number: int
    time: int
    source: End
    target: End
    sequence: int
    acknowledged: int
    flags: int
    payload: bytes
    missing: int  # bytes that the capture cut off


# where the Ethernet type stands in each kind of link, and where the packet begins
LINKS = {1: (12, 14), 113: (14, 16), 276: (0, 20)}
BARE = {12, 14, 101, 228, 229}
LOOPBACKS = {0, 108}


def ip_packet(packet: Packet) -> Optional[bytes]:
    """The IP packet in a captured one, or None where there is another."""
    wire = packet.wire
    if packet.link in BARE:
        return wire
    if packet.link in LOOPBACKS:
        return wire[4:]
    if packet.link not in LINKS:
        return None
    at, start = LINKS[packet.link]
    kind = wire[at : at + 2]
    while kind in (b"\x81\x00", b"\x88\xa8"):
        kind, start = wire[start + 2 : start + 4], start + 4
    return wire[start:] if kind in (b"\x08\x00", b"\x86\xdd") else None


def ipv4_body(ip: bytes) -> Optional[Tuple[str, str, int, bytes, bool]]:
    """Source, target, body's length, body, and whether it is a fragment, of an IPv4 packet with TCP."""
    head = (ip[0] & 15) * 4
    if len(ip) < 20 or ip[9] != 6:
        return None
    total = int.from_bytes(ip[2:4], "big") or len(ip)
    fragment = bool(int.from_bytes(ip[6:8], "big") & 0x3FFF)
    source, target = (".".join(map(str, ip[at : at + 4])) for at in (12, 16))
    return source, target, total - head, ip[head:total], fragment


def ipv6_body(ip: bytes) -> Optional[Tuple[str, str, int, bytes, bool]]:
    """The same of an IPv6 packet."""
    if len(ip) < 40:
        return None
    following, size, place = ip[6], int.from_bytes(ip[4:6], "big"), 40
    while following in (0, 43, 60) and place + 2 <= len(ip):
        following, place = ip[place], place + 8 + 8 * ip[place + 1]
    if following not in (6, 44) or following == 44 and ip[place : place + 1] != b"\x06":
        return None
    end = 40 + size if size else len(ip)
    source, target = (":".join(ip[at + i : at + i + 2].hex() for i in range(0, 16, 2)) for at in (8, 24))
    return source, target, end - place, ip[place:end], following == 44


def read_segment(packet: Packet) -> Optional[Segment]:
    """The TCP segment of a packet, or None where it has none; Unreadable where it is not whole."""
    ip = ip_packet(packet)
    if not ip:
        return None
    found = ipv4_body(ip) if ip[0] >> 4 == 4 else ipv6_body(ip) if ip[0] >> 4 == 6 else None
    if found is None:
        return None
    source, target, length, tcp, fragment = found
    if fragment:
        raise Unreadable("a fragment of a TCP segment, which is not put together")
    if len(tcp) < 20 or len(tcp) < (tcp[12] >> 4) * 4:
        raise Unreadable("its TCP header is cut")
    ports, head = struct.unpack_from(">HHIIBB", tcp), (tcp[12] >> 4) * 4
    return Segment(packet.number, packet.time, End(source, ports[0]), End(target, ports[1]), ports[2], ports[3], ports[5],
                   tcp[head:], max(0, length - len(tcp)))  # fmt: skip


# streams


class Stream:
    """The bytes of one direction, in order, each once."""

    def __init__(self, first: int) -> None:
        """`first` is the sequence number of the first byte."""
        self.first, self.next = first, 0
        self.kept: Dict[int, bytes] = {}
        self.places: List[int] = []
        self.end: Optional[int] = None

    def place(self, sequence: int) -> int:
        """The place in the stream that a sequence number means, near the next byte."""
        return self.next + ((sequence - self.first - self.next + 2**31) % 2**32 - 2**31)

    def take(self, sequence: int, payload: bytes) -> List[bytes]:
        """What a segment completes, segment by segment: nothing where it is a repetition, or where bytes before it are
        missing still."""
        place = self.place(sequence)
        if payload and place not in self.kept:
            heappush(self.places, place)
        if len(payload) > len(self.kept.get(place, b"")):
            self.kept[place] = payload
        found: List[bytes] = []
        while self.places and self.places[0] <= self.next:
            place = heappop(self.places)
            fresh = self.kept.pop(place)[self.next - place :]
            found += [fresh] * (fresh != b"")
            self.next += len(fresh)
        return found

    def finish(self, sequence: int) -> None:
        """The sender closes behind the byte before this sequence number."""
        if self.end is None:
            self.end = self.place(sequence)

    @property
    def finished(self) -> bool:
        return self.end is not None and self.next >= self.end

    @property
    def behind_a_gap(self) -> int:
        """How many bytes are there whose predecessors are missing."""
        return sum(map(len, self.kept.values()))
