"""Captures made by hand: TCP segments one by one, and the files that hold them."""

from __future__ import annotations

import struct
from typing import List, NamedTuple, Sequence

FIN, SYN, RST, ACK, SYN_ACK = 1, 2, 4, 16, 18


class Wire(NamedTuple):
    """A captured packet: when, in microseconds, and its bytes."""

    time: int
    frame: bytes


class Side:
    """A side of a connection that counts its sequence numbers as TCP does."""

    def __init__(self, address: str, port: int, first: int) -> None:
        self.address, self.port, self.first, self.next = address, port, first, first

    def ip(self) -> bytes:
        return bytes(map(int, self.address.split(".")))

    def sends(self, other: Side, time: int, payload: bytes = b"", flags: int = ACK, sequence: int = -1) -> Wire:
        """The next segment to the other side, or with `sequence` one at this place of the stream, counted from the SYN."""
        number = self.next if sequence < 0 else self.first + sequence
        if sequence < 0:
            self.next += len(payload) + bool(flags & (SYN | FIN))
        return Wire(time, ethernet(self, other, number, payload, flags))


def ethernet(source: Side, target: Side, sequence: int, payload: bytes, flags: int) -> bytes:
    """An Ethernet frame with a TCP segment; checksums are not looked at."""
    tcp = struct.pack(
        ">HHIIBBHHH", source.port, target.port, sequence % 2**32, target.next % 2**32, 0x50, flags, 4096, 0, 0
    )
    ip = struct.pack(">BBHIBBH", 0x45, 0, 40 + len(payload), 0, 64, 6, 0) + source.ip() + target.ip()
    return bytes.fromhex("020000000001020000000002") + b"\x08\x00" + (ip + tcp + payload).ljust(46, b"\0")


def greeting(switch: Side, controller: Side, time: int) -> List[Wire]:
    """The three segments that open a connection."""
    return [
        switch.sends(controller, time, flags=SYN),
        controller.sends(switch, time, flags=SYN_ACK),
        switch.sends(controller, time),
    ]


def ipv6(wire: Wire) -> Wire:
    """The same segment in an IPv6 packet, behind an option header."""
    ip = wire.frame[14:]
    tcp = ip[20 : int.from_bytes(ip[2:4], "big")]
    ends = b"".join(bytes.fromhex("20010db8") + bytes(8) + ip[at : at + 4] for at in (12, 16))
    head = struct.pack(">IHBB", 0x60000000, 8 + len(tcp), 0, 64) + ends + b"\6\0" + bytes(6)
    return Wire(wire.time, wire.frame[:12] + b"\x86\xdd" + head + tcp)


def pcap(packets: Sequence[Wire], order: str = "<", nano: bool = False, link: int = 1) -> bytes:
    """A pcap file of packets of this kind of link, Ethernet at first."""
    head = struct.pack(f"{order}IHHiIII", 0xA1B23C4D if nano else 0xA1B2C3D4, 2, 4, 0, 0, 65535, link)
    scale = 1000 if nano else 1
    return head + b"".join(
        struct.pack(f"{order}IIII", time // 10**6, time % 10**6 * scale, len(frame), len(frame)) + frame
        for time, frame in packets
    )


def block(order: str, kind: int, body: bytes) -> bytes:
    body += bytes(-len(body) % 4)
    return struct.pack(f"{order}II", kind, len(body) + 12) + body + struct.pack(f"{order}I", len(body) + 12)


def pcapng(packets: Sequence[Wire], order: str = "<") -> bytes:
    """A pcapng file of one section, whose times are in nanoseconds."""
    parts = [block(order, 0x0A0D0D0A, struct.pack(f"{order}IHHq", 0x1A2B3C4D, 1, 0, -1))]
    parts.append(block(order, 1, struct.pack(f"{order}HHIHHB3xHH", 1, 0, 0, 9, 1, 9, 0, 0)))
    for time, frame in packets:
        head = struct.pack(f"{order}IIIII", 0, time * 1000 >> 32, time * 1000 & 0xFFFFFFFF, len(frame), len(frame))
        parts.append(block(order, 6, head + frame))
    return b"".join(parts)
