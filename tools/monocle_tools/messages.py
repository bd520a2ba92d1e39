"""Frames of OpenFlow 1.0 and the packets that they bear, in words."""

from __future__ import annotations

import struct
from typing import Iterator, NamedTuple, Optional, Tuple

from .actions import actions_words, read_actions
from .headers import IPV4, NO_VLAN, PORT_NAMES, Header, match_words, packet_words, read_match

OWN_XID = 0x4D6F6E6F
TYPES = (
    "HELLO", "ERROR", "ECHO_REQUEST", "ECHO_REPLY", "VENDOR", "FEATURES_REQUEST", "FEATURES_REPLY", "GET_CONFIG_REQUEST",
    "GET_CONFIG_REPLY", "SET_CONFIG", "PACKET_IN", "FLOW_REMOVED", "PORT_STATUS", "PACKET_OUT", "FLOW_MOD", "PORT_MOD",
    "STATS_REQUEST", "STATS_REPLY", "BARRIER_REQUEST", "BARRIER_REPLY", "QUEUE_GET_CONFIG_REQUEST",
    "QUEUE_GET_CONFIG_REPLY",
)  # fmt: skip
ERROR, FEATURES_REPLY, PACKET_IN, FLOW_REMOVED, PACKET_OUT, FLOW_MOD, BARRIER_REQUEST, BARRIER_REPLY = (
    1, 6, 10, 11, 13, 14, 18, 19)  # fmt: skip
COMMANDS = ("add", "modify", "modify_strict", "delete", "delete_strict")
FLAGS = {1: "send_flow_rem", 2: "check_overlap", 4: "emerg"}
ERRORS = {
    (1, 6): "bad length", (2, 1): "bad length of an action", (3, 0): "all tables are full", (3, 1): "overlap",
    (3, 2): "not permitted", (3, 4): "bad command",
}  # fmt: skip


class Frame(NamedTuple):
    """One frame: its type, transaction id, and all its bytes."""

    kind: int
    xid: int
    wire: bytes

    @property
    def name(self) -> str:
        return TYPES[self.kind] if self.kind < len(TYPES) else f"TYPE_{self.kind}"


def frame_of(wire: bytes) -> Frame:
    return Frame(wire[1], int.from_bytes(wire[4:8], "big"), wire)


def is_frame(wire: bytes) -> bool:
    return len(wire) >= 8 and int.from_bytes(wire[2:4], "big") == len(wire)


class Cutter:
    """Cuts a stream of bytes into frames, whatever its pieces; behind a length below 8 nothing is cut."""

    def __init__(self) -> None:
        self.pending = bytearray()

    def feed(self, piece: bytes) -> Iterator[Frame]:
        self.pending += piece
        while len(self.pending) >= 8:
            length = int.from_bytes(self.pending[2:4], "big")
            if length < 8 or length > len(self.pending):
                return
            yield frame_of(bytes(self.pending[:length]))
            del self.pending[:length]


# packets


class Nonce(NamedTuple):
    """What a probe bears: the key of its run, and its serial."""

    key: int
    serial: int


def read_packet(wire: bytes) -> Optional[Tuple[Header, Optional[Nonce]]]:
    """The header of an Ethernet packet, with at most one VLAN tag, and the nonce of a probe; None for other packets."""
    if len(wire) < 14:
        return None
    dl_dst, dl_src, kind = wire[:6], wire[6:12], int.from_bytes(wire[12:14], "big")
    vlan, pcp, body = NO_VLAN, 0, wire[14:]
    if kind == 0x8100:
        if len(body) < 4:
            return None
        tci, kind = struct.unpack_from(">HH", body)
        vlan, pcp, body = tci & 0xFFF, tci >> 13, body[4:]
    if kind < 0x0600 or kind in (0x8100, 0x88A8):
        return None
    header = Header(0, int.from_bytes(dl_src, "big"), int.from_bytes(dl_dst, "big"), vlan, pcp, kind)
    return (header, nonce_of(body)) if kind != IPV4 else read_ipv4(header, body)


def read_ipv4(header: Header, body: bytes) -> Optional[Tuple[Header, Optional[Nonce]]]:
    """An IPv4 packet without options or fragments, and TCP without options."""
    if len(body) < 20 or body[0] != 0x45:
        return None
    tos, total, fragment, protocol = body[1], *struct.unpack_from(">H2xHxB", body, 2)
    if not 20 <= total <= len(body) or fragment & 0x3FFF:
        return None
    header = header._replace(nw_tos=tos & 0xFC, nw_proto=protocol, nw_src=int.from_bytes(body[12:16], "big"),
                             nw_dst=int.from_bytes(body[16:20], "big"))  # fmt: skip
    rest = body[20:total]
    length = {6: 20, 17: 8, 1: 8}.get(protocol, 0)
    if len(rest) < length or protocol == 6 and rest[12] >> 4 != 5:
        return None
    if protocol in (6, 17):
        header = header._replace(tp_src=int.from_bytes(rest[:2], "big"), tp_dst=int.from_bytes(rest[2:4], "big"))
    elif protocol == 1:
        header = header._replace(tp_src=rest[0], tp_dst=rest[1])
    return header, nonce_of(rest[length:])


def nonce_of(payload: bytes) -> Optional[Nonce]:
    if len(payload) < 24 or not payload.startswith(b"MONOCLE1"):
        return None
    return Nonce(*struct.unpack_from(">QQ", payload, 8))


def port_word(port: int) -> str:
    return PORT_NAMES.get(port, str(port))


def packet_said(wire: bytes, in_port: int) -> str:
    """A packet in words, as a probe where it is one."""
    found = read_packet(wire)
    if found is None:
        return f"a packet of {len(wire)} bytes"
    header, nonce = found
    words = packet_words(header._replace(in_port=in_port))
    words = words if in_port else words.replace("in_port=0,", "")
    return f"probe {nonce.serial}: {words}" if nonce else words


# frames


def flow_mod_said(wire: bytes) -> str:
    """A FLOW_MOD as ovs-ofctl would have it."""
    command, idle, hard, priority, buffer, out_port, flags = struct.unpack_from(">HHHHIHH", wire, 56)
    match = match_words(read_match(wire[8:48]))
    said = f"priority={priority}{',' if match else ''}{match}"
    name = COMMANDS[command] if command < len(COMMANDS) else f"command {command}"
    more = [f"idle_timeout={idle}"] * (idle > 0) + [f"hard_timeout={hard}"] * (hard > 0)
    more += [f"out_port={port_word(out_port)}"] * (out_port != 0xFFFF and name.startswith("delete"))
    more += [word for bit, word in FLAGS.items() if flags & bit] + [f"buffer={buffer}"] * (buffer != 0xFFFFFFFF)
    said = ",".join([said, *more])
    if name.startswith("delete"):
        return f"{name} {said}"
    try:
        return f"{name} {said} actions={actions_words(read_actions(wire[72:]))}"
    except ValueError as fault:
        return f"{name} {said} ({fault})"


def body_said(frame: Frame) -> str:
    """What a frame says behind its type, or nothing."""
    wire, size = frame.wire, len(frame.wire)
    if frame.kind == FLOW_MOD and size >= 72:
        return flow_mod_said(wire)
    if frame.kind == PACKET_OUT and size >= 16:
        length = int.from_bytes(wire[14:16], "big")
        try:
            actions = actions_words(read_actions(wire[16 : 16 + length]))
        except ValueError as fault:
            actions = f"({fault})"
        return f"{packet_said(wire[16 + length :], 0)} actions={actions}"
    if frame.kind == PACKET_IN and size >= 18:
        in_port = int.from_bytes(wire[14:16], "big")
        return f"{'by an action' if wire[16] else 'without a match'}, {packet_said(wire[18:], in_port)}"
    if frame.kind == FEATURES_REPLY and size >= 32:
        return f"datapath {wire[8:16].hex()}"
    if frame.kind == ERROR and size >= 12:
        kind, code = struct.unpack_from(">HH", wire, 8)
        return f"type {kind} code {code}" + (f" ({ERRORS[kind, code]})" if (kind, code) in ERRORS else "")
    if frame.kind == FLOW_REMOVED and size >= 88:
        match, priority = match_words(read_match(wire[8:48])), int.from_bytes(wire[56:58], "big")
        return f"priority={priority}{',' if match else ''}{match}"
    return ""


def frame_said(frame: Frame) -> str:
    """A frame in words: its type, transaction id and what it says."""
    body = body_said(frame)
    return f"{frame.name} (xid 0x{frame.xid:x}{', of monocle' if frame.xid == OWN_XID else ''}){': ' if body else ''}{body}"
