"""Actions of OpenFlow 1.0: their bytes, their words, and what they send of a packet."""

from __future__ import annotations

import struct
from typing import List, NamedTuple, Sequence, Tuple

from .headers import IPV4, NO_VLAN, PORT_NAMES, TCP, UDP, Header, dotted, ethernet

LAST_PORT, IN_PORT, CONTROLLER = 0xFF00, 0xFFF8, 0xFFFD
(OUTPUT, SET_VLAN_VID, SET_VLAN_PCP, STRIP_VLAN, SET_DL_SRC, SET_DL_DST, SET_NW_SRC, SET_NW_DST, SET_NW_TOS, SET_TP_SRC,
 SET_TP_DST, ENQUEUE) = range(12)  # fmt: skip
# how each type lies in its bytes, behind type and length
LAYOUTS = {
    OUTPUT: ">HH", SET_VLAN_VID: ">H2x", SET_VLAN_PCP: ">B3x", STRIP_VLAN: ">4x", SET_DL_SRC: ">6s6x",
    SET_DL_DST: ">6s6x", SET_NW_SRC: ">I", SET_NW_DST: ">I", SET_NW_TOS: ">B3x", SET_TP_SRC: ">H2x", SET_TP_DST: ">H2x",
    ENQUEUE: ">H6xI",
}  # fmt: skip
WORDS = {
    SET_VLAN_VID: "mod_vlan_vid", SET_VLAN_PCP: "mod_vlan_pcp", SET_DL_SRC: "mod_dl_src", SET_DL_DST: "mod_dl_dst",
    SET_NW_SRC: "mod_nw_src", SET_NW_DST: "mod_nw_dst", SET_NW_TOS: "mod_nw_tos", SET_TP_SRC: "mod_tp_src",
    SET_TP_DST: "mod_tp_dst",
}  # fmt: skip


class Action(NamedTuple):
    """A type and what it sets: a value, the max_len of an OUTPUT or the queue of an ENQUEUE, or the bytes of another."""

    kind: int
    value: int = 0
    extra: int = 0
    raw: bytes = b""

    def wire(self) -> bytes:
        if self.raw:
            return self.raw
        layout = LAYOUTS[self.kind]
        values: "list[int | bytes]" = [self.value, self.extra]
        if self.kind in (SET_DL_SRC, SET_DL_DST):
            values[0] = self.value.to_bytes(6, "big")
        held = {STRIP_VLAN: 0, OUTPUT: 2, ENQUEUE: 2}.get(self.kind, 1)
        return struct.pack(">HH", self.kind, 4 + struct.calcsize(layout)) + struct.pack(layout, *values[:held])

    def words(self) -> str:
        """As ovs-ofctl writes it; the length of an OUTPUT says something to the controller alone."""
        port = PORT_NAMES.get(self.value, f"output:{self.value}")
        if self.raw:
            return f"unknown({self.raw.hex()})"
        if self.kind == OUTPUT:
            return f"CONTROLLER:{self.extra}" if self.value == CONTROLLER else port
        if self.kind == ENQUEUE:
            return f"enqueue:{PORT_NAMES.get(self.value, self.value)}:{self.extra}"
        if self.kind == STRIP_VLAN:
            return "strip_vlan"
        if self.kind in (SET_DL_SRC, SET_DL_DST):
            return f"{WORDS[self.kind]}:{ethernet(self.value)}"
        shown = dotted(self.value) if self.kind in (SET_NW_SRC, SET_NW_DST) else self.value
        return f"{WORDS[self.kind]}:{shown}"

    @property
    def unknown(self) -> bool:
        """The switch decides what it sends, so nothing is sure of it."""
        if self.raw:
            return True
        if self.kind == OUTPUT:
            return self.value > LAST_PORT and self.value not in (IN_PORT, CONTROLLER)
        return self.kind == ENQUEUE and self.value > LAST_PORT and self.value != IN_PORT


Actions = Tuple[Action, ...]


def read_action(wire: bytes) -> Action:
    """One action of these bytes, whose length is right."""
    kind = int.from_bytes(wire[:2], "big")
    if kind not in LAYOUTS:
        return Action(kind, raw=wire)
    values = struct.unpack(LAYOUTS[kind], wire[4:])
    if kind in (SET_DL_SRC, SET_DL_DST):
        return Action(kind, int.from_bytes(values[0], "big"))
    return Action(kind, *values)


def read_actions(wire: bytes) -> Actions:
    """The actions of these bytes (OpenFlow 1.0.0, flow action structures); ValueError at a length that is wrong."""
    actions, place = [], 0
    while place < len(wire):
        if len(wire) - place < 4:
            raise ValueError(f"an action is cut at byte {place}")
        kind, length = struct.unpack_from(">HH", wire, place)
        right = 4 + struct.calcsize(LAYOUTS[kind]) if kind in LAYOUTS else length
        if length == 0 or length % 8 or length > len(wire) - place or length != right:
            raise ValueError(f"the action at byte {place} has a wrong length")
        actions.append(read_action(wire[place : place + length]))
        place += length
    return tuple(actions)


def write_actions(actions: Sequence[Action]) -> bytes:
    return b"".join(action.wire() for action in actions)


def actions_words(actions: Sequence[Action]) -> str:
    return ",".join(action.words() for action in actions) or "drop"


class Emission(NamedTuple):
    """A packet that leaves: by a port, to the controller as an action says, or to it because no rule takes it."""

    door: str  # `port`, `controller` or `miss`
    port: int
    header: Header


class Sent(NamedTuple):
    """An emission, and whether the controller would see the whole of it."""

    emission: Emission
    whole: bool


def changed(action: Action, now: Header) -> Header:
    """The header after one action that sets a field."""
    value, ipv4 = action.value, now.dl_type == IPV4
    if action.kind == STRIP_VLAN:
        return now._replace(dl_vlan=NO_VLAN, dl_vlan_pcp=0)
    if action.kind == SET_VLAN_VID:
        pcp = 0 if now.dl_vlan == NO_VLAN else now.dl_vlan_pcp
        return now._replace(dl_vlan=value & 0xFFF, dl_vlan_pcp=pcp)
    if action.kind == SET_VLAN_PCP:
        return now._replace(dl_vlan=0 if now.dl_vlan == NO_VLAN else now.dl_vlan, dl_vlan_pcp=value & 7)
    if action.kind in (SET_DL_SRC, SET_DL_DST):
        return now._replace(**{"dl_src" if action.kind == SET_DL_SRC else "dl_dst": value})
    if action.kind in (SET_TP_SRC, SET_TP_DST):
        name = "tp_src" if action.kind == SET_TP_SRC else "tp_dst"
        return now._replace(**{name: value}) if ipv4 and now.nw_proto in (TCP, UDP) else now
    name = {SET_NW_SRC: "nw_src", SET_NW_DST: "nw_dst", SET_NW_TOS: "nw_tos"}[action.kind]
    return now._replace(**{name: value & 0xFC if name == "nw_tos" else value}) if ipv4 else now


def run(actions: Sequence[Action], header: Header) -> Tuple[List[Sent], bool]:
    """What actions send of a packet, in order, and whether one is unknown. Nothing goes back to where it came in but by
    IN_PORT."""
    now, sent, unknown = header, [], False
    for action in actions:
        if action.unknown:
            unknown = True
        elif action.kind not in (OUTPUT, ENQUEUE):
            now = changed(action, now)
        elif action.value == CONTROLLER:
            sent.append(Sent(Emission("controller", 0, now), action.extra >= 128))
        elif action.value == IN_PORT:
            sent.append(Sent(Emission("port", header.in_port, now), True))
        elif action.value != header.in_port:
            sent.append(Sent(Emission("port", action.value, now), True))
    return sent, unknown


def must(actions: Sequence[Action], header: Header, emission: Emission) -> bool:
    sent, unknown = run(actions, header)
    return not unknown and Sent(emission, True) in sent


def may(actions: Sequence[Action], header: Header, emission: Emission) -> bool:
    sent, unknown = run(actions, header)
    return unknown or any(one.emission == emission for one in sent)
