"""Why a rule is shown, tied or not shown, in words.

A certificate says which of the three it is, and `monocle check` says whether the certificate holds. What stands here is an
explanation: it is found by running some packets through the table, and it proves nothing.
"""

from __future__ import annotations

from itertools import islice, product
from typing import AbstractSet, Iterator, List, NamedTuple, Optional, Sequence, Tuple

from .actions import ENQUEUE, OUTPUT, Emission, Sent, may, must, run
from .files import BadInput, Certificate, Link, Probe, Refuted, Rule, Table

from .headers import (ARP, DROP_MARK, ICMP, IPV4, TCP, UDP, WHOLE, Header, Match, class_fault, ethernet, header_of,
                      match_words, packet_words)  # fmt: skip

SHOWN, TIED, NOT_SHOWN = "shown", "tied", "not shown"
# how many packets are tried for a rule, what their free bits are filled with, and their Ethernet types and IP protocols
TRIALS = 24
FILLS = (0, WHOLE, int("5a" * 33, 16))
KINDS = ((IPV4, TCP), (IPV4, UDP), (IPV4, ICMP), (IPV4, 47), (0x88B5, 0), (ARP, 1))
BY_LOOKING = "Found by looking at some packets, as an explanation and not as a proof:"


class Explanation(NamedTuple):
    """What is said of a rule, as sentences."""

    state: str
    sentences: Tuple[str, ...]


def listed(words: List[str], most: int) -> str:
    """Some words, and how many more there are."""
    rest = len(words) - most
    return "; ".join(words[:most]) + (f"; and {rest} more" if rest > 0 else "")


class Explainer:
    """Explains the rules of a table."""

    def __init__(self, table: Table) -> None:
        self.table, self.view, self.rules = table, table.view, table.rules
        self.ports = [link.port for link in table.view.links]
        self.ranks = [rule.rank for rule in table.rules]
        self.bits = [(rule.match.value, rule.match.mask) for rule in table.rules]

    def name(self, place: int) -> str:
        return f"rule {place} ({self.rules[place].words()})"

    # what a table does with a packet

    def overlapping(self, place: int) -> List[int]:
        """The other rules that take some packet of this one, in table order."""
        value, mask = self.bits[place]
        return [one for one, (v, m) in enumerate(self.bits) if not (v ^ value) & m & mask and one != place]

    def winners(self, header: Header, sure: Optional[int] = None, without: Optional[int] = None,
                among: Optional[Sequence[int]] = None) -> Tuple[List[int], bool]:  # fmt: skip
        """The rules that may take a packet, and whether none may. Unsure rules hide nothing, but for the one at `sure`;
        `among` may name, in table order, all rules that come into question."""
        number, best, found = header.number(), -1, []
        for place in range(len(self.rules)) if among is None else among:
            if self.ranks[place] < best:
                break
            value, mask = self.bits[place]
            if not (number ^ value) & mask and place != without:
                found.append(place)
                if not self.rules[place].unsure or place == sure:
                    best = self.ranks[place]
        return found, best < 0

    def uncraftable(self, h: Header) -> Optional[str]:
        """Why a packet cannot be a probe, or None where it can."""
        if h.in_port not in self.ports:
            return f"no monitored switch is linked at port {h.in_port}, so no probe comes in there"
        if h.dl_vlan != self.view.tag:
            return f"probes to this switch have the VLAN id {self.view.tag}"
        if h.dl_src >> 40 & 1:
            return "the source address of a probe is never that of a group"
        if h.dl_dst == DROP_MARK or 0x0180C2000000 <= h.dl_dst <= 0x0180C200000F:
            return f"the destination address {ethernet(h.dl_dst)} is reserved"
        return class_fault(h)

    def uncaught(self, sent: Sent) -> Optional[str]:
        """Why nobody sees what is sent, or None where somebody does."""
        emission, whole = sent
        if emission.door == "controller":
            return (
                None
                if whole
                else "it sends fewer than 128 bytes to the controller, which need not hold a whole probe"
            )
        if emission.door == "miss":
            return None if self.view.miss >= 128 else "the controller gets too little of a missed packet"
        link = self.view.link(emission.port)
        if link is None:
            return f"it sends by port {emission.port}, where no monitored switch is linked"
        vlan = emission.header.dl_vlan
        if vlan not in self.view.tags or vlan == link.tag:
            said = "without a VLAN tag" if vlan == 0xFFFF else f"with the VLAN id {vlan}"
            return f"it sends by port {emission.port} {said}, which switch {link.switch:016x} does not catch"
        return None

    def separates(self, place: int, header: Header, emission: Emission) -> bool:
        """Seeing this of this packet tells the table from the one without the rule."""
        whole = Sent(emission, True)
        if self.uncraftable(header) or self.uncaught(whole):
            return False
        taking, missed = self.winners(header, sure=place)
        if len(taking) != 1 or missed or not must(self.rules[taking[0]].actions, header, emission):
            if taking or emission != Emission("miss", 0, header):
                return False
        other, other_missed = self.winners(header, without=place)
        if any(may(self.rules[one].actions, header, emission) for one in other):
            return False
        return not (other_missed and emission == Emission("miss", 0, header))

    # in words

    def door(self, sent: Sent, header: Header) -> str:
        """Where an emission goes, and how the packet was changed."""
        emission = sent.emission
        changes = [name for name in Header._fields if getattr(emission.header, name) != getattr(header, name)]
        said = (
            f", with {', '.join(f'{name}={self.value(name, emission.header)}' for name in changes)}"
            if changes
            else ""
        )
        if emission.door == "controller":
            return "to the controller" + said
        link = self.view.link(emission.port)
        return f"by port {emission.port}{self.far(link)}{said}"

    @staticmethod
    def value(name: str, header: Header) -> str:
        """One field of a header in words."""
        words = match_words(Match(header.number(), WHOLE))
        found = [word for word in words.split(",") if word.startswith(f"{name}=")]
        return found[0].partition("=")[2] if found else str(getattr(header, name))

    @staticmethod
    def far(link: Optional[Link]) -> str:
        return f" (port {link.far_port} of switch {link.switch:016x})" if link else ""

    def doings(self, places: List[int], header: Header) -> str:
        """What these rules do with a packet."""
        said = []
        for place in places:
            sent, unknown = run(self.rules[place].actions, header)
            doors = " and ".join(self.door(one, header) for one in sent)
            if unknown:
                said.append(f"{self.name(place)}, of which the switch decides what it sends")
            elif doors:
                said.append(f"{self.name(place)} takes it and sends it {doors}")
            else:
                said.append(f"{self.name(place)} takes it and sends it nowhere")
        return " or ".join(said) if said else "no rule takes it, so it is a miss"

    # the three kinds

    def explain(self, place: int, certificate: Certificate) -> Explanation:
        if isinstance(certificate, Probe):
            return Explanation(SHOWN, tuple(self.why_shown(place, certificate)))
        if isinstance(certificate, Refuted):
            return Explanation(NOT_SHOWN, tuple(self.why_not(place)))
        return Explanation(TIED, tuple(self.why_tied(place)))

    def why_shown(self, place: int, probe: Probe) -> Iterator[str]:
        header, emission = probe
        link = self.view.link(header.in_port)
        yield f"Its probe comes in by port {header.in_port}{self.far(link)}: {packet_words(header)}"
        yield f"The rule sends it {self.door(Sent(emission, True), header)}, where it is seen."
        yield f"Without the rule: {self.doings(self.winners(header, without=place)[0], header)}."
        if not self.separates(place, header, emission):
            yield "But read again, this packet does not show the rule: let `monocle check` judge the certificate."

    def why_tied(self, place: int) -> Iterator[str]:
        rule = self.rules[place]
        ties = [other for other in self.overlapping(place) if self.ranks[other] == rule.rank]
        if not ties:
            yield "But no rule of the same rank overlaps it: let `monocle check` judge the certificate."
            return
        both = Match(
            rule.match.value | self.rules[ties[0]].match.value, rule.match.mask | self.rules[ties[0]].match.mask
        )
        yield f"Of one rank with it, and overlapping it: {listed([self.name(other) for other in ties], 3)}."
        yield f"A packet such as {match_words(both) or 'any'} is taken by both, and the switch may choose."

    def why_not(self, place: int) -> Iterator[str]:
        yield "No packet shows it: the certificate refutes each case."
        reason = self.plain_reason(self.rules[place])
        if reason:
            yield f"{BY_LOOKING} {reason}."
            return
        yield f"{BY_LOOKING} {self.looked(place)}."

    def plain_reason(self, rule: Rule) -> Optional[str]:
        """Why no packet can show a rule, where the rule itself says it."""
        in_port, vlan = rule.match.field("in_port"), rule.match.field("dl_vlan")
        if not self.ports:
            return "no monitored switch is linked to this one, so no probe comes in"
        if not rule.actions:
            return "it drops what it takes, and what is dropped is not seen"
        for action in rule.actions:
            if action.unknown:
                return f"its action {action.words()} leaves to the switch what is sent, so nothing is sure to be seen"
        if not any(action.kind in (OUTPUT, ENQUEUE) for action in rule.actions):
            return "it changes what it takes and sends it nowhere"
        if in_port is not None and in_port not in self.ports:
            return f"it takes what comes in by port {in_port}, where no monitored switch is linked"
        if vlan is not None and vlan != self.view.tag:
            said = "untagged packets" if vlan == 0xFFFF else f"packets of VLAN {vlan}"
            return f"it takes {said} alone, and probes to this switch have the VLAN id {self.view.tag}"
        return None

    # packets on trial

    def trials(self, place: int, below: List[int]) -> Iterator[Header]:
        """Packets that a rule takes and that can be probes, some of them such as the rules below take."""
        match = self.rules[place].match
        free = frozenset(name for name in Header._fields if not match.compared(name))
        ports = self.ports if "in_port" in free else [match.field("in_port") or 0]
        donors = [Match(0, 0)] + [self.rules[one].match for one in below[:16]]
        fixed = [Match(match.value | donor.value & ~match.mask, match.mask | donor.mask) for donor in donors]
        tried = set()
        given = match.field("dl_type") or 0x88B5, match.field("nw_proto") or 0
        for kind, fill, both in product([*KINDS, given], FILLS, fixed):
            if not self.is_of(both, *kind):
                continue
            base = header_of(both.value | fill & ~both.mask)._replace(dl_type=kind[0], nw_proto=kind[1])
            for port in ports:
                header = self.mended(base, free, port)
                if header not in tried and match.takes(header.number()) and not self.uncraftable(header):
                    yield header
                tried.add(header)

    @staticmethod
    def is_of(match: Match, kind: int, protocol: int) -> bool:
        """The match leaves room for packets of this Ethernet type and IP protocol."""
        return match.field("dl_type") in (None, kind) and match.field("nw_proto") in (None, protocol)

    def mended(self, h: Header, free: AbstractSet[str], port: int) -> Header:
        """A header whose free fields are changed so that it can be a probe that comes in by this port."""
        changes = {"in_port": port, "dl_vlan": self.view.tag, "dl_src": h.dl_src & ~(1 << 40) | 2 << 40,
                   "dl_vlan_pcp": h.dl_vlan_pcp & 7, "nw_tos": h.nw_tos & 0xFC}  # fmt: skip
        if h.dl_type == ARP:
            changes.update(nw_tos=0, tp_src=0, tp_dst=0)
        elif h.dl_type != IPV4:
            changes.update(dict.fromkeys(Header._fields[6:], 0))
        elif h.nw_proto not in (TCP, UDP):
            kept = 0xFF if h.nw_proto == ICMP else 0
            changes.update(tp_src=h.tp_src & kept, tp_dst=h.tp_dst & kept)
        return h._replace(**{name: value for name, value in changes.items() if name in free})

    def looked(self, place: int) -> str:
        """What keeps a rule from being seen, by trying packets."""
        rule, overlapping = self.rules[place], self.overlapping(place)
        wider = [one for one in overlapping if self.ranks[one] > rule.rank and not self.rules[one].unsure
                 and self.rules[one].match.covers(rule.match)]  # fmt: skip
        if wider:
            return f"{self.name(wider[0])} stands above it and takes all that it would take"
        among = sorted(overlapping + [place])
        found: "dict[str, None]" = {}
        hidden: "dict[int, None]" = {}
        trials = list(islice(self.trials(place, [one for one in overlapping if one > place]), TRIALS))
        for header in trials:
            taking, _ = self.winners(header, sure=place, among=among)
            if taking == [place]:
                found.update((reason, None) for reason in self.unseen(place, header, among))
            hidden.update((one, None) for one in taking if one != place)
        if not trials:
            return self.no_trial(rule)
        said = (
            [f"rules above take its packets, such as {listed([self.name(one) for one in hidden], 2)}"]
            if hidden
            else []
        )
        return listed(list(found) + said, 3)

    def unseen(self, place: int, header: Header, among: List[int]) -> Iterator[str]:
        """Why this packet, which the rule takes, doesn't show it."""
        sent, _ = run(self.rules[place].actions, header)
        if not sent:
            yield f"what comes in by port {header.in_port} would go back by it alone, and so goes nowhere"
        others, _ = self.winners(header, without=place, among=among)
        for one in sent:
            why = self.uncaught(one)
            if why:
                yield why
                continue
            same = [other for other in others if may(self.rules[other].actions, header, one.emission)]
            if not same:
                yield f"but read again, {packet_words(header)} would show it: let `monocle check` judge the certificate"
                continue
            unknown = run(self.rules[same[0]].actions, header)[1]
            did = "may do the same, since the switch decides what it sends" if unknown else "does the same"
            yield f"{self.name(same[0])} stands below it and {did}"

    def no_trial(self, rule: Rule) -> str:
        """Why no probe has a header that the rule takes."""
        free = frozenset(name for name in Header._fields if not rule.match.compared(name))
        given = header_of(rule.match.value)
        for kind, protocol in [*KINDS, (given.dl_type, given.nw_proto)]:
            base = given._replace(dl_type=kind, nw_proto=protocol)
            header = self.mended(base, free, given.in_port or self.ports[0])
            why = self.uncraftable(header) if rule.match.takes(header.number()) else None
            if why:
                return f"no probe can be a packet that it takes: {why}"
        return "no packet that was tried is taken by it"


def explain_table(table: Table, certificates: Tuple[Certificate, ...], name: str) -> List[Explanation]:
    """An explanation for each rule, in table order."""
    if len(table.rules) != len(certificates):
        raise BadInput(name, f"has {len(certificates)} certificates for a table of {len(table.rules)} rules")
    explainer = Explainer(table)
    return [explainer.explain(place, certificate) for place, certificate in enumerate(certificates)]
