"""Traces: what went into a run of `monocle replay`, what came out, and report lines; and both in words."""

from __future__ import annotations

import json
import re
from typing import Any, Callable, Dict, Iterator, List, NamedTuple, Optional, Tuple

from .files import LARGEST, BadInput, Lines, Rule, read_rule
from .headers import match_words, read_match
from .messages import FLOW_MOD, OWN_XID, Frame, Nonce, body_said, frame_of, frame_said, is_frame, read_packet

# what comes in


class Record(NamedTuple):
    """A record of a trace, by number from 1: what kind it is, its session and side, its bytes, or another number."""

    number: int
    kind: str  # `open`, `close`, `piece`, `tick`, `answer`, `echo`, `lose`
    session: int = 0
    side: str = ""
    wire: bytes = b""


def read_trace(name: str, text: str) -> List[Record]:
    """The records of a trace file."""
    lines = Lines(name, text)
    lines.bytes_of(lines.words("monocle-trace 1 KEY")[2], 8, "a key")
    records: List[Record] = []
    opened = 0
    for line in lines:
        record = read_record(lines, line.split(" "), len(records) + 1)
        opened += record.kind == "open"
        if record.kind in ("close", "piece", "echo") and record.session >= opened:
            raise lines.bad(f"session {record.session} was not opened")
        records.append(record)
    lines.whole()
    return records


def read_record(lines: Lines, words: List[str], number: int) -> Record:
    """One record of a trace."""

    def numbered(place: int, most: int = LARGEST) -> int:
        return lines.number_of(words[place], 0, most, "this word")

    if len(words) == 1 and words[0] in ("open", "tick", "lose"):
        return Record(number, words[0])
    if len(words) == 2 and words[0] == "close":
        return Record(number, "close", numbered(1))
    if len(words) == 2 and words[0] == "answer":
        numbered(1, 2**32 - 1)
        return Record(number, "answer")
    if len(words) == 4 and words[0] == "from" and words[1] in ("controller", "switch"):
        wire = lines.bytes_of(words[3], None, "a piece")
        if len(wire) > 4096:
            raise lines.bad("has a piece of more than 4096 bytes")
        return Record(number, "piece", numbered(2), words[1], wire)
    if len(words) == 6 and words[0] == "echo":
        numbered(1), numbered(3, 65535), numbered(4, 1)
        return Record(number, "echo", numbered(2), "switch")
    raise lines.bad("is no record of a trace")


# what comes out


class Put(NamedTuple):
    record: int
    session: int
    to: str
    frame: Frame
    lost: bool = False


class End(NamedTuple):
    record: int
    session: int


class Offer(NamedTuple):
    record: int
    job: int
    session: int
    edit: int
    version: int


class Verdict(NamedTuple):
    record: int
    job: int
    kind: str


class Sending(NamedTuple):
    """A probe was made: its serial, and the job that asked for it."""

    record: int
    serial: int
    job: int


class Report(NamedTuple):
    record: int
    line: Dict[str, Any]


class Row(NamedTuple):
    """An entry of a session's expected table at the end."""

    session: int
    rule: Rule


def read_output(name: str, text: str) -> List[NamedTuple]:
    """The lines that `monocle replay` writes."""
    lines = Lines(name, text)
    found: List[NamedTuple] = []
    for line in lines:
        words = line.split(" ")
        if words[0] == "table" and len(words) > 1:
            session = lines.number_of(words[1], 0, LARGEST, "a session")
            found.append(Row(session, read_rule(lines, words[2:], True)))
        else:
            found.append(read_event(lines, words, line))
    lines.whole()
    return found


# the words of each kind of line, `N` for a number
FORMS = {
    "put": "N put N SIDE HEX", "lost": "N lost N SIDE HEX", "end": "N end N", "offer": "N offer N N N N",
    "verdict": "N verdict N KIND", "probe": "N probe N N",
}  # fmt: skip


def read_event(lines: Lines, words: List[str], line: str) -> NamedTuple:
    """One line that begins with the number of a record."""
    kind = words[1] if len(words) > 1 else ""
    record = lines.number_of(words[0], 0, LARGEST, "a record")
    if kind == "line":
        return Report(record, read_report(lines, line.split(" ", 2)[2] if len(words) > 2 else ""))
    form = FORMS.get(kind, "").split(" ")
    if kind not in FORMS or len(words) != len(form):
        raise lines.bad("is no line that `monocle replay` writes")
    numbers = [lines.number_of(word, 0, LARGEST, "this word") for word, part in zip(words, form) if part == "N"]
    if kind in ("put", "lost"):
        wire = lines.bytes_of(words[4], None, "a frame")
        if words[3] not in ("switch", "controller") or not is_frame(wire):
            raise lines.bad("is no frame to a switch or controller")
        return Put(record, numbers[1], words[3], frame_of(wire), kind == "lost")
    if kind == "verdict":
        if words[3] not in ("probe", "indistinguishable", "skipped"):
            raise lines.bad("is no verdict")
        return Verdict(record, numbers[1], words[3])
    if kind == "end":
        return End(*numbers)
    if kind == "offer":
        return Offer(*numbers)
    return Sending(*numbers)


# report lines

CAUSES = {
    "peer": "one of its ends closed", "bad-length": "a frame with a length below 8 came",
    "bad-version": "a frame of another version came", "lost": "an output was lost", "too-many": "64 sessions are open",
    "features": "the switch's features were cut", "unknown-switch": "the settings lack this switch",
    "same-switch": "this switch has a session already", "not-armed": "the switch refused to be armed",
}  # fmt: skip
FACTS = {
    "nochange": "changes nothing", "overlap": "ties with a rule of the same rank, so it is not monitored",
    "indistinguishable": "is shown by no packet", "closing": "was seen by its stand-in, and the drop itself follows",
    "settled": "counts as done, since the switch answered the barrier behind it", "rejected": "was refused by the switch",
    "silent": "was not seen to work in time",
}  # fmt: skip
WATCHED = {"seen": "was seen to work", "missing": "was not seen in time", "unwatchable": "is shown by no packet"}
MEMBERS: Dict[str, Dict[str, type]] = {
    "armed": {"datapath": str, "session": int, "tag": int}, "closed": {"cause": str, "session": int},
    "confirmed": {"edit": int, "serial": int, "session": int},
    **{event: {"edit": int, "session": int} for event in FACTS},
    "seen": {"match": str, "priority": int, "serial": int, "session": int},
    **{event: {"match": str, "priority": int, "session": int} for event in ("missing", "unwatchable")},
}  # fmt: skip


def read_report(lines: Lines, text: str) -> Dict[str, Any]:
    """A report line: compact JSON with the members of its event."""
    try:
        line: Dict[str, Any] = json.loads(text)
        wanted: Dict[str, type] = {"event": str}
        wanted.update(MEMBERS[line["event"]])
    except (ValueError, KeyError, TypeError):
        raise lines.bad("is no report line") from None
    if {name: type(value) for name, value in line.items()} != wanted:
        raise lines.bad("is no report line of its event")
    if "match" in line:
        lines.bytes_of(line["match"], 40, "a match")
    if line.get("cause", "peer") not in CAUSES:
        raise lines.bad("has an unknown cause")
    return line


def report_said(line: Dict[str, Any], edit_name: Callable[[int, int], str]) -> str:
    """A report line in words; `edit_name` says what an edit of a session is."""
    event, session = line["event"], line["session"]
    if event == "armed":
        return f"session {session}: switch {line['datapath']} is armed, with the VLAN id {line['tag']} as its tag"
    if event == "closed":
        return f"session {session} is closed: {CAUSES[line['cause']]}"
    if event in WATCHED:
        match = match_words(read_match(bytes.fromhex(line["match"])))
        rule = f"priority={line['priority']}{',' if match else ''}{match}"
        probe = f", by probe {line['serial']}" if event == "seen" else ""
        return f"session {session}: the rule {rule} {WATCHED[event]}{probe}"
    edit = edit_name(session, line["edit"])
    if event == "confirmed":
        return f"session {session}: {edit} was seen to work, by probe {line['serial']}"
    return f"session {session}: {edit} {FACTS[event]}"


# a run in words


class Story:
    """Tells the lines of a run in words. It keeps what later lines speak of: the edits that went to each switch, which
    are the FLOW_MODs of others than monocle itself, and whose jobs are whose."""

    def __init__(self, short: bool = False) -> None:
        self.short = short
        self.edits: Dict[int, List[str]] = {}
        self.jobs: Dict[int, Tuple[int, int]] = {}
        self.serials: Dict[int, int] = {}

    def edit_name(self, session: int, edit: int) -> str:
        if edit == 0:
            return "the watched rule"
        edits = self.edits.get(session, [])
        return f"edit {edit}" + (f" ({edits[edit - 1]})" if edit <= len(edits) and not self.short else "")

    def job_name(self, job: int) -> str:
        if job not in self.jobs:
            return f"job {job}"
        session, edit = self.jobs[job]
        return f"job {job}, on {self.edit_name(session, edit)} of session {session}"

    def keep(self, event: NamedTuple) -> None:
        """Keeps what is needed of a line before it is told."""
        if isinstance(event, Put) and is_edit(event):
            self.edits.setdefault(event.session, []).append(body_said(event.frame))
        elif isinstance(event, Offer):
            self.jobs[event.job] = event.session, event.edit
        elif isinstance(event, Sending):
            self.serials[event.serial] = event.job

    def sessions(self, event: NamedTuple) -> List[int]:
        """The sessions that a line belongs to: a probe to its edit's session and to that where it goes in."""
        if isinstance(event, (Put, End, Offer, Row)):
            nonce = probe_of(event)
            owner = self.jobs.get(self.serials.get(nonce.serial, -1)) if nonce else None
            return [event.session] + ([owner[0]] if owner and owner[0] != event.session else [])
        if isinstance(event, Report):
            return [event.line["session"]]
        job = self.jobs.get(getattr(event, "job", -1))
        return [job[0]] if job else []

    def tell(self, event: NamedTuple) -> str:
        """A line in words."""
        self.keep(event)
        if isinstance(event, Row):
            return f"session {event.session} expects {event.rule.words()}{' (it may be gone)' if event.rule.unsure else ''}"
        if isinstance(event, Report):
            return report_said(event.line, self.edit_name)
        if isinstance(event, End):
            return f"session {event.session} ends"
        if isinstance(event, Offer):
            return f"{self.job_name(event.job)}, is offered"
        if isinstance(event, Sending):
            return f"probe {event.serial} is made for {self.job_name(event.job)}"
        if isinstance(event, Verdict):
            said = {"probe": "a packet shows it", "indistinguishable": "no packet shows it", "skipped": "skipped"}[
                event.kind
            ]
            return f"{self.job_name(event.job)}: {said}"
        assert isinstance(event, Put)
        number = f" as edit {len(self.edits[event.session])}" if is_edit(event) else ""
        lost = ", but was lost" if event.lost else ""
        return f"session {event.session}: to the {event.to}{number}{lost}: {frame_said(event.frame)}"


def is_edit(put: Put) -> bool:
    """A FLOW_MOD that changes the expected table: neither monocle's own nor one for the emergency table."""
    frame = put.frame
    emergency = len(frame.wire) >= 72 and frame.wire[71] & 4
    return put.to == "switch" and frame.kind == FLOW_MOD and frame.xid != OWN_XID and not emergency


def probe_of(event: NamedTuple) -> Optional[Nonce]:
    """The nonce of a probe that is put."""
    if (
        not isinstance(event, Put)
        or event.frame.kind != 13
        or event.frame.xid != OWN_XID
        or len(event.frame.wire) < 24
    ):
        return None
    found = read_packet(event.frame.wire[24:])
    return found[1] if found else None


def is_output(text: str) -> bool:
    """The text looks like what `monocle replay` writes."""
    return re.match("[0-9]+ |table ", text) is not None


def tell_output(name: str, text: str) -> Iterator[str]:
    """Each line of a run's output in words."""
    story = Story()
    for event in read_output(name, text):
        record = f"record {getattr(event, 'record')}" if hasattr(event, "record") else "end"
        yield f"{record}: {story.tell(event)}"


def tell_reports(name: str, text: str) -> Iterator[str]:
    """Each report line in words."""
    lines, found = Lines(name, text), []
    for line in lines:
        found.append(report_said(read_report(lines, line), lambda _, edit: f"edit {edit}"))
    lines.whole()
    yield from found


def read_any(name: str, text: str) -> List[str]:
    """A run's output or report lines, in words."""
    if text.startswith("{"):
        return list(tell_reports(name, text))
    if is_output(text):
        return list(tell_output(name, text))
    raise BadInput(name, "is neither the output of `monocle replay` nor report lines", 1, text.split("\n")[0])
