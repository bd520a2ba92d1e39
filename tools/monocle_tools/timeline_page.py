"""The page of a run: for each session a timeline with its controller, monocle and its switch."""

from __future__ import annotations

from collections import deque
from itertools import accumulate
from typing import Deque, Dict, Iterator, List, NamedTuple, Optional, Sequence, Tuple
from xml.sax.saxutils import escape

from .files import LARGEST
from .messages import BARRIER_REPLY, BARRIER_REQUEST, Cutter, Frame, frame_said
from .pages import BLUE, GREY, PURPLE, RED, YELLOW, mark, page, symbols
from .traces import End, Offer, Put, Record, Report, Row, Sending, Story, Verdict, is_edit, probe_of

SIDES = {"controller": 190, "monocle": 330, "switch": 470}
OTHER = {"controller": "switch", "switch": "controller"}
ROW, TOP, WORDS, WIDTH = 24, 46, 500, 1180
# how many lines stand in one drawing, so that pages break between drawings
PART = 50
# what ends the wait for an edit
OUTCOMES = ("confirmed", "settled", "rejected", "silent", "nochange")


class Step(NamedTuple):
    """A line of a timeline: an arrow from one side to another, or a mark at monocle where both are the same."""

    record: int
    source: str
    target: str
    colour: str
    shape: str
    words: str


class Bar(NamedTuple):
    """A frame that was held, from one line to another."""

    first: int
    last: int
    words: str


class Clock:
    """Tells the time between two records: in records, and in ticks where the trace is there."""

    def __init__(self, records: Optional[Sequence[Record]], tick_ms: int) -> None:
        self.tick_ms, self.ticks = tick_ms, [0]
        for record in records or []:
            self.ticks.append(self.ticks[-1] + (record.kind == "tick"))
        self.known = self.ticks[-1] > 0

    def at(self, record: int) -> int:
        return self.ticks[min(record, len(self.ticks) - 1)]

    def between(self, first: int, last: int) -> str:
        """Such as `3 records, 2 ticks (200 ms)`."""
        said = f"{last - first} record{'s' * (last - first != 1)}"
        if self.known:
            ticks = self.at(last) - self.at(first)
            said += f", {ticks} tick{'s' * (ticks != 1)}" + (f" ({ticks * self.tick_ms} ms)" if self.tick_ms else "")
        return said

    def label(self, record: int) -> str:
        return f"{record}" + (f", tick {self.at(record)}" if self.known else "")


class Timeline:
    """The lines of one session, and what was held in it."""

    def __init__(self, session: int, clock: Clock) -> None:
        self.session, self.clock = session, clock
        self.steps: List[Optional[Step]] = []
        self.bars: List[Bar] = []
        self.edits: List[int] = []
        self.barriers: Dict[int, Deque[int]] = {}
        self.waiting: Dict[Tuple[str, int, int], Deque[int]] = {}

    def add(
        self, record: int, source: str, target: str, words: str, colour: str = GREY, shape: str = "arrow"
    ) -> None:
        self.steps.append(Step(record, source, target, colour, shape, words))

    def arrive(self, record: int, side: str, frame: Frame) -> None:
        """A whole frame came from a side."""
        self.waiting.setdefault((OTHER[side], frame.kind, frame.xid), deque()).append(len(self.steps))
        colour = PURPLE if frame.kind in (BARRIER_REQUEST, BARRIER_REPLY) else GREY
        self.add(record, side, "monocle", frame_said(frame), colour)

    def put(self, event: Put, number: str) -> None:
        """A frame went out: one that had come, at once or held, or one of monocle's own."""
        frame, words = event.frame, number + frame_said(event.frame)
        probe = probe_of(event)
        colour = BLUE if probe else PURPLE if frame.kind in (BARRIER_REQUEST, BARRIER_REPLY) else GREY
        shape = "lost" if event.lost else "dashed" if probe else "arrow"
        words += ", lost" if event.lost else ""
        came = self.waiting.get((event.to, frame.kind, frame.xid))
        source, request = "monocle", self.barrier(event)
        if came:
            first = came.popleft()
            start = self.steps[first]
            assert start is not None
            if start.record == event.record:
                self.steps[first] = None
                source, words = OTHER[event.to], words + request
            else:
                time = self.clock.between(start.record, event.record)
                words += f", held for {time}"
                self.bars.append(Bar(first, len(self.steps), f"{frame.name} held for {time}"))
        self.add(event.record, source, event.to, words, colour, shape)

    def barrier(self, event: Put) -> str:
        """How long after its request a reply to a barrier was let go."""
        xid = event.frame.xid
        if event.to == "switch" and event.frame.kind == BARRIER_REQUEST:
            self.barriers.setdefault(xid, deque()).append(event.record)
        elif event.frame.kind == BARRIER_REPLY and self.barriers.get(xid):
            return f", {self.clock.between(self.barriers[xid].popleft(), event.record)} after its request"
        return ""

    def report(self, event: Report, words: str) -> None:
        kind, edit = event.line["event"], event.line.get("edit", 0)
        if kind in OUTCOMES and 0 < edit <= len(self.edits):
            words += f", {self.clock.between(self.edits[edit - 1], event.record)} after it went out"
        shape, colour = {
            "confirmed": ("tick", BLUE), "seen": ("tick", BLUE), "armed": ("tick", BLUE), "closed": ("cross", RED),
            "silent": ("cross", RED), "rejected": ("cross", RED), "missing": ("cross", RED),
        }.get(kind, ("bars", YELLOW))  # fmt: skip
        self.add(event.record, "monocle", "monocle", words, colour, shape)

    def drawn(self) -> Tuple[List[Step], List[Bar]]:
        """The lines and bars that are drawn: a frame that passed at once has one line and not two."""
        places = list(accumulate((step is not None for step in self.steps), initial=0))
        bars = [Bar(places[bar.first], places[bar.last], bar.words) for bar in self.bars]
        return [step for step in self.steps if step is not None], bars


def arrivals(records: Sequence[Record]) -> Iterator[Tuple[Record, List[Frame]]]:
    """Each record that brings something in, with the frames that it makes whole."""
    cutters: Dict[Tuple[int, str], Cutter] = {}
    for record in records:
        if record.kind == "piece":
            cutter = cutters.setdefault((record.session, record.side), Cutter())
            yield record, list(cutter.feed(record.wire))
        elif record.kind in ("echo", "close"):
            yield record, []


class Timelines:
    """The timelines of all sessions, which grow as the run is told."""

    def __init__(self, records: Optional[Sequence[Record]], tick_ms: int) -> None:
        self.clock, self.story = Clock(records, tick_ms), Story(short=True)
        self.arrivals = deque(arrivals(records or []))
        self.lines: Dict[int, Timeline] = {}
        self.rows: List[Row] = []

    def line(self, session: int) -> Timeline:
        return self.lines.setdefault(session, Timeline(session, self.clock))

    def arrive(self, until: int) -> None:
        """What came in with the records up to this one, before what went out for it."""
        while self.arrivals and self.arrivals[0][0].number <= until:
            came, frames = self.arrivals.popleft()
            line = self.line(came.session)
            for frame in frames:
                line.arrive(came.number, came.side, frame)
            if came.kind == "echo":
                line.add(came.number, "switch", "monocle", "a probe comes back", BLUE, "dashed")
            if came.kind == "close":
                line.add(came.number, "monocle", "monocle", "one of its ends closes", GREY, "dot")

    def tell(self, event: NamedTuple) -> None:
        """One line of the run."""
        if isinstance(event, Row):
            self.rows.append(event)
            return
        record = getattr(event, "record")
        self.arrive(record)
        words = self.story.tell(event)
        for place, session in enumerate(self.story.sessions(event)):
            line = self.line(session)
            if isinstance(event, Put) and place == 0:
                edit = is_edit(event)
                line.edits += [record] * edit
                line.put(event, f"edit {len(line.edits)}: " if edit else "")
            elif isinstance(event, Put):
                line.add(record, "monocle", "monocle", f"the probe goes in at session {event.session}", BLUE, "dot")
            elif isinstance(event, Report):
                line.report(event, words.partition(": ")[2] if ": " in words else words)
            elif isinstance(event, End):
                line.add(record, "monocle", "monocle", words, RED, "cross")
            elif isinstance(event, (Offer, Verdict, Sending)):
                line.add(record, "monocle", "monocle", words, GREY, "dot")

    def finish(self) -> None:
        self.arrive(LARGEST)


# drawing

SHAPES = {
    "tick": "M-4 .5 L-1 3.5 L4 -3.5", "cross": "M-3.5 -3.5 L3.5 3.5 M3.5 -3.5 L-3.5 3.5", "bars": "M-4 -2 H4 M-4 2 H4",
}  # fmt: skip


def drawn_step(step: Step, y: int, clock: Clock) -> str:
    """One line of a timeline."""
    source, target = SIDES[step.source], SIDES[step.target]
    parts = [f"<g class='row'><title>{escape(f'record {step.record}: {step.words}')}</title>"]
    parts.append(f'<text x="130" y="{y + 4}" text-anchor="end">{clock.label(step.record)}</text>')
    if step.source != step.target:
        tip = target - 7 if target > source else target + 7
        head = f"M{tip} {y - 4} L{target} {y} L{tip} {y + 4} Z"
        dash = (
            ' stroke-dasharray="6 4"'
            if step.shape == "dashed"
            else ' stroke-dasharray="2 4"' * (step.shape == "lost")
        )
        parts.append(f'<path d="M{source} {y} H{tip}" stroke="{step.colour}" stroke-width="2" fill="none"{dash}/>')
        parts.append(f'<path d="{head}" fill="{step.colour}"/>')
    elif step.shape == "dot":
        parts.append(f'<circle cx="{source}" cy="{y}" r="4" fill="{step.colour}"/>')
    else:
        ink = "#000000" if step.shape == "bars" else "#ffffff"
        parts.append(f'<rect x="{source - 7}" y="{y - 7}" width="14" height="14" rx="2" fill="{step.colour}"/>')
        parts.append(
            f'<path transform="translate({source} {y})" d="{SHAPES[step.shape]}" stroke="{ink}" stroke-width="2" fill="none"/>'
        )
    shown = step.words if len(step.words) <= 92 else f"{step.words[:90]} .."
    return "".join(parts) + f'<text x="{WORDS}" y="{y + 4}">{escape(shown)}</text></g>'


def drawn_part(steps: Sequence[Step], bars: Sequence[Bar], clock: Clock) -> Iterator[str]:
    """The drawing of some lines of a session; bars are cut to these lines."""
    height = TOP + ROW * len(steps) + 4
    yield f'<svg class="timeline" viewBox="0 0 {WIDTH} {height}" width="{WIDTH}" height="{height}" role="img">'
    yield '<text x="130" y="20" text-anchor="end">record</text>'
    for side, x in SIDES.items():
        yield f'<text x="{x}" y="20" text-anchor="middle">{side}</text>'
        yield f'<path d="M{x} 28 V{height - 4}" stroke="#bbbbbb" stroke-width="1"/>'
    for bar in bars:
        top, bottom = TOP + ROW * max(bar.first, -0.5), TOP + ROW * min(bar.last, len(steps) - 0.5)
        if top < bottom:
            yield (
                f'<rect class="held" x="{SIDES["monocle"] - 4}" y="{top}" width="8" height="{bottom - top}" '
                f'fill="{PURPLE}" fill-opacity=".55"><title>{escape(bar.words)}</title></rect>'
            )
    for place, step in enumerate(steps):
        yield drawn_step(step, TOP + ROW * place, clock)
    yield "</svg>"


def drawn_timeline(line: Timeline) -> Iterator[str]:
    """The drawings of one session, none longer than a page."""
    steps, bars = line.drawn()
    for start in range(0, max(1, len(steps)), PART):
        moved = [Bar(bar.first - start, bar.last - start, bar.words) for bar in bars]
        yield from drawn_part(steps[start : start + PART], moved, line.clock)


def timeline_page(events: Sequence[NamedTuple], records: Optional[Sequence[Record]], tick_ms: int) -> str:
    """The page of a run."""
    told = Timelines(records, tick_ms)
    for event in events:
        told.tell(event)
    told.finish()
    title = f"A run of monocle with {len(told.lines)} session{'s' * (len(told.lines) != 1)}"
    body = [
        f"<h1>{title}</h1>",
        "<p class='note'>Time runs down, by the number of the record of the trace. Arrows are frames, dashed ones probes; a bar "
        "at monocle is a frame that it holds. Long words are cut; a pointer on them shows all.</p>",
        f"<svg width='0' height='0'>{symbols()}</svg>",
        f"<p class='legend'><label>{mark('shown')} armed, or seen to work</label><label>{mark('tied')} reported without being "
        f"seen</label><label>{mark('not shown')} refused, not seen in time, or closed</label></p>",
    ]
    if records is None:
        body.append(
            "<p class='note'>Without the trace that went in, frames are drawn as they went out, and not as they came.</p>"
        )
    for session in sorted(told.lines):
        body += [f"<section><h2>Session {session}</h2>", *drawn_timeline(told.lines[session])]
        rows = [row.rule.words() for row in told.rows if row.session == session]
        body += ["<p>The switch is expected to have at the end:</p>"] * bool(rows)
        body += [f"<p class='words'>{escape(row)}</p>" for row in rows] + ["</section>"]
    return page(title, body)
