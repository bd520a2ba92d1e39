"""The files of monocle: settings, tables, certificates and traces, read strictly, line by line, and written whole."""

from __future__ import annotations

import json
import os
import re
import sys
import tempfile
from dataclasses import dataclass
from typing import Any, Callable, Dict, Iterator, List, NamedTuple, NoReturn, Optional, Set, Tuple, Union

from .actions import Actions, Emission, actions_words, read_actions, write_actions
from .headers import Header, Match, header_of, match_words, read_match


class BadInput(Exception):
    """Input that is not understood: its file, the number and text of its line where it has lines, and why."""

    def __init__(self, name: str, why: str, number: int = 0, text: str = "") -> None:
        name = "standard input" if name == "-" else name
        place = f"{name}:{number}" if number else name
        super().__init__(f"{place}: {why}" + (f": {shortened(text)}" if number else ""))


def shortened(text: str) -> str:
    """A line, without its middle where it is very long."""
    text = text.strip()
    return text if len(text) <= 400 else f"{text[:200]} .. {text[-100:]}"


# reading and writing


def read_bytes(name: str) -> bytes:
    """A file's bytes, or those of standard input for `-`."""
    if name == "-":
        return sys.stdin.buffer.read()
    with open(name, "rb") as source:
        return source.read()


def read_text(name: str) -> str:
    try:
        return read_bytes(name).decode()
    except UnicodeDecodeError as fault:
        raise BadInput(name, f"byte {fault.start} is not UTF-8") from None


def write_whole(name: str, text: str) -> None:
    """Writes a file whole or not at all, or for `-` on standard output."""
    if name == "-":
        sys.stdout.write(text)
        sys.stdout.flush()
        return
    folder = os.path.dirname(os.path.abspath(name))
    handle, scratch = tempfile.mkstemp(dir=folder, prefix=".monocle-")
    try:
        with os.fdopen(handle, "w", encoding="utf-8", newline="\n") as target:
            target.write(text)
        mask = os.umask(0)
        os.umask(mask)
        os.chmod(scratch, 0o666 & ~mask)
        os.replace(scratch, name)
    except BaseException:
        os.unlink(scratch)
        raise


def run_tool(name: str, main: Callable[[], int]) -> NoReturn:
    """Runs a tool: what it does not understand, or cannot read or write, is said on standard error, with status 2."""
    try:
        status = main()
    except BadInput as fault:
        print(f"{name}: {fault}", file=sys.stderr)
        status = 2
    except BrokenPipeError:
        os.dup2(os.open(os.devnull, os.O_WRONLY), sys.stdout.fileno())
        status = 2
    except OSError as fault:
        print(f"{name}: {fault.filename or 'output'}: {fault.strerror}", file=sys.stderr)
        status = 2
    sys.exit(status)


class Lines:
    """The lines of a text, which are taken one by one, with the name and number to blame."""

    def __init__(self, name: str, text: str) -> None:
        self.name, self.number = name, 0
        self.ended = text.endswith("\n") or not text
        self.lines = text.split("\n")
        if self.lines[-1] == "":
            self.lines.pop()

    def __iter__(self) -> Iterator[str]:
        while self.number < len(self.lines):
            self.number += 1
            yield self.lines[self.number - 1]

    def bad(self, why: str) -> BadInput:
        return BadInput(self.name, why, self.number, self.lines[self.number - 1])

    def take(self, wanted: str) -> str:
        """The next line, or why there is none."""
        if self.number == len(self.lines):
            raise BadInput(self.name, f"ends before {wanted}")
        self.number += 1
        return self.lines[self.number - 1]

    def words(self, form: str) -> List[str]:
        """The words of the next line, which has this form: small words stand for themselves, large ones for any word."""
        words, wanted = self.take(f"`{form}`").split(" "), form.split(" ")
        if len(words) != len(wanted) or any(a != b for a, b in zip(words, wanted) if not b.isupper()):
            raise self.bad(f"is not `{form}`")
        return words

    def whole(self) -> None:
        """The last line is ended too."""
        if not self.ended:
            self.number = len(self.lines)
            raise self.bad("has no line feed")

    def number_of(self, word: str, low: int, high: int, what: str) -> int:
        """A decimal number without leading zeros, within these."""
        if not re.fullmatch("0|[1-9][0-9]*", word) or not low <= int(word) <= high:
            raise self.bad(f"{what} is a number of {low} to {high}")
        return int(word)

    def bytes_of(self, word: str, length: Optional[int], what: str) -> bytes:
        """Lower hexadecimal digits, of so many bytes."""
        if not re.fullmatch("([0-9a-f]{2})+", word) or length is not None and len(word) != 2 * length:
            raise self.bad(
                f"{what} has {'' if length is None else f'{2 * length} '}lower hexadecimal digits, two a byte"
            )
        return bytes.fromhex(word)


# settings


class Link(NamedTuple):
    """A link of a switch: its port, the switch and port at the other end, and that switch's tag."""

    port: int
    switch: int
    far_port: int
    tag: int


@dataclass(frozen=True)
class View:
    """What of a switch bears on its probes: its tag, the tags in use, its links, and how much of a missed packet it
    sends to the controller."""

    switch: int
    tag: int
    tags: Tuple[int, ...]
    miss: int
    links: Tuple[Link, ...]

    def link(self, port: int) -> Optional[Link]:
        return next((link for link in self.links if link.port == port), None)


Ends = Tuple[int, int, int, int]


@dataclass(frozen=True)
class Settings:
    """The members of a settings file that the tools use."""

    switches: Tuple[int, ...]
    links: Tuple[Ends, ...]
    tags: Tuple[int, ...]
    tick_ms: int

    def tagged(self, name: str) -> Dict[int, int]:
        """The tag of each switch: in ascending order each takes the first that no switch linked to it has."""
        given: Dict[int, int] = {}
        for switch in self.switches:
            far = [b if a == switch else a for a, _, b, _ in self.links if switch in (a, b)]
            free = [tag for tag in self.tags if tag not in {given.get(other) for other in far}]
            if not free:
                raise BadInput(name, "member tags: too few tags")
            given[switch] = free[0]
        return given

    def view(self, switch: int, miss: int, name: str) -> View:
        """The view of a switch all of whose neighbours are there."""
        tags = self.tagged(name)
        if switch not in tags:
            raise BadInput(name, f"has no switch {switch:016x}")
        links = [Link(port, far, far_port, tags[far]) for a, p, b, q in self.links
                 for near, port, far, far_port in ((a, p, b, q), (b, q, a, p)) if near == switch]  # fmt: skip
        return View(switch, tags[switch], tuple(sorted(set(tags.values()))), miss, tuple(sorted(links)))


def is_number(value: Any, low: int, high: int) -> bool:
    return type(value) is int and low <= value <= high


def is_datapath(value: Any) -> bool:
    return isinstance(value, str) and re.fullmatch("[0-9a-f]{16}", value) is not None


def is_address(value: Any) -> bool:
    part = "(0|[1-9][0-9]{0,4})"
    found = re.fullmatch(rf"{part}\.{part}\.{part}\.{part}:{part}", value) if isinstance(value, str) else None
    return found is not None and max(map(int, found.groups()[:4])) < 256 and 1 <= int(found[5]) <= 65535


def list_fault(value: Any, low: int, high: int, is_element: Callable[[Any], bool], ascending: bool) -> Optional[str]:
    """Where a list is wrong: the empty text for the list itself, or `/` and the place of an element."""
    if not isinstance(value, list) or not low <= len(value) <= high:
        return ""
    for place, element in enumerate(value):
        if not is_element(element) or ascending and place and value[place - 1] >= element:
            return f"/{place}"
    return None


def link_fault(links: List[Any], switches: List[str]) -> Optional[str]:
    """The place of the first link that is none, or that takes a port or a switch twice."""
    used: Set[Tuple[str, int]] = set()
    for place, link in enumerate(links):
        fit = isinstance(link, list) and len(link) == 4 and link[0] in switches and link[2] in switches
        if not fit or not is_number(link[1], 1, 65280) or not is_number(link[3], 1, 65280) or link[0] == link[2]:
            return f"/{place}"
        ends = {(link[0], link[1]), (link[2], link[3])}
        if ends & used:
            return f"/{place}"
        used |= ends
    return None


NUMBERS = {
    "alarm_ticks": (1, 1000000), "retry_ticks": (1, 1000000), "sessions": (0, 2**32 - 1), "tick_ms": (1, 60000),
    "watch_ticks": (0, 1000000), "workers": (1, 64),
}  # fmt: skip
MEMBERS = ("alarm_ticks", "controller", "listen", "retry_ticks", "sessions", "switches", "links", "tags", "tick_ms",
           "watch_ticks", "workers")  # fmt: skip


def settings_fault(members: Dict[str, Any]) -> Optional[str]:
    """The first wrong member of settings, or element of one, as monocle names it."""
    for name in MEMBERS:
        value: Any = members.get(name)
        fault: Optional[str] = None
        if name in NUMBERS:
            fault = None if is_number(value, *NUMBERS[name]) else ""
        elif name in ("controller", "listen"):
            fault = None if is_address(value) else ""
        elif name == "switches":
            fault = list_fault(value, 1, 64, is_datapath, True)
        elif name == "links":
            fault = list_fault(value, 0, 1024, lambda _: True, False)
            fault = link_fault(value, members["switches"]) if fault is None else fault
        else:
            fault = list_fault(value, 1, 64, lambda tag: is_number(tag, 1, 4094), True)
        if fault is not None:
            return name + fault
    return min((name for name in members if name not in MEMBERS), default=None)


def read_settings(name: str) -> Settings:
    """A settings file, as monocle accepts it."""
    try:
        members = json.loads(read_text(name))
    except ValueError as fault:
        raise BadInput(name, f"is not JSON: {fault}") from None
    if not isinstance(members, dict):
        raise BadInput(name, "is no JSON object")
    wrong = settings_fault(members)
    if wrong is not None:
        raise BadInput(name, f"member {wrong} is wrong, missing or unknown")
    links = tuple((int(a, 16), p, int(b, 16), q) for a, p, b, q in members["links"])
    switches = tuple(int(switch, 16) for switch in members["switches"])
    return Settings(switches, links, tuple(members["tags"]), members["tick_ms"])


# tables


@dataclass(frozen=True)
class Rule:
    """A rule of a flow table. One that is unsure has a timeout and may be gone."""

    priority: int
    match: Match
    actions: Actions
    unsure: bool = False

    @property
    def rank(self) -> int:
        """The priority, and above all of them where nothing is wildcarded (OpenFlow 1.0.0, matching)."""
        return 65536 if self.match.exact else self.priority

    def order(self) -> Tuple[int, bytes]:
        """Table order: falling rank, then rising bytes of the match."""
        return -self.rank, self.match.wire

    def words(self) -> str:
        """As ovs-ofctl takes it, such as `priority=100,ip,nw_dst=10.0.0.0/24 actions=output:2`."""
        match = match_words(self.match)
        return f"priority={self.priority}{',' if match else ''}{match} actions={actions_words(self.actions)}"

    def line(self) -> str:
        actions = write_actions(self.actions).hex() or "-"
        return f"rule {self.priority} {self.match.digits()} {actions}" + (" unsure" if self.unsure else "")


@dataclass(frozen=True)
class Table:
    """A flow table with its switch's view; the rules stand in table order."""

    view: View
    rules: Tuple[Rule, ...]

    def text(self) -> str:
        view, version = self.view, 2 if any(rule.unsure for rule in self.rules) else 1
        lines = [f"monocle-table {version}", f"switch {view.switch:016x} {view.tag}"]
        lines += ["tags " + " ".join(map(str, view.tags)), f"miss {view.miss}"]
        lines += [f"link {link.port} {link.switch:016x} {link.far_port} {link.tag}" for link in view.links]
        return "".join(f"{line}\n" for line in lines + [rule.line() for rule in self.rules])


def read_rule(lines: Lines, words: List[str], unsure: bool) -> Rule:
    """The rule of a line's words behind the first."""
    if len(words) == 4 and unsure and words[3] == "unsure":
        words, unsure = words[:3], True
    else:
        unsure = False
    if len(words) != 3:
        raise lines.bad("is not `rule PRIORITY MATCH ACTIONS`")
    priority = lines.number_of(words[0], 0, 65535, "a priority")
    match = read_match(lines.bytes_of(words[1], 40, "a match"))
    wire = b"" if words[2] == "-" else lines.bytes_of(words[2], None, "a list of actions")
    try:
        actions = read_actions(wire)
    except ValueError as fault:
        raise lines.bad(str(fault)) from None
    return Rule(priority, match, actions, unsure)


def read_view(lines: Lines) -> View:
    """The lines of a table from `switch` to the last `link`."""
    _, datapath, tag_word = lines.words("switch DATAPATH TAG")
    switch, tag = int.from_bytes(lines.bytes_of(datapath, 8, "a datapath"), "big"), tag_word
    words = lines.take("`tags`").split(" ")
    if words[0] != "tags" or not 2 <= len(words) <= 65:
        raise lines.bad("is not `tags` and 1 to 64 tags")
    tags = [lines.number_of(word, 1, 4094, "a tag") for word in words[1:]]
    if any(a >= b for a, b in zip(tags, tags[1:])) or tag not in words[1:]:
        raise lines.bad("has tags that do not ascend, or not the switch's own")
    miss = lines.number_of(lines.words("miss N")[1], 0, 65535, "a miss length")
    links: List[Link] = []
    while lines.number < len(lines.lines) and lines.lines[lines.number].startswith("link "):
        _, port, far, far_port, far_tag = lines.words("link PORT DATAPATH PORT TAG")
        links.append(Link(lines.number_of(port, 1, 65280, "a port"),
                          int.from_bytes(lines.bytes_of(far, 8, "a datapath"), "big"),
                          lines.number_of(far_port, 1, 65280, "a port"),
                          lines.number_of(far_tag, 1, 4094, "a tag")))  # fmt: skip
        if links[-1].tag not in tags or far_tag == tag or len(links) > 1 and links[-2].port >= links[-1].port:
            raise lines.bad("has a port that does not ascend, or a tag that no neighbour can have")
    return View(switch, int(tag), tuple(tags), miss, tuple(links))


def read_table(name: str) -> Table:
    """A table file of version 1, or 2, in which a rule may be unsure."""
    lines = Lines(name, read_text(name))
    version = lines.words("monocle-table VERSION")[1]
    if version not in ("1", "2"):
        raise lines.bad("is not `monocle-table 1` or `monocle-table 2`")
    view = read_view(lines)
    found: Dict[Tuple[int, bytes], Rule] = {}
    for line in lines:
        kind, *words = line.split(" ")
        if kind != "rule":
            raise lines.bad("is not `rule PRIORITY MATCH ACTIONS`")
        rule = read_rule(lines, words, version == "2")
        if len(write_actions(rule.actions)) > 512:
            raise lines.bad("has more than 512 bytes of actions")
        if rule.order() in found:
            raise lines.bad("has the match and the rank of an earlier rule")
        found[rule.order()] = rule
        if len(found) > 4096:
            raise lines.bad("is one more than the 4096 rules that a table holds")
    lines.whole()
    return Table(view, tuple(found[key] for key in sorted(found)))


# certificates


class Probe(NamedTuple):
    """A packet that shows a rule, and what is seen of it."""

    header: Header
    emission: Emission


class Refuted(NamedTuple):
    """A proof that no packet shows the rule, in so many cases."""

    cases: int


class Tied(NamedTuple):
    """A rule of the same rank overlaps this one."""


Certificate = Union[Probe, Refuted, Tied]
LARGEST = 2**64 - 1


def read_header(lines: Lines, word: str) -> Header:
    return header_of(int.from_bytes(lines.bytes_of(word, 33, "a header"), "big"))


def read_emission(lines: Lines, words: List[str]) -> Emission:
    if len(words) == 3 and words[0] == "port":
        return Emission("port", lines.number_of(words[1], 0, 65535, "a port"), read_header(lines, words[2]))
    if len(words) == 2 and words[0] in ("controller", "miss"):
        return Emission(words[0], 0, read_header(lines, words[1]))
    raise lines.bad("has no emission `port P HEADER`, `controller HEADER` or `miss HEADER`")


LOG_LINE = re.compile("l( -?[1-9][0-9]*)* 0( [1-9][0-9]*)* 0")


def skip_logs(lines: Lines, cases: int) -> None:
    """Goes over the logs of a refutation, whose proof is the business of `monocle check`."""
    for _ in range(cases):
        count = lines.number_of(lines.words("log L")[1], 0, LARGEST, "a log's length")
        for _ in range(count):
            if not LOG_LINE.fullmatch(lines.take("the log's lines")):
                raise lines.bad("is not `l LITERALS 0 HINTS 0`")


def read_certificates(name: str) -> Tuple[Certificate, ...]:
    """A certificate file: what is said of each rule, in table order."""
    lines = Lines(name, read_text(name))
    lines.words("monocle-certificates 1")
    count = lines.number_of(lines.words("rules N")[1], 0, LARGEST, "the number of rules")
    found: List[Certificate] = []
    while len(found) < count:
        words = lines.take(f"the certificate of rule {len(found)}").split(" ")
        if len(words) < 2 or lines.number_of(words[1], 0, LARGEST, "a rule") != len(found):
            raise lines.bad(f"is not the certificate of rule {len(found)}")
        if words[0] == "overlap" and len(words) == 2:
            found.append(Tied())
        elif words[0] == "none" and len(words) == 3:
            cases = lines.number_of(words[2], 0, LARGEST, "the number of cases")
            skip_logs(lines, cases)
            found.append(Refuted(cases))
        elif words[0] == "probe" and len(words) > 3:
            found.append(Probe(read_header(lines, words[2]), read_emission(lines, words[3:])))
        else:
            raise lines.bad("is not `probe R HEADER EMISSION`, `none R C` or `overlap R`")
    for _ in lines:
        raise lines.bad("stands behind the last certificate")
    lines.whole()
    return tuple(found)
