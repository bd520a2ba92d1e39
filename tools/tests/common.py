"""What the tests share: running a tool, scratch files, and tables that are made of two numbers."""

from __future__ import annotations

import contextlib
import os
import subprocess
import sys
import tempfile
import unittest
from typing import Callable, Iterator, List, NamedTuple, Optional

from monocle_tools.actions import OUTPUT, Action
from monocle_tools.files import Link, Rule, Table, View
from monocle_tools.headers import match_of
from monocle_tools.open_vswitch import Switch

TOP = os.path.dirname(os.path.dirname(os.path.dirname(os.path.abspath(__file__))))
DATA = os.path.join(TOP, "tools", "data")
DEMO = os.path.join(TOP, "demo")
PROGRAM = os.path.join(TOP, "crates", "monocle", "out", "monocle")
# said where a stored output of the demo differs
REMADE = "where its input was changed on purpose, run tools/make-demo and look at what it writes"
SETTINGS = os.path.join(DEMO, "three-switches.json")


# set by `tools/test --alone`: no other program is asked
ALONE = "TOOLS_TEST_ALONE"


def asks(name: str, is_there: bool) -> Callable[[Callable[..., None]], Callable[..., None]]:
    """A check that asks another program: made where that one is installed and may be asked."""
    if os.environ.get(ALONE):
        return unittest.skip(f"{name} is not asked")
    return unittest.skipUnless(is_there, f"{name} is not installed")


class Ran(NamedTuple):
    status: int
    out: str
    said: str


def tool(name: str, *words: str, text: str = "") -> Ran:
    """Runs a tool with these words and this standard input."""
    command = [sys.executable, "-B", os.path.join(TOP, "tools", name), *words]
    done = subprocess.run(command, input=text, capture_output=True, text=True, encoding="utf-8")
    return Ran(done.returncode, done.stdout, done.stderr)


def content(*path: str) -> str:
    with open(os.path.join(*path), encoding="utf-8") as source:
        return source.read()


def monocle(*words: str) -> Ran:
    """Runs the built program."""
    done = subprocess.run([PROGRAM, *words], capture_output=True, text=True)
    return Ran(done.returncode, done.stdout, done.stderr)


@contextlib.contextmanager
def running() -> Iterator[Switch]:
    """An Open vSwitch; the test is skipped where it is installed and does not run."""
    switch = Switch()
    try:
        switch.__enter__()
    except (RuntimeError, OSError) as why:
        raise unittest.SkipTest(f"Open vSwitch does not run here: {why}") from None
    try:
        yield switch
    finally:
        switch.stop()


class Case(unittest.TestCase):
    """A test with a scratch folder."""

    maxDiff: Optional[int] = None

    def setUp(self) -> None:
        folder = tempfile.TemporaryDirectory()
        self.addCleanup(folder.cleanup)
        self.folder = folder.name

    def file(self, name: str, text: str) -> str:
        path = os.path.join(self.folder, name)
        with open(path, "w", encoding="utf-8", newline="\n") as target:
            target.write(text)
        return path


def generated(count: int, seed: int) -> Table:
    """The table that `monocle plan --generate N --seed S` plans."""
    rules = {}
    for i in range(count):
        k = (seed + 40503 * i) % 65536
        fields = {"dl_type": 0x0800, "nw_dst": 0x0A000000 + 256 * k}
        if k // 4 % 4 == 3:
            fields["nw_proto"] = 17
        ports = [] if k % 5 == 0 else [1 + k // 64 % 4] + ([1 + (k // 64 + 1) % 4] if k % 7 == 0 else [])
        match = match_of(fields, {"nw_dst": 32 - (24, 16, 8, 0)[k % 4]})
        rule = Rule(1000 * (k % 4 + 1) + k // 16 % 4, match, tuple(Action(OUTPUT, port) for port in ports))
        rules[rule.order()] = rule
    links = tuple(Link(port, port + 1, 1, 101) for port in range(1, 5))
    return Table(View(1, 100, (100, 101), 128, links), tuple(rules[key] for key in sorted(rules)))


def generated_settings() -> str:
    """Settings in which switch 1 has the view of a generated table."""
    links: List[str] = [f'["{1:016x}", {port}, "{port + 1:016x}", 1]' for port in range(1, 5)]
    switches = ", ".join(f'"{number:016x}"' for number in range(1, 6))
    return (
        '{"alarm_ticks": 3, "controller": "127.0.0.1:6633", "listen": "127.0.0.1:6634", "retry_ticks": 2, "sessions": 0, '
        f'"switches": [{switches}], "links": [{", ".join(links)}], "tags": [100, 101], "tick_ms": 100, "watch_ticks": 0, '
        '"workers": 2}\n'
    )
