"""An Open vSwitch of our own, in userspace and in a scratch folder, without rights, services or kernel modules."""

from __future__ import annotations

import os
import shutil
import socket
import struct
import subprocess
import tempfile
from types import TracebackType
from typing import Dict, Iterator, List, Optional, Type

PROGRAMS = ("ovsdb-tool", "ovsdb-server", "ovs-vswitchd", "ovs-vsctl", "ovs-ofctl", "ovs-appctl")
SCHEMA = "/usr/share/openvswitch/vswitch.ovsschema"
PATH = os.environ.get("PATH", "") + ":/usr/sbin:/sbin"


def missing() -> List[str]:
    """What of Open vSwitch is not installed."""
    return [program for program in PROGRAMS if not shutil.which(program, path=PATH)] + [SCHEMA] * (
        not os.path.exists(SCHEMA)
    )


class Switch:
    """A bridge with datapath id 1 and dummy ports, which speaks OpenFlow 1.0, while it is entered."""

    def __init__(self, ports: int = 4) -> None:
        self.folder = tempfile.mkdtemp(prefix="ovs-")
        self.ports = ports
        self.daemons: List[int] = []
        self.environment: Dict[str, str] = {**os.environ, "PATH": PATH}
        for name in ("OVS_RUNDIR", "OVS_LOGDIR", "OVS_DBDIR"):
            self.environment[name] = self.folder

    def run(self, *words: str) -> str:
        """Runs one of its programs; what it writes."""
        done = subprocess.run(words, env=self.environment, cwd=self.folder, capture_output=True, text=True)
        if done.returncode:
            raise RuntimeError(f"{' '.join(words)}: {done.stderr.strip()}")
        return done.stdout

    def start(self, program: str, *words: str) -> None:
        pid = os.path.join(self.folder, f"{program}.pid")
        self.run(program, *words, "--detach", f"--pidfile={pid}", f"--log-file={self.folder}/{program}.log",
                 f"--unixctl={self.folder}/{program}.ctl")  # fmt: skip
        with open(pid) as source:
            self.daemons.append(int(source.read()))

    def __enter__(self) -> Switch:
        try:
            database = f"unix:{self.folder}/db.sock"
            self.run("ovsdb-tool", "create", "conf.db", SCHEMA)
            self.start("ovsdb-server", "conf.db", f"--remote=p{database}")
            self.start("ovs-vswitchd", database, "--disable-system", "--enable-dummy=override")
            words = ["add-br", "s1", "--", "set", "bridge", "s1", "datapath_type=dummy", "protocols=OpenFlow10",
                     "fail-mode=secure", "other-config:datapath-id=0000000000000001"]  # fmt: skip
            for port in range(1, self.ports + 1):
                words += ["--", "add-port", "s1", f"p{port}", "--", "set", "interface", f"p{port}", "type=dummy",
                          f"ofport_request={port}"]  # fmt: skip
            self.run("ovs-vsctl", f"--db={database}", "--no-wait", "init")
            self.run("ovs-vsctl", f"--db={database}", *words)
            return self
        except BaseException:
            self.stop()
            raise

    def __exit__(self, kind: Optional[Type[BaseException]], fault: Optional[BaseException],
                 trace: Optional[TracebackType]) -> None:  # fmt: skip
        self.stop()

    def stop(self) -> None:
        """Ends the two daemons that were started here."""
        for daemon in reversed(self.daemons):
            try:
                os.kill(daemon, 15)
            except ProcessLookupError:
                pass
        shutil.rmtree(self.folder, ignore_errors=True)

    @property
    def bridge(self) -> str:
        return f"{self.folder}/s1.mgmt"

    def install(self, flows: List[str], *options: str) -> None:
        """Puts these flows in place of all others."""
        name = os.path.join(self.folder, "flows")
        with open(name, "w") as target:
            target.write("".join(f"{flow}\n" for flow in flows))
        self.run("ovs-ofctl", "del-flows", f"unix:{self.bridge}")
        self.run("ovs-ofctl", *options, "add-flows", f"unix:{self.bridge}", name)

    def dump(self) -> str:
        return self.run("ovs-ofctl", "-O", "OpenFlow10", "--no-names", "dump-flows", f"unix:{self.bridge}")

    def trace(self, packet: str) -> str:
        """What the switch says that it would do with a packet."""
        target = f"--target={self.folder}/ovs-vswitchd.ctl"
        return self.run("ovs-appctl", target, "ofproto/trace", "s1", packet)

    def rules(self) -> List[str]:
        """Its flows as lines of a table file, cut by byte places out of its own statistics of OpenFlow 1.0."""
        return sorted(line for body in self.statistics() for line in rule_lines(body))

    def statistics(self) -> Iterator[bytes]:
        """The bodies of its replies to a request for all flows (OpenFlow 1.0.0, individual flow statistics)."""
        with socket.socket(socket.AF_UNIX) as line:
            line.connect(self.bridge)
            line.sendall(struct.pack(">BBHI", 1, 0, 8, 1))
            everything = bytes.fromhex("003820ff") + bytes(36) + b"\xff\0\xff\xff"
            line.sendall(struct.pack(">BBHIHH", 1, 16, 56, 2, 1, 0) + everything)
            source, more = line.makefile("rb"), True
            while more:
                head = source.read(8)
                body = source.read(int.from_bytes(head[2:4], "big") - 8)
                if head[1] == 17:
                    more = bool(body[3] & 1)
                    yield body[4:]


def rule_lines(body: bytes) -> Iterator[str]:
    """A line for each entry of such a reply."""
    place = 0
    while place < len(body):
        length = int.from_bytes(body[place : place + 2], "big")
        entry = body[place : place + length]
        yield f"rule {int.from_bytes(entry[52:54], 'big')} {entry[4:44].hex()} {entry[88:].hex() or '-'}"
        place += length
