"""pcap2trace: streams put together, openings, closings, ticks, and captures that are not whole."""

import os
import shutil
import struct
import subprocess
import unittest
from typing import List

from common import DATA, DEMO, PROGRAM, SETTINGS, Case, Ran, asks, content, monocle, tool
from segments import ACK, FIN, RST, SYN, Side, Wire, block, greeting, ipv6, pcap, pcapng

HEAD = "monocle-trace 1 0000000000000001\n"
SECOND = 10**6


def sides(port: int = 50000) -> "tuple[Side, Side]":
    """A switch whose sequence numbers wrap soon, and a controller."""
    return Side("192.0.2.1", port, 2**32 - 3), Side("192.0.2.9", 6653, 1000)


class Pcap2Trace(Case):
    def convert(self, packets: List[Wire], *words: str, made: bytes = b"") -> Ran:
        name = os.path.join(self.folder, "capture")
        with open(name, "wb") as target:
            target.write(made or pcap(packets))
        ran = tool("pcap2trace", name, *words)
        return Ran(ran.status, ran.out, ran.said.replace(name, "CAPTURE"))

    def records(self, packets: List[Wire], *words: str) -> List[str]:
        ran = self.convert(packets, *words)
        self.assertEqual((ran.status, ran.said), (0, ""))
        self.assertTrue(ran.out.startswith(HEAD))
        return ran.out[len(HEAD) :].splitlines()

    def test_demo(self) -> None:
        ran = tool("pcap2trace", os.path.join(DEMO, "greeting.pcap"))
        self.assertEqual(ran, (0, content(DEMO, "greeting.trace"), ""))

    def test_late_repeated_and_overlapping_segments(self) -> None:
        switch, controller = sides()
        packets = greeting(switch, controller, 0)
        packets += [
            switch.sends(controller, 1, b"abcd"),
            switch.sends(controller, 2, b"efgh"),
            switch.sends(controller, 3, b"ij"),
        ]
        one, two, three = packets[3:]
        again = switch.sends(controller, 4, b"cdefghi", sequence=3)
        for order, wanted in [
            ([one, two, three], ["abcd", "efgh", "ij"]),
            ([three, two, one], ["abcd", "efgh", "ij"]),
            ([one, one, two, one, three, three], ["abcd", "efgh", "ij"]),
            ([one, again, two, three], ["abcd", "efghi", "j"]),
            ([two, again, one, three], ["abcd", "efghi", "j"]),
        ]:
            with self.subTest(wanted):
                found = self.records(packets[:3] + order)
                self.assertEqual(found, ["open"] + [f"from switch 0 {text.encode().hex()}" for text in wanted])

    def test_openings_and_closings(self) -> None:
        first, controller = sides()
        second = Side("192.0.2.2", 50000, 5)
        again = Side("192.0.2.9", 6653, 90)
        packets = greeting(first, controller, 0) + greeting(second, again, 1)
        packets += [second.sends(again, 2, b"\1"), first.sends(controller, 3, b"\2", flags=ACK | FIN)]
        packets += [controller.sends(first, 4, flags=ACK | FIN), again.sends(second, 5, flags=RST)]
        third, anew = Side("192.0.2.1", 50000, 777), Side("192.0.2.9", 6653, 888)
        packets += greeting(third, anew, 6) + [anew.sends(third, 7, b"\3")]
        self.assertEqual(self.records(packets), ["open", "open", "from switch 1 01", "from switch 0 02", "close 0", "close 1",
                                                 "open", "from controller 2 03"])  # fmt: skip

    def test_a_close_waits_for_the_bytes_before_it(self) -> None:
        switch, controller = sides()
        packets = greeting(switch, controller, 0)
        packets += [switch.sends(controller, 1, b"a"), switch.sends(controller, 2, b"b", flags=ACK | FIN)]
        packets[3], packets[4] = packets[4], packets[3]
        self.assertEqual(self.records(packets), ["open", "from switch 0 61", "from switch 0 62", "close 0"])

    def test_long_segments_are_cut(self) -> None:
        switch, controller = sides()
        packets = greeting(switch, controller, 0) + [switch.sends(controller, 1, bytes(9000))]
        self.assertEqual([len(line.split(" ")[-1]) // 2 for line in self.records(packets)[1:]], [4096, 4096, 808])

    def test_ticks(self) -> None:
        switch, controller = sides()
        packets = greeting(switch, controller, 5 * SECOND)
        packets += [switch.sends(controller, 5 * SECOND + 99999, b"a"), switch.sends(controller, 5 * SECOND + 100000, b"b"),
                    switch.sends(controller, 5 * SECOND + 350000, b"c")]  # fmt: skip
        a, b, c = (f"from switch 0 {text}" for text in ("61", "62", "63"))
        self.assertEqual(self.records(packets), ["open", a, "tick", b, "tick", "tick", c])
        self.assertEqual(self.records(packets, "--tick-ms", "300"), ["open", a, b, "tick", c])
        self.assertEqual(self.records(packets, "--tick-ms", "0"), ["open", a, b, c])
        self.assertEqual(self.records(packets, "--settings", SETTINGS), ["open", a, "tick", b, "tick", "tick", c])

    def test_kinds_of_captures(self) -> None:
        switch, controller = sides()
        packets = greeting(switch, controller, SECOND) + [switch.sends(controller, SECOND + 120000, b"a")]
        wanted = (0, f"{HEAD}open\ntick\nfrom switch 0 61\n", "")
        tagged = [Wire(time, frame[:12] + b"\x81\0\0\5" + frame[12:]) for time, frame in packets]
        for made in (
            pcap(packets),
            pcap(packets, ">"),
            pcap(packets, nano=True),
            pcapng(packets),
            pcapng(packets, ">"),
            pcap(tagged),
        ):
            self.assertEqual(self.convert([], made=made), wanted)

    def test_kinds_of_links(self) -> None:
        switch, controller = sides()
        packets = greeting(switch, controller, SECOND) + [switch.sends(controller, SECOND, b"a")]
        wanted = (0, f"{HEAD}open\nfrom switch 0 61\n", "")
        self.assertEqual(self.convert([ipv6(one) for one in packets]), wanted)
        for link, head in ((113, bytes(14) + b"\x08\0"), (276, b"\x08\0" + bytes(18)), (101, b""), (0, b"\2\0\0\0")):
            with self.subTest(link):
                bare = [Wire(time, head + frame[14:]) for time, frame in packets]
                self.assertEqual(self.convert([], made=pcap(bare, link=link)), wanted)

    def test_ports(self) -> None:
        switch, controller = Side("192.0.2.1", 50000, 1), Side("192.0.2.9", 16653, 1)
        packets = greeting(switch, controller, 0) + [switch.sends(controller, 1, b"a")]
        none = (2, "", "pcap2trace: CAPTURE: has no OpenFlow connection to port 6633 or 6653\n")
        self.assertEqual(self.convert(packets), none)
        self.assertEqual(self.records(packets, "--port", "16653"), ["open", "from switch 0 61"])

    def test_what_is_left_out_is_listed(self) -> None:
        switch, controller = sides()
        whole = greeting(switch, controller, 0)
        late = Side("192.0.2.3", 50001, 4)
        whole += [late.sends(Side("192.0.2.9", 6653, 1), 1, b"xyz"), switch.sends(controller, 2, b"a")]
        switch.sends(controller, 3, b"lost")
        whole.append(switch.sends(controller, 4, b"bc"))
        said = ("pcap2trace: CAPTURE: left out: packet 4: the connection from 192.0.2.3:50001 to 192.0.2.9:6653: its opening is "
                "not in the capture\npcap2trace: CAPTURE: left out: session 0: 2 bytes from the switch stand behind bytes that "
                "are not in the capture\n")  # fmt: skip
        self.assertEqual(self.convert(whole), (0, f"{HEAD}open\nfrom switch 0 61\n", said))
        target = os.path.join(self.folder, "trace")
        self.assertEqual(self.convert(whole, "--strict", "-o", target), (1, "", said))
        self.assertFalse(os.path.exists(target))
        refused = [Side("192.0.2.4", 50002, 1).sends(controller, 0, flags=SYN)]
        self.assertIn("was not accepted in the capture", self.convert(whole + refused).said)

    def test_bad_captures(self) -> None:
        switch, controller = sides()
        packets = greeting(switch, controller, 0) + [switch.sends(controller, 1, b"abcd" * 10)]
        good = pcap(packets)
        cut = good[: -94 - 8] + struct.pack("<II", 90, 94) + good[-94:-4]
        for made, why in [
            (b"GIF89a", "is neither a pcap nor a pcapng file"),
            (good[:-1], "packet 4: the file ends in it"),
            (cut, "packet 4: 4 bytes were cut off; capture whole packets, by `tcpdump -s 0`"),
            (pcapng(packets)[:-2], "a block has a wrong length"),
            (pcapng([]) + block("<", 3, bytes(8)), "packet 1: is of a kind without a time or out of use"),
        ]:
            with self.subTest(why):
                ran = self.convert([], made=made)
                self.assertEqual((ran.status, ran.out), (2, ""))
                self.assertIn(why, ran.said)

    @asks("tshark", bool(shutil.which("tshark")))
    def test_streams_of_a_real_capture_as_tshark_reads_them(self) -> None:
        name = os.path.join(DATA, "real-switch.pcap")
        command = ["tshark", "-r", name, "-q", "-z", "follow,tcp,raw,0"]
        lines = subprocess.run(command, capture_output=True, text=True).stdout.splitlines()
        read = [line for line in lines if line.strip() and set(line.strip()) <= set("0123456789abcdef")]
        wanted = {"switch": "".join(line for line in read if line[0] != "\t"),
                  "controller": "".join(line.strip() for line in read if line[0] == "\t")}  # fmt: skip
        ran = tool("pcap2trace", name)
        for side, digits in wanted.items():
            self.assertTrue(digits)
            pieces = [line.split(" ") for line in ran.out.splitlines() if line.startswith(f"from {side} ")]
            self.assertEqual("".join(piece[3] for piece in pieces), digits)

    @unittest.skipUnless(os.path.exists(PROGRAM), "monocle is not built")
    def test_monocle_reads_the_demo(self) -> None:
        trace = self.file("trace", tool("pcap2trace", os.path.join(DEMO, "greeting.pcap"), "--tick-ms", "0").out)
        self.assertEqual(monocle("replay", SETTINGS, trace).status, 0)
