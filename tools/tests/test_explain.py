"""explain: rules, runs and report lines in words."""

import os
from typing import List

from common import DEMO, REMADE, Case, asks, content, running, tool
from monocle_tools.open_vswitch import missing

VIEW = """monocle-table 1
switch 0000000000000001 100
tags 100 101
miss 128
link 1 0000000000000002 1 101
link 2 0000000000000003 1 101
"""
ALL = "003820ff" + 36 * "00"
IPV4 = "003820ef" + 18 * "00" + "0800" + 16 * "00"
TO_2 = "0000000800020000"


def ipv4_to(address: str, count: int) -> str:
    """The match of IPv4 packets to an address of which so many low bits are ignored."""
    return f"{0x3020EF | count << 14:08x}" + 18 * "00" + "0800" + 8 * "00" + address + 4 * "00"


# rules that no packet shows, beside others: the rules, the place of the one, and what is to be said of it
HIDDEN = [
    ([f"rule 9 {IPV4} -"], 0, "it drops what it takes"),
    ([f"rule 9 {IPV4} 00000008fffa0000"], 0, "its action NORMAL leaves to the switch what is sent"),
    ([f"rule 9 {IPV4} ffff000800002320"], 0, "its action unknown(ffff000800002320) leaves to the switch what is sent"),
    ([f"rule 9 {IPV4} 000a000800500000"], 0, "it changes what it takes and sends it nowhere"),
    (["rule 9 003820fe0007" + 34 * "00" + f" {TO_2}"], 0, "by port 7, where no monitored switch is linked"),
    (["rule 9 003820fd" + 14 * "00" + "0005" + 20 * "00" + f" {TO_2}"], 0, "it takes packets of VLAN 5 alone"),
    (["rule 9 002820fd" + 14 * "00" + "ffff" + 20 * "00" + f" {TO_2}"], 0, "it takes untagged packets alone"),
    (["rule 9 003820ef" + 18 * "00" + "8100" + 16 * "00" + f" {TO_2}"], 0, "there are no probes of Ethernet type 0x8100"),
    (["rule 9 0038206f" + 18 * "00" + "0806" + 14 * "00" + f"0050 {TO_2}"], 0, "probes of ARP have no type of service and no ports"),
    (["rule 9 003820ef" + 18 * "00" + "0806" + 16 * "00" + f" {TO_2}", f"rule 5 {ALL} {TO_2}"], 0,
     "rule 1 (priority=5 actions=output:2) stands below it and does the same"),
    ([f"rule 9 {IPV4} 0000000800070000"], 0, "it sends by port 7, where no monitored switch is linked"),
    ([f"rule 9 {IPV4} 0003000800000000{TO_2}"], 0, "it sends by port 2 without a VLAN tag, which switch 0000000000000003"),
    ([f"rule 9 {IPV4} 0001000800650000{TO_2}"], 0, "it sends by port 2 with the VLAN id 101, which switch 0000000000000003"),
    ([f"rule 9 {IPV4} 00000008fffd007f"], 0, "it sends fewer than 128 bytes to the controller"),
    (["rule 9 003820fe0002" + 34 * "00" + f" {TO_2}"], 0, "what comes in by port 2 would go back by it alone, and so goes nowhere"),
    ([f"rule 9 {IPV4} {TO_2}", f"rule 5 {ipv4_to('0a000000', 8)} 0000000800010000"], 1,
     "rule 0 (priority=9,ip actions=output:2) stands above it and takes all that it would take"),
    ([f"rule 9 {ipv4_to('0a000005', 0)} {TO_2}", f"rule 5 {IPV4} {TO_2}"], 0,
     "rule 1 (priority=5,ip actions=output:2) stands below it and does the same"),
    ([f"rule 9 {ipv4_to('0a000005', 0)} {TO_2}", f"rule 5 {IPV4} 00000008fffb0000"], 0,
     "rule 1 (priority=5,ip actions=FLOOD) stands below it and may do the same, since the switch decides what it sends"),
]  # fmt: skip


class Explain(Case):
    def certificates(self, lines: List[str]) -> str:
        return self.file("certificates", "".join(f"{line}\n" for line in ["monocle-certificates 1", *lines]))

    def table(self, rules: List[str]) -> str:
        return self.file("table", VIEW + "".join(f"{rule}\n" for rule in rules))

    def test_demo(self) -> None:
        ran = tool("explain", os.path.join(DEMO, "five-rules.table"), os.path.join(DEMO, "five-rules.certificates"))
        self.assertEqual(ran, (0, content(DEMO, "five-rules.explained"), ""), REMADE)

    def test_why_no_packet_shows_a_rule(self) -> None:
        for rules, place, why in HIDDEN:
            with self.subTest(why):
                proof = self.certificates([f"rules {len(rules)}", *(f"none {one} 0" for one in range(len(rules)))])
                ran = tool("explain", self.table(rules), proof)
                self.assertEqual((ran.status, ran.said), (0, ""))
                said = ran.out.partition(f"rule {place}: not shown")[2].partition("\nrule ")[0]
                self.assertIn(why, " ".join(said.split()))
                self.assertIn("as an explanation and not as a proof", " ".join(said.split()))

    def test_a_probe_that_shows_nothing_is_doubted(self) -> None:
        # to port 2 by the rule, and so by the rule below
        header = (
            "0001" + "020000000001" + "020000000002" + "0064" + "00" + "0800" + "00" + "11" + "0a000001" + "0a000005"
        )
        header += "00010002"
        proof = self.certificates(
            ["rules 2", f"probe 0 {header} port 2 {header}", f"probe 1 {header} port 2 {header}"]
        )
        ran = tool("explain", self.table([f"rule 9 {ipv4_to('0a000005', 0)} {TO_2}", f"rule 5 {IPV4} {TO_2}"]), proof)
        self.assertEqual(ran.out.count("let `monocle check` judge the certificate"), 2)

    def test_flows_of_a_table(self) -> None:
        ran = tool("explain", "--flows", os.path.join(DEMO, "five-rules.table"))
        self.assertEqual(ran.out.splitlines(), [
            "priority=200,ip,nw_dst=10.0.0.5 actions=output:2", "priority=100,ip,nw_dst=10.0.0.0/24 actions=output:2",
            "priority=80,ip,nw_dst=172.16.0.0/12 actions=drop", "priority=80,tcp,tp_dst=80 actions=output:1",
            "priority=50,ip actions=output:1"])  # fmt: skip

    def test_rules_that_are_no_flows(self) -> None:
        for rule, why in [
            (f"rule 9 {IPV4} {TO_2} unsure", "it has a timeout, and how long that is a table does not say"),
            ("rule 9 003020ff" + 28 * "00" + "0a00000500000000 -", "nw_dst says nothing without ip or arp"),
            (f"rule 9 {IPV4} ffff000800002320", "action `unknown(ffff000800002320)` is unknown"),
            (f"rule 9 {IPV4} 0001000810050000", "`4101` is above 4095"),
        ]:
            with self.subTest(why):
                name = self.file("table", VIEW.replace("table 1", "table 2") + f"rule 10 {ALL} -\n{rule}\n")
                ran = tool("explain", "--flows", name)
                self.assertEqual(ran, (2, "", f"explain: {name}: rule 1 is no flow: {why}\n"))
        name = self.table([f"rule 9 {IPV4} 000000080002ffff00000008fffdffff"])
        self.assertEqual(tool("explain", "--flows", name).out, "priority=9,ip actions=output:2,CONTROLLER:65535\n")

    @asks("Open vSwitch", not missing())
    def test_open_vswitch_takes_the_probes_by_their_rules(self) -> None:
        said = content(DEMO, "five-rules.explained").splitlines()
        probes = [line.strip() for line in said if line.strip().startswith("tcp,in_port=")]
        with running() as switch:
            switch.install(tool("explain", "--flows", os.path.join(DEMO, "five-rules.table")).out.splitlines())
            traces = [switch.trace(probe) for probe in probes]
        self.assertEqual(len(traces), 2)
        self.assertIn(" 0. ip,nw_dst=10.0.0.0/24, priority 100\n    output:2\n", traces[0])
        self.assertIn(" 0. ip, priority 50\n    output:1\n", traces[1])

    def test_a_run(self) -> None:
        ran = tool("explain", os.path.join(DEMO, "one-update.output"))
        update = "add priority=100,ip,nw_dst=10.0.0.0/24 actions=output:2"
        probe = ("udp,dl_vlan=100,dl_vlan_pcp=0,dl_src=02:00:00:00:00:01,dl_dst=02:00:00:00:00:02,nw_src=10.0.0.1,"
                 "nw_dst=10.0.0.2,nw_tos=0,tp_src=1,tp_dst=2")  # fmt: skip
        self.assertEqual(ran.out.splitlines()[-12:], [
            "record 10: session 0: switch 0000000000000001 is armed, with the VLAN id 100 as its tag",
            f"record 13: session 0: to the switch as edit 1: FLOW_MOD (xid 0x11): {update}",
            "record 13: session 0: to the switch: BARRIER_REQUEST (xid 0x12)",
            f"record 13: job 1, on edit 1 ({update}) of session 0, is offered",
            f"record 15: job 1, on edit 1 ({update}) of session 0: a packet shows it",
            f"record 15: probe 1 is made for job 1, on edit 1 ({update}) of session 0",
            f"record 15: session 1: to the switch: PACKET_OUT (xid 0x4d6f6e6f, of monocle): probe 1: {probe} actions=output:1",
            f"record 16: session 0: edit 1 ({update}) was seen to work, by probe 1",
            "record 16: session 0: to the controller: BARRIER_REPLY (xid 0x12)",
            "record 17: session 1 ends", "record 17: session 1 is closed: one of its ends closed",
            "end: session 0 expects priority=100,ip,nw_dst=10.0.0.0/24 actions=output:2"])  # fmt: skip

    def test_report_lines(self) -> None:
        match = ipv4_to("0a000000", 8)
        said = {
            '{"edit":2,"event":"silent","session":3}': "session 3: edit 2 was not seen to work in time",
            '{"cause":"features","event":"closed","session":0}': "session 0 is closed: the switch's features were cut",
            f'{{"event":"seen","match":"{match}","priority":100,"serial":2,"session":0}}':
                "session 0: the rule priority=100,ip,nw_dst=10.0.0.0/24 was seen to work, by probe 2",
            f'{{"event":"missing","match":"{ALL}","priority":7,"session":0}}':
                "session 0: the rule priority=7 was not seen in time",
        }  # fmt: skip
        ran = tool("explain", "-", text="".join(f"{line}\n" for line in said))
        self.assertEqual(ran.out.splitlines(), list(said.values()))

    def test_bad_input_is_named(self) -> None:
        good = f"rule 9 {IPV4} {TO_2}"
        for line, why in [
            (good + "00", "an action is cut at byte 8"),
            (good.replace("rule 9", "rule 09"), "a priority is a number of 0 to 65535"),
            (good.replace("rule 9", "rule 65536"), "a priority is a number of 0 to 65535"),
            (good + " unsure", "is not `rule PRIORITY MATCH ACTIONS`"),
            (f"{good}\n{good}", "has the match and the rank of an earlier rule"),
            (f"rule 9 {IPV4[:-2]} -", "a match has 80 lower hexadecimal digits, two a byte"),
            (f"rule 9 {IPV4} 0000001000020000", "the action at byte 0 has a wrong length"),
            ("link 3 0000000000000004 1 101", "is not `rule PRIORITY MATCH ACTIONS`"),
        ]:
            with self.subTest(line):
                name = self.table([f"rule 1 {ALL} -", line])
                number = 8 + line.count("\n")
                ran = tool("explain", "--flows", name)
                self.assertEqual((ran.status, ran.out), (2, ""))
                self.assertEqual(ran.said, f"explain: {name}:{number}: {why}: {line.splitlines()[-1]}\n")
        for lines, number, why in [
            (["rules 1", "overlap 1"], 3, "is not the certificate of rule 0"),
            (["rules 1", "none 0 1", "log 1", "l 0 0 0"], 5, "is not `l LITERALS 0 HINTS 0`"),
            (["rules 1", "overlap 0", "overlap 1"], 4, "stands behind the last certificate"),
            (["rules 1", "probe 0 00 miss 00"], 3, "a header has 66 lower hexadecimal digits, two a byte"),
        ]:
            with self.subTest(lines[-1]):
                name = self.certificates(lines)
                ran = tool("explain", self.table([good]), name)
                self.assertEqual((ran.status, ran.out), (2, ""))
                self.assertEqual(ran.said, f"explain: {name}:{number}: {why}: {lines[number - 2]}\n")
        name = self.certificates(["rules 2", "overlap 0", "overlap 1"])
        said = tool("explain", self.table([good]), name).said
        self.assertEqual(said, f"explain: {name}: has 2 certificates for a table of 1 rules\n")
        said = tool("explain", "-", text='{"event":"silent","session":3}\n').said
        self.assertEqual(
            said, 'explain: standard input:1: is no report line of its event: {"event":"silent","session":3}\n'
        )
        for line in ("4", "4 putt 0", "4 end", "4 offer 1 0 1 4 5", "4 verdict 1 maybe", "table 0 100"):
            ran = tool("explain", "-", text=f"4 end 0\n{line}\n")
            self.assertEqual((ran.status, ran.out), (2, ""), line)
            self.assertTrue(ran.said.startswith("explain: standard input:2: is no"), ran.said)
        said = tool("explain", "-", text="4 put 0 switch 0100\n").said
        self.assertEqual(
            said, "explain: standard input:1: is no frame to a switch or controller: 4 put 0 switch 0100\n"
        )
