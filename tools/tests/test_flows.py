"""flows2table: dumps to tables, what is left out, and what is not understood."""

import os
import unittest

from common import (
    DATA, DEMO, PROGRAM, SETTINGS, Case, asks, content, generated, generated_settings, monocle, running, tool,
)  # fmt: skip
from monocle_tools.open_vswitch import missing

# how switch 1 of the settings is seen: worked out from its two links
VIEW = """monocle-table 1
switch 0000000000000001 100
tags 100 101
miss 128
link 1 0000000000000002 1 101
link 2 0000000000000003 1 101
"""
# a flow and its line of a table: the layouts of OpenFlow 1.0.0 by hand
WORKED = [
    ("priority=50 actions=output:1",
     "rule 50 003820ff" + 36 * "00" + " 0000000800010000"),
    (" cookie=0x7, duration=5.014s, table=0, n_packets=1, n_bytes=60, idle_age=5, priority=9,in_port=3 actions=drop",
     "rule 9 003820fe0003" + 34 * "00" + " -"),
    ("dl_src=02:00:00:00:00:0a,dl_dst=ff:ff:ff:ff:ff:ff actions=NORMAL",
     "rule 32768 003820f30000" + "02000000000a" + "ffffffffffff" + 22 * "00" + " 00000008fffa0000"),
    ("priority=1,tcp,nw_src=10.0.0.0/255.128.0.0,nw_dst=1.2.3.4,tp_dst=80 actions=CONTROLLER:128",
     "rule 1 0030174f" + 18 * "00" + "0800" + "0006" + "0000" + "0a000000" + "01020304" + "0000" + "0050 00000008fffd0080"),
    ("priority=1,dl_vlan=5,dl_vlan_pcp=7 actions=mod_vlan_vid:5,mod_vlan_pcp:3,strip_vlan",
     "rule 1 002820fd" + 14 * "00" + "000507" + 19 * "00" + " 000100080005000000020008030000000003000800000000"),
    ("priority=1,icmp,icmp_type=8,icmp_code=1,nw_tos=32 actions=enqueue:2:9",
     "rule 1 0018200f" + 18 * "00" + "08002001" + 10 * "00" + "00080001 000b0010000200000000000000000009"),
    ("priority=1,arp,arp_op=2,arp_spa=10.0.0.1 actions=mod_nw_tos:4,output:7",
     "rule 1 003800cf" + 18 * "00" + "0806" + "0002" + "0000" + "0a000001" + 8 * "00" + " 00080008040000000000000800070000"),
    ("priority=1,vlan_tci=0x0000 actions=mod_tp_dst:80",
     "rule 1 002820fd" + 14 * "00" + "ffff" + 20 * "00" + " 000a000800500000"),
]  # fmt: skip
BAD = [
    ("priority=50,ip", "has no `actions=`"),
    ("priority=50,ip actions=", "has the actions ``"),
    ("priority=70000 actions=drop", "`70000` is above 65535"),
    ("prioritty=5 actions=drop", "`prioritty=5` is unknown"),
    ("ip,nw_dst=10.0.0 actions=drop", "`10.0.0` is no IPv4 address"),
    ("ip,nw_dst=10.0.0.0/33 actions=drop", "`33` is above 32"),
    ("ip,nw_dst=10.0.0.010 actions=drop", "`10.0.0.010` is no IPv4 address"),
    ("priority=010 actions=drop", "`010` is no number"),
    ("tcp,udp actions=drop", "`udp` says nw_proto anew"),
    ("in_port=eth0 actions=drop", "`eth0` is no port's number; `ovs-ofctl --no-names dump-flows` writes numbers"),
    ("dl_src=02:00 actions=drop", "`02:00` is no Ethernet address"),
    ("ip actions=outptu:2", "action `outptu:2` is unknown"),
    ("ip actions=drop,output:2", "has the actions `drop,output:2`"),
    ("ovs-ofctl: br0: failed to connect", "has no `actions=`"),
]
# what stands in the reason for each line of the dump of flows beyond OpenFlow 1.0, by its priority
BEYOND = {
    3: "in table 1", 4: "no field reg0", 5: "no `tcp6`", 6: "whole Ethernet addresses", 7: "compares tp_dst whole",
    8: "leading bits", 9: "no field nw_frag", 10: "no field tcp_flags", 11: "no field vlan_tci", 12: "no field ct_state",
    13: "no field nw_ttl", 14: "no field tun_id", 15: "ports of TCP and UDP", 16: "idle_timeout=600",
}  # fmt: skip


class FlowsToTable(Case):
    def test_demo(self) -> None:
        ran = tool("flows2table", SETTINGS, "1", os.path.join(DEMO, "five-rules.flows"))
        self.assertEqual(ran, (0, content(DEMO, "five-rules.table"), ""))

    def test_worked_lines(self) -> None:
        for flow, line in WORKED:
            with self.subTest(flow):
                self.assertEqual(tool("flows2table", SETTINGS, "1", text=f"{flow}\n"), (0, f"{VIEW}{line}\n", ""))

    def test_lines_that_are_no_flows(self) -> None:
        heads = ["NXST_FLOW reply (xid=0x4): flags=[more]", "OFPST_FLOW reply (xid=0x2):", "", "# a comment"]
        for head in heads:
            ran = tool("flows2table", SETTINGS, "1", text=f"{head}\n{WORKED[0][0]}\n")
            self.assertEqual(ran, (0, f"{VIEW}{WORKED[0][1]}\n", ""))

    def test_each_field_as_the_switch_spells_it(self) -> None:
        ran = tool("flows2table", SETTINGS, "1", os.path.join(DATA, "every-field.flows"), "--strict")
        self.assertEqual((ran.status, ran.said), (0, ""))
        self.assertEqual(sorted(ran.out[len(VIEW) :].splitlines()), content(DATA, "every-field.rules").splitlines())

    def test_rank_of_a_rule_without_wildcards(self) -> None:
        exact = ("udp,in_port=1,dl_vlan=100,dl_vlan_pcp=0,dl_src=02:00:00:00:00:01,dl_dst=02:00:00:00:00:02,nw_src=10.0.0.1,"
                 "nw_dst=10.0.0.2,nw_tos=0,tp_src=1,tp_dst=2 actions=output:2")  # fmt: skip
        ran = tool("flows2table", SETTINGS, "1", text=f"priority=9 actions=drop\npriority=0,{exact}\n")
        self.assertEqual([line.split()[1] for line in ran.out[len(VIEW) :].splitlines()], ["0", "9"])
        twice = tool("flows2table", SETTINGS, "1", text=f"priority=1,{exact}\npriority=0,{exact}\n")
        self.assertEqual(twice.status, 0)
        self.assertIn("standard input:2: left out: monocle tells it apart from line 1 by nothing", twice.said)

    def test_what_is_left_out_is_listed(self) -> None:
        name = os.path.join(DATA, "beyond.flows")
        ran = tool("flows2table", SETTINGS, "1", name)
        self.assertEqual(ran.status, 0)
        self.assertEqual(ran.out, VIEW + "rule 17 003820ef" + 18 * "00" + "0800" + 16 * "00" + " 0000000800030000\n")
        for number, line in enumerate(content(name).splitlines(), 1):
            priority = int(line.partition("priority=")[2].partition(",")[0].partition(" ")[0] or 0)
            if priority in BEYOND:
                said = [
                    one
                    for one in ran.said.splitlines()
                    if one.startswith(f"flows2table: {name}:{number}: left out: ")
                ]
                self.assertEqual(len(said), 1)
                self.assertIn(BEYOND[priority], said[0])
                self.assertTrue(said[0].endswith(line.strip()))
        self.assertIn(f"{len(BEYOND)} lines left out", ran.said.splitlines()[-1])

    def test_strict(self) -> None:
        target = os.path.join(self.folder, "table")
        ran = tool("flows2table", SETTINGS, "1", os.path.join(DATA, "beyond.flows"), "--strict", "-o", target)
        self.assertEqual((ran.status, ran.out, os.listdir(self.folder)), (1, "", []))

    def test_timeouts(self) -> None:
        flow = "idle_timeout=600,priority=16 actions=output:2\n"
        self.assertIn("the entry may vanish", tool("flows2table", SETTINGS, "1", text=flow).said)
        ran = tool("flows2table", SETTINGS, "1", "--unsure", text=flow)
        unsure = "rule 16 003820ff" + 36 * "00" + " 0000000800020000 unsure\n"
        self.assertEqual(ran, (0, VIEW.replace("table 1", "table 2") + unsure, ""))
        sure = tool("flows2table", SETTINGS, "1", "--unsure", text="priority=16 actions=output:2\n")
        self.assertTrue(sure.out.startswith("monocle-table 1\n"))

    def test_bad_lines_are_named_and_nothing_is_written(self) -> None:
        target = os.path.join(self.folder, "table")
        for line, why in BAD:
            with self.subTest(line):
                ran = tool(
                    "flows2table", SETTINGS, "1", "-o", target, text=f"# flows\npriority=5 actions=drop\n{line}\n"
                )
                self.assertEqual(ran, (2, "", f"flows2table: standard input:3: {why}: {line}\n"))
                self.assertFalse(os.path.exists(target))

    def test_bad_settings(self) -> None:
        good = content(SETTINGS)
        for old, new, why in [
            ('"retry_ticks": 2', '"retry_ticks": 0', "member retry_ticks is wrong, missing or unknown"),
            ('"workers": 2', '"worker": 2', "member workers is wrong, missing or unknown"),
            ('"sessions": 0', '"sessions": 0, "a": 1', "member a is wrong, missing or unknown"),
            ('"127.0.0.1:6634"', '"127.0.0.01:6634"', "member listen is wrong, missing or unknown"),
            (' 2, "0000000000000003"', ' 1, "0000000000000003"', "member links/1 is wrong, missing or unknown"),
            ("[100, 101, 102]", "[100]", "member tags: too few tags"),
        ]:
            with self.subTest(new):
                self.assertIn(old, good)
                name = self.file("settings.json", good.replace(old, new))
                ran = tool("flows2table", name, "1", text="priority=5 actions=drop\n")
                self.assertEqual(ran, (2, "", f"flows2table: {name}: {why}\n"))
        self.assertEqual(
            tool("flows2table", SETTINGS, "9").said, f"flows2table: {SETTINGS}: has no switch {9:016x}\n"
        )

    def test_a_switch_without_links(self) -> None:
        settings = os.path.join(DEMO, "settings.json")
        ran = tool("flows2table", settings, "0x1", text=WORKED[0][0])
        self.assertEqual(
            (ran.status, ran.out.splitlines()[1:4]), (0, [f"switch {1:016x} 100", "tags 100", "miss 128"])
        )
        self.assertIn("so no rule can be monitored", ran.said)

    @asks("Open vSwitch", not missing())
    def test_there_and_back_through_open_vswitch(self) -> None:
        small = self.file("generated.table", generated(300, 7).text())
        every = tool("flows2table", SETTINGS, "1", os.path.join(DATA, "every-field.flows")).out
        settings = self.file("settings.json", generated_settings())
        with running() as switch:
            for table, named in ((os.path.join(DEMO, "five-rules.table"), SETTINGS), (small, settings),
                                 (self.file("every.table", every), SETTINGS)):  # fmt: skip
                flows = tool("explain", "--flows", table).out.splitlines()
                switch.install(flows, "-O", "OpenFlow10")
                back = tool("flows2table", named, "1", "--strict", text=switch.dump())
                self.assertEqual(back, (0, content(table), ""))
                wanted = sorted(line for line in content(table).splitlines() if line.startswith("rule "))
                self.assertEqual(switch.rules(), wanted)

    @unittest.skipUnless(os.path.exists(PROGRAM), "monocle is not built")
    def test_monocle_reads_the_tables(self) -> None:
        for name in ("every-field", "beyond"):
            table = self.file("table", tool("flows2table", SETTINGS, "1", os.path.join(DATA, f"{name}.flows")).out)
            self.assertEqual(monocle("plan", table).status, 0)
        table = self.file("table", generated(40, 7).text())
        self.assertEqual(monocle("plan", table), monocle("plan", "--generate", "40", "--seed", "7"))
