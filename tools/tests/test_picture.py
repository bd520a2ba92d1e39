"""picture: pages that are well-formed, self-contained, and draw what there is."""

import os
import re
import shutil
import subprocess
import xml.etree.ElementTree as tree
from typing import Dict, List

from common import DEMO, REMADE, SETTINGS, Case, asks, content, generated, tool

SVG, HTML = "{http://www.w3.org/2000/svg}", "{http://www.w3.org/1999/xhtml}"
BROWSER = next((name for name in ("chromium", "chromium-browser", "google-chrome") if shutil.which(name)), "")


def contrast(one: str, other: str) -> float:
    """The contrast of two colours, from 1 to 21 (WCAG 2.1, relative luminance)."""

    def luminance(colour: str) -> float:
        parts = [int(colour[at : at + 2], 16) / 255 for at in (1, 3, 5)]
        linear: List[float] = [part / 12.92 if part <= 0.03928 else ((part + 0.055) / 1.055) ** 2.4 for part in parts]
        return 0.2126 * linear[0] + 0.7152 * linear[1] + 0.0722 * linear[2] + 0.05

    high, low = sorted((luminance(one), luminance(other)), reverse=True)
    return high / low


class Picture(Case):
    def page(self, *words: str) -> tree.Element:
        """The page that is drawn, which asks nothing of a network."""
        ran = tool("picture", *words)
        self.assertEqual((ran.status, ran.said), (0, ""))
        self.assertIsNone(re.search(r"(src|href|url)\s*[=(]\s*[\"']?(?!#)[a-z/]", ran.out.replace("xmlns", "")))
        return tree.fromstring(ran.out.replace('xmlns="http://www.w3.org/1999/xhtml" ', ""))

    def cells(self, page: tree.Element) -> List[str]:
        return [use.attrib["href"] for cell in page.iter("a") for use in cell.iter("use")]

    def test_demo(self) -> None:
        table, proof = os.path.join(DEMO, "five-rules.table"), os.path.join(DEMO, "five-rules.certificates")
        page = self.page(table, proof)
        self.assertEqual(self.cells(page), ["#not-shown", "#shown", "#tied", "#tied", "#shown"])
        self.assertEqual([item.attrib["id"] for item in page.iter("li")], [f"rule-{place}" for place in range(5)])
        said = "".join(next(item for item in page.iter("li") if item.attrib["id"] == "rule-0").itertext())
        self.assertIn(
            "rule 1 (priority=100,ip,nw_dst=10.0.0.0/24 actions=output:2) stands below it and does the same", said
        )
        self.assertEqual(tool("picture", table, proof).out, content(DEMO, "five-rules.html"), REMADE)

    def test_marks_differ_without_colour(self) -> None:
        page = self.page(os.path.join(DEMO, "five-rules.table"), os.path.join(DEMO, "five-rules.certificates"))
        marks: Dict[str, tree.Element] = {symbol.attrib["id"]: symbol for symbol in page.iter("symbol")}
        self.assertEqual(set(marks), {"shown", "tied", "not-shown"})
        self.assertEqual(len({next(mark.iter("path")).attrib["d"] for mark in marks.values()}), 3)
        self.assertEqual(len({next(mark.iter("rect")).attrib["fill"] for mark in marks.values()}), 3)
        for mark in marks.values():
            ground, shape = next(mark.iter("rect")), next(mark.iter("path"))
            self.assertGreater(contrast(ground.attrib["fill"], shape.attrib["stroke"]), 3)

    def test_a_timeline_of_a_run(self) -> None:
        page = self.page(os.path.join(DEMO, "one-update.output"), "--trace", os.path.join(DEMO, "one-update.trace"))
        drawings = [svg for svg in page.iter("svg") if svg.attrib.get("class") == "timeline"]
        self.assertEqual(len(drawings), 3)
        bars = [rect for rect in drawings[0].iter("rect") if rect.attrib.get("class") == "held"]
        self.assertEqual([bar.find("title").text for bar in bars], ["BARRIER_REPLY held for 2 records"])  # type: ignore[union-attr]
        said = [text.text for text in drawings[0].iter("text")]
        self.assertIn("edit 1 was seen to work, by probe 1, 3 records after it went out", said)
        self.assertIn("BARRIER_REPLY (xid 0x12), held for 2 records", said)
        self.assertIn("one of its ends closed", [text.text for text in drawings[1].iter("text")][-1] or "")

    def test_a_long_timeline_is_drawn_in_parts(self) -> None:
        echoes = [f"from controller 0 01020008{number:08x}\n" for number in range(1, 121)]
        trace = self.file("trace", "monocle-trace 1 0000000000000001\nopen\n" + "".join(echoes) + 3 * "tick\n")
        puts = [f"{number + 1} put 0 switch 01020008{number:08x}\n" for number in range(2, 121)]
        output = self.file("output", "".join(puts) + "124 put 0 switch 0102000800000001\n")
        page = self.page(output, "--trace", trace)
        parts = [svg for svg in page.iter("svg") if svg.attrib.get("class") == "timeline"]
        self.assertEqual([len(list(part.iter("g"))) for part in parts], [50, 50, 21])
        held = [[rect for rect in part.iter("rect") if rect.attrib.get("class") == "held"] for part in parts]
        self.assertEqual([len(bars) for bars in held], [1, 1, 1])

    def test_time_between_in_ticks(self) -> None:
        trace = content(DEMO, "one-update.trace").replace("answer 0\n", "tick\ntick\nanswer 0\n")
        moved = [re.sub("^1[567] ", lambda found: f"{int(found[0]) + 2} ", line)
                 for line in content(DEMO, "one-update.output").splitlines()]  # fmt: skip
        output = self.file("output", "".join(f"{line}\n" for line in moved))
        page = self.page(output, "--trace", self.file("trace", trace), "--settings", SETTINGS)
        said = [text.text for text in page.iter("text")]
        self.assertIn("BARRIER_REPLY (xid 0x12), held for 4 records, 2 ticks (200 ms)", said)
        self.assertIn("18, tick 2", said)

    def test_demo_run(self) -> None:
        words = [os.path.join(DEMO, "one-update.output"), "--trace", os.path.join(DEMO, "one-update.trace")]
        self.assertEqual(tool("picture", *words).out, content(DEMO, "one-update.html"), REMADE)

    def test_words_are_escaped(self) -> None:
        report = '4 line {"datapath":"<b>&\\"","event":"armed","session":0,"tag":1}\n'
        ran = tool("picture", "-", text=report)
        self.assertEqual(ran.status, 0)
        self.assertIn("&lt;b&gt;&amp;", ran.out)

    def big(self, count: int) -> List[str]:
        """A large generated table, and certificates that call the rules of one rank tied, and the others not shown."""
        table = generated(count, 7)
        lines = ["monocle-certificates 1", f"rules {len(table.rules)}"]
        lines += [
            f"none {place} 0" if rule.priority > 4000 else f"overlap {place}"
            for place, rule in enumerate(table.rules)
        ]
        return [self.file("table", table.text()), self.file("certificates", "".join(f"{line}\n" for line in lines))]

    def test_as_many_cells_as_rules(self) -> None:
        words = self.big(700)
        rules = content(words[0]).count("\nrule ")
        self.assertEqual(len(self.cells(self.page(*words))), rules)

    @asks("a browser", bool(BROWSER))
    def test_a_browser_draws_each_rule(self) -> None:
        page = os.path.join(self.folder, "page.html")
        words = self.big(700)
        self.assertEqual(tool("picture", *words, "-o", page).status, 0)
        command = [
            BROWSER,
            "--headless",
            "--no-sandbox",
            "--disable-gpu",
            f"--user-data-dir={self.folder}",
            "--dump-dom",
            f"file://{page}",
        ]
        drawn = subprocess.run(command, capture_output=True, text=True, timeout=120).stdout
        if not drawn.strip():
            self.skipTest(f"{BROWSER} does not run here")
        found = re.search('data-drawn="([0-9]+)"', drawn)
        self.assertEqual(found and int(found[1]), content(words[0]).count("\nrule "))

    def test_bad_words_and_bad_input(self) -> None:
        ran = tool("picture", os.path.join(DEMO, "five-rules.table"))
        self.assertEqual((ran.status, ran.out), (2, ""))
        self.assertIn("five-rules.table:1: a record is a number", ran.said)
        trace = self.file("trace", "monocle-trace 1 0000000000000001\nopen\nfrom switch 1 00\n")
        ran = tool("picture", os.path.join(DEMO, "one-update.output"), "--trace", trace)
        self.assertEqual(
            (ran.status, ran.said), (2, f"picture: {trace}:3: session 1 was not opened: from switch 1 00\n")
        )
