"""The page of a table: a map of all rules in table order, and below it each rule with its explanation."""

from __future__ import annotations

from typing import Iterator, Sequence
from xml.sax.saxutils import escape

from .files import Table
from .pages import MARKS, mark, page, symbols
from .reasons import NOT_SHOWN, SHOWN, TIED, Explanation

CELL = 17
# opens the rule that a cell leads to, hides kinds of rules, and notes how many cells are really drawn
SCRIPT = """
function reveal() {
  var item = document.getElementById(location.hash.slice(1));
  if (item) { item.querySelector("details").open = true; item.scrollIntoView({block: "center"}); }
}
addEventListener("hashchange", reveal);
document.querySelectorAll("a.cell").forEach(function (cell) {
  cell.addEventListener("click", function () { setTimeout(reveal, 0); });
});
document.querySelectorAll("input[data-kind]").forEach(function (box) {
  box.addEventListener("change", function () { document.body.classList.toggle("no-" + box.dataset.kind, !box.checked); });
});
document.body.dataset.drawn = Array.from(document.querySelectorAll("a.cell use")).filter(function (cell) {
  return cell.getBoundingClientRect().width !== 0;
}).length;
reveal();
"""


def legend(explained: Sequence[Explanation]) -> Iterator[str]:
    """What the marks mean, how many rules have each, and boxes that hide them in the list."""
    meanings = {
        SHOWN: "a packet shows that the rule is there",
        TIED: "a rule of the same rank overlaps it, so the switch may choose",
        NOT_SHOWN: "no packet shows it",
    }
    yield '<p class="legend">'
    for state, meaning in meanings.items():
        count = sum(one.state == state for one in explained)
        yield (f'<label><input type="checkbox" checked="checked" data-kind="{MARKS[state].name}"/> {mark(state)} '
               f"<b>{count}</b> {state}: {meaning}</label>")  # fmt: skip
    yield "</p>"


def rule_map(table: Table, explained: Sequence[Explanation]) -> Iterator[str]:
    """A cell for each rule, row by row in table order."""
    across = 64 if len(explained) > 1024 else 32
    rows = (len(explained) + across - 1) // across
    width, height = across * CELL + 50, max(1, rows) * CELL
    yield (f'<svg class="map" viewBox="0 0 {width} {height}" width="{width}" height="{height}" role="img" '
           f'aria-label="map of the rules in table order">{symbols()}')  # fmt: skip
    for row in range(rows):
        yield f'<text x="40" y="{row * CELL + 13}" text-anchor="end">{row * across}</text>'
    for place, (rule, said) in enumerate(zip(table.rules, explained)):
        x, y = 48 + place % across * CELL, place // across * CELL
        yield (f'<a class="cell" href="#rule-{place}"><title>{escape(f"rule {place}: {said.state}: {rule.words()}")}</title>'
               f'<use href="#{MARKS[said.state].name}" x="{x}" y="{y}" width="16" height="16"/></a>')  # fmt: skip
    yield "</svg>"


def rule_list(table: Table, explained: Sequence[Explanation]) -> Iterator[str]:
    """Each rule, which opens at a click."""
    yield '<ol class="rules">'
    for place, (rule, said) in enumerate(zip(table.rules, explained)):
        yield f'<li id="rule-{place}" class="{MARKS[said.state].name}"><details><summary><span class="number">{place}</span>'
        yield f'{mark(said.state)}<span class="words">{escape(rule.words())}</span></summary>'
        yield "".join(f"<p>{escape(sentence)}</p>" for sentence in said.sentences) + "</details></li>"
    yield "</ol>"


def rule_page(table: Table, explained: Sequence[Explanation]) -> str:
    """The page of a table and what is said of its rules."""
    view = table.view
    shown = sum(said.state == SHOWN for said in explained)
    title = f"Switch {view.switch:016x}: {shown} of {len(explained)} rules can be monitored"
    links = ", ".join(f"port {link.port} to port {link.far_port} of {link.switch:016x}" for link in view.links)
    body = [
        f"<h1>{escape(title)}</h1>",
        f"<p>Probes carry the VLAN id {view.tag}. Links: {escape(links or 'none')}.</p>",
        *legend(explained),
        *rule_map(table, explained),
        "<p class='note'>Rules stand in table order, row by row; a click on a cell opens its rule below. Which of the three a "
        "rule is, its certificate says, which <code>monocle check</code> judges. Why a rule is not shown was found by "
        "looking at some packets: that is an explanation, and no proof.</p>",
        *rule_list(table, explained),
    ]
    return page(title, body, SCRIPT)
