"""Pages with drawings: self-contained, well-formed as XML too, legible without colour, and fit to print."""

from __future__ import annotations

from typing import Iterable, List, NamedTuple
from xml.sax.saxutils import escape, quoteattr

# colours of Okabe and Ito, which most people tell apart, each with a mark of its own
BLUE, YELLOW, RED, PURPLE, GREY = "#0072b2", "#f0e442", "#d55e00", "#cc79a7", "#6b6b6b"


class Mark(NamedTuple):
    """A colour and, for those who do not see it, a shape that stands on it: lines of a path in a square of 16."""

    name: str
    colour: str
    ink: str
    path: str


MARKS = {
    "shown": Mark("shown", BLUE, "#ffffff", "M4 8.5 L7 11.5 L12 4.5"),
    "tied": Mark("tied", YELLOW, "#000000", "M4 6 H12 M4 10 H12"),
    "not shown": Mark("not-shown", RED, "#ffffff", "M4.5 4.5 L11.5 11.5 M11.5 4.5 L4.5 11.5"),
}

STYLE = """
body { font: 15px/1.45 system-ui, sans-serif; color: #1a1a1a; background: #fff; max-width: 76em; margin: 1.5em auto; padding: 0 1em }
h1 { font-size: 1.35em; margin: 0 0 .2em } h2 { font-size: 1.1em; margin: 1.6em 0 .3em } p { margin: .35em 0 }
code, .words { font: 13px/1.5 ui-monospace, monospace; overflow-wrap: anywhere }
svg text { font: 12px ui-monospace, monospace; fill: #1a1a1a } svg { max-width: 100%; height: auto }
.mark { width: 16px; height: 16px; vertical-align: -3px; flex: none }
.legend label { display: block }
a.cell { outline: none } a.cell:focus rect, a.cell:hover rect { stroke: #000; stroke-width: 2 }
ol.rules { list-style: none; padding: 0; border-top: 1px solid #ccc }
ol.rules > li { border-bottom: 1px solid #ddd; padding: .1em 0 } li:target { background: #eef5fb }
summary { cursor: pointer; display: flex; gap: .6em; align-items: center } .number { color: #555; min-width: 3em; text-align: right }
details > p { margin-left: 5em } .note { color: #444; font-size: .93em }
body.no-shown li.shown, body.no-tied li.tied, body.no-not-shown li.not-shown { display: none }
@media print { body { margin: 0; max-width: none; font-size: 10px } code, .words { font-size: 8.5px } input { display: none }
  * { -webkit-print-color-adjust: exact; print-color-adjust: exact } li, svg { break-inside: avoid } section { break-before: auto } }
"""


def attribute(text: str) -> str:
    return quoteattr(text)


def symbols() -> str:
    """Definitions of the marks, for `<use>`."""
    drawn = [
        f'<symbol id="{mark.name}" viewBox="0 0 16 16"><rect x=".5" y=".5" width="15" height="15" rx="2" fill="{mark.colour}"/>'
        f'<path d="{mark.path}" fill="none" stroke="{mark.ink}" stroke-width="2" stroke-linecap="round"/></symbol>'
        for mark in MARKS.values()
    ]
    return "<defs>" + "".join(drawn) + "</defs>"


def mark(state: str) -> str:
    """A mark as a small drawing in a line of text."""
    return f'<svg class="mark" role="img" aria-label={attribute(state)}><use href="#{MARKS[state].name}"/></svg>'


def page(title: str, body: Iterable[str], script: str = "") -> str:
    """A whole page."""
    parts: List[str] = [
        '<!DOCTYPE html>\n<html xmlns="http://www.w3.org/1999/xhtml" lang="en">\n<head>\n<meta charset="utf-8"/>',
        '<meta name="viewport" content="width=device-width, initial-scale=1"/>',
        f"<title>{escape(title)}</title>\n<style>{STYLE}</style>\n</head>\n<body>",
        *body,
    ]
    if script:
        parts.append(f"<script>{script}</script>")
    return "\n".join(parts) + "\n</body>\n</html>\n"
