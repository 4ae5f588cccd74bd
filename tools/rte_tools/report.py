"""A timeline as one picture that stands alone: SVG for a report, in rows that are as wide as a page.

It has colours of its own, no variables of CSS and no script, so that programs that only draw SVG show it.
"""

from __future__ import annotations

import re
from bisect import bisect_left
from dataclasses import dataclass
from math import ceil
from pathlib import Path

from rte_tools import svg
from rte_tools.chart import COLUMN, Chart, columns
from rte_tools.description import Description
from rte_tools.lanes import Lane, height_of, lanes_of, names_parts, names_width
from rte_tools.overview import Overview
from rte_tools.page import LEAST_OVERVIEW, colours_of, counted, legend_items
from rte_tools.replay import Replay

STYLE = Path(__file__).with_name("style.css")
PAGE = 1150  # pixels that a row is wide
OVER = 0.2  # of a row that may stand in the others, so that the last one is not nearly empty
GAP, MARGIN = 22, 16  # pixels
LETTER = 7.0  # the width of a letter of the legend, in pixels
VARIABLE = re.compile(r"--([\w-]+): ([^;]+);")
RULE = re.compile(r"^([^{}@]+) \{ ([^{}]*) \}$", re.MULTILINE)
OF_THE_PAGE = re.compile(
    r"^(body|h1|h2|p|a|svg|svg\.patterns)$|^\.(about|legend|chart|runs|names|scroll|run-line)\b|:(hover|target|focus)"
)
EXTRA = """.paper { fill: var(--paper); }
text.title { font: 700 15px sans-serif; }
text.said { font: 12px sans-serif; fill: var(--soft); }"""


@dataclass(frozen=True)
class Row:
    parts: list[str]
    width: float
    height: float


def style() -> str:
    """The light colours and the classes of the page, those that a picture needs, with each variable put in."""
    sheet = STYLE.read_text(encoding="utf-8")
    colours = dict(VARIABLE.findall(sheet[: sheet.index("}")]))
    plain = re.sub(r"@media.*?\n\}\n", "", sheet, flags=re.DOTALL)
    rules = [f"{name} {{ {held} }}" for name, held in RULE.findall(plain) if not OF_THE_PAGE.search(name)]
    return re.sub(r"var\(--([\w-]+)\)", lambda found: colours[found[1]], "\n".join([*rules, EXTRA]))


def report(name: str, version: str, description: Description, replay: Replay) -> str:
    """The whole picture: in detail row by row, or at a glance if it has many columns."""
    width = columns(replay)[replay.last] + 1
    rows = overview_rows(description, replay) if width >= LEAST_OVERVIEW else detail_rows(description, replay)
    said = [
        f"Lines {replay.first:,} to {replay.last:,} of a trace of version {version}",
        f"{description.root} on {counted(description.cores, 'core')}",
        "from left to right the order of the lines, not time",
    ]
    whole = max(row.width for row in rows) + 2 * MARGIN
    parts = [svg.text(MARGIN, 26, Path(name).name, "title"), svg.text(MARGIN, 46, " · ".join(said), "said")]
    y = 46.0
    if width < LEAST_OVERVIEW:
        drawn, y = legend(replay, whole, y + 12)
        parts += drawn
    for row in rows:
        parts.append(svg.picture(row.width, row.height, row.parts, "", f'x="{MARGIN}" y="{svg.number(y + GAP)}"'))
        y += GAP + row.height
    return standing_alone(whole, y + MARGIN, parts, f"timeline of {name}")


def standing_alone(width: float, height: float, parts: list[str], name: str) -> str:
    paper = svg.rect(0, 0, width, height, "paper")
    held = svg.picture(width, height, [f"<style>\n{style()}\n</style>", svg.hatching(), paper, *parts], name)
    named = held.replace("<svg ", f'<svg xmlns="{svg.NAMESPACE}" ', 1)
    return f'<?xml version="1.0" encoding="UTF-8"?>\n{named}\n'


def legend(replay: Replay, whole: float, y: float) -> tuple[list[str], float]:
    """The legend in lines, and where it ends."""
    parts, x = [], float(MARGIN)
    for picture, width, said in legend_items(replay):
        needed = width + 8 + len(said) * LETTER + 16
        if x + needed > whole and x > MARGIN:
            x, y = float(MARGIN), y + 22
        parts.append(svg.picture(width, 19, [picture], "", f'x="{svg.number(x)}" y="{svg.number(y)}"'))
        parts.append(svg.text(x + width + 6, y + 13, said, "said"))
        x += needed
    return parts, y + 19


def framed(lanes: list[Lane], left: float, chart: list[str], width: float) -> Row:
    """The names at the left and what is drawn beside them."""
    height = height_of(lanes)
    beside = svg.picture(width, height, chart, "", f'x="{svg.number(left)}" y="0"')
    rules = [svg.line(left, 0, left, height, "rule"), svg.line(0, height - 0.5, left + width, height - 0.5, "rule")]
    return Row([*names_parts(lanes, left), beside, *rules], left + width, height)


def detail_rows(description: Description, replay: Replay) -> list[Row]:
    """Rows of equally many columns, one below the other, each with the lanes in which something is."""
    moments, held = zip(*columns(replay).items())
    count, left = held[-1] + 1, names_width(lanes_of(description, replay))
    each = ceil(count / max(1, ceil(count * COLUMN / (PAGE - left) - OVER)))
    windows = []
    for begin in range(0, count, each):
        first, behind = bisect_left(held, begin), bisect_left(held, begin + each)
        windows.append(replay.window(moments[first], moments[behind - 1]))
    lanes = [lanes_of(description, part, is_sparse=True) for part in windows]
    left, colours = max(map(names_width, lanes)), colours_of(replay)
    charts = [Chart(part, held, colours) for part, held in zip(windows, lanes)]
    return [framed(held, left, chart.draw(), chart.width) for held, chart in zip(lanes, charts)]


def overview_rows(description: Description, replay: Replay) -> list[Row]:
    lanes = lanes_of(description, replay, is_low=True)
    overview = Overview(replay, lanes)
    return [framed(lanes, names_width(lanes), overview.draw(), overview.width)]
