"""The HTML page of a timeline: static, with inline SVG and without a script."""

from __future__ import annotations

from dataclasses import dataclass
from html import escape
from pathlib import Path
from typing import Callable

from rte_tools import svg
from rte_tools.chart import Chart, columns
from rte_tools.description import Description
from rte_tools.lanes import lanes_of, names_picture
from rte_tools.marks import in_order, sign_of
from rte_tools.overview import Overview
from rte_tools.replay import Replay, RunLine

STYLE = Path(__file__).with_name("style.css")
LEAST_OVERVIEW = 300  # columns from which there is an overview
MOST_COLUMNS = 1500  # of a chart in detail
BEGINNING = 300  # lines of a long trace that are shown in detail, at its beginning
ENDING = 100  # and at its end
LEAD = 20  # pixels before a run line to which a link leads
OPEN_RUNS = 100  # run lines whose links are shown at once

STIMULI = (
    "Above are the lanes of the feeds. The cores run while their wishes come, up to the word stopped; one run line follows. Between a feed "
    "and another there is no order."
)
ORDER = (
    "From left to right is the order of the lines in the trace, not time: a column is one line, and ticks that follow "
    "one another share a column. Point at anything to see its line."
)


def page(name: str, version: str, description: Description, replay: Replay) -> str:
    """The whole page."""
    body = [f"<h1>{escape(name)}</h1>", *introduction(version, description, replay)]
    body.append(svg.picture(0, 0, [svg.hatching()], "").replace("<svg ", '<svg class="patterns" '))
    width = columns(replay)[replay.last] + 1
    if width < LEAST_OVERVIEW:
        body += [legend(replay), detail(description, replay)]
    elif width <= MOST_COLUMNS:
        body += with_overview(description, replay, [("In detail", replay)])
    else:
        beginning = replay.window(replay.first, replay.first + BEGINNING - 1)
        ending = replay.window(replay.last - ENDING + 1, replay.last)
        parts = [("The beginning", beginning), ("The end", ending)]
        body += with_overview(description, replay, parts)
    return whole_page(name, body)


def whole_page(name: str, body: list[str]) -> str:
    head = [
        '<meta charset="utf-8"/>',
        '<meta name="viewport" content="width=device-width, initial-scale=1"/>',
        f"<title>Timeline of {escape(name)}</title>",
        f"<style>\n{STYLE.read_text(encoding='utf-8')}</style>",
    ]
    parts = ["<!DOCTYPE html>", '<html lang="en">', "<head>", *head, "</head>", "<body>", *body, "</body>", "</html>"]
    return "\n".join(parts) + "\n"


def introduction(version: str, description: Description, replay: Replay) -> list[str]:
    cores = counted(description.cores, "core")
    what = "the text of a live node" if replay.served or replay.feeds else f"a trace of version {escape(version)}"
    shown = [
        f"Lines {replay.first:,} to {replay.last:,} of {what}",
        f"the composition {escape(description.root)} on {cores}",
        counted(len(replay.ticks), "tick"),
        counted(len(replay.runs), "run line"),
        counted(len(replay.bars), "activation"),
    ]
    said = f"{ORDER} {STIMULI}" if replay.feeds else ORDER
    return [f'<p class="about">{" · ".join(shown)}</p>', f'<p class="about">{said}</p>']


def counted(number: int, name: str) -> str:
    return f"{number:,} {name}" + ("" if number == 1 else "s")


def legend(*replays: Replay) -> str:
    items = [
        f"<li>{svg.picture(width, 19, [picture], said)}{escape(said)}</li>"
        for picture, width, said in legend_items(*replays)
    ]
    return f'<ul class="legend">{"".join(items)}</ul>'


def legend_items(*replays: Replay) -> list[tuple[str, int, str]]:
    """What the letters, colours and arrows mean, for those that are shown: a picture, its width, and words."""
    verbs = {mark.verb for replay in replays for mark in replay.marks}
    signs = [(sign_of(verb), verb) for verb in in_order(verbs)]
    items = [(sample(sign.letter, sign.kind), 19, sign.said or verb) for sign, verb in signs]
    if any(mark.code not in ("", "0") for replay in replays for mark in replay.marks):
        items.append((sample("", "plain bad"), 19, "with a code that is not 0, or not admitted"))
    shapes = [shape for shape in SHAPES if any(shape.is_in(replay) for replay in replays)]
    return items + [(drawn(shape), 28, shape.said) for shape in shapes]


@dataclass(frozen=True)
class Shape:
    """What the legend shows beside the letters."""

    kind: str  # the class
    shown: str
    said: str
    is_in: Callable[[Replay], bool]


def changes_in(replay: Replay, state: str) -> bool:
    return any(change.state == state for held in (replay.values, replay.modes) for c in held.values() for change in c)


def arrows_in(kind: str) -> Callable[[Replay], bool]:
    return lambda replay: any(arrow.kind == kind for arrow in replay.arrows)


SHAPES = (
    Shape("ticks", "+10", "ten ticks, of a millisecond each", lambda replay: bool(replay.ticks)),
    Shape("arrow call", "", "a call starts its server", arrows_in("call")),
    Shape("arrow answer", "", "a return is taken", arrows_in("answer")),
    Shape("arrow data", "", "a write or send starts by data", arrows_in("data")),
    Shape("arrow mode", "", "a switch or phase and what follows", arrows_in("mode")),
    Shape("arrow link", "", "a value goes over the link", arrows_in("link")),
    Shape("wait", "", "a caller waits for the answer", lambda replay: bool(replay.waits)),
    Shape("fill", "", "what waits in a queue", lambda replay: bool(replay.queues)),
    Shape(
        "lost",
        "",
        "lost at a full queue",
        lambda replay: any(fill.has_lost for queue in replay.queues.values() for fill in queue.fills),
    ),
    Shape("invalid", "", "an invalid value", lambda replay: changes_in(replay, "invalid")),
    Shape("moving", "", "a mode while it is entered", lambda replay: changes_in(replay, "moving")),
    Shape("bar c7 dropped", "", "not admitted", lambda replay: not all(bar.is_admitted for bar in replay.bars)),
    Shape("bar c7 open", "", "does not end", lambda replay: any(bar.last is None for bar in replay.bars)),
)


def drawn(shape: Shape) -> str:
    if shape.kind.startswith("arrow"):
        way = '<path class="way" d="M1 9H21"/><path class="head" d="M27 9l-7 -3.5v7z"/>'
        return f'<g class="{shape.kind}">{way}</g>'
    is_wait, width = shape.kind == "wait", 7 if shape.kind == "lost" else 26
    under = svg.rect(1, 1, 26, 16, "bar c0", "", 4) if is_wait else ""
    over = svg.rect(14 - width / 2, 1, width, 16, shape.kind, "", 0 if is_wait else 3)
    return under + over + svg.text(14, 13, shape.shown, "small middle")


def sample(letter: str, kind: str) -> str:
    return svg.rect(1.5, 1.5, 16, 16, f"mark {kind}", "", 4) + svg.text(9.5, 13.5, letter, "letter middle")


def detail(description: Description, replay: Replay) -> str:
    lanes = lanes_of(description, replay)
    chart = Chart(replay, lanes, colours_of(replay))
    anchors = [anchor(run, chart.left(run.first) - LEAD, chart.width) for run in begun_in(replay)]
    return framed(names_picture(lanes), "".join(anchors) + chart.picture())


def anchor(run: RunLine, x: float, width: float) -> str:
    """Where a link to a run line leads. It is nearly as wide as what is seen, so the run line begins at the left."""
    place = f"left:{svg.number(x)}px;width:min(100% - 1px, {svg.number(width - x)}px)"
    return f'<a class="run-line" id="run-{run.number}" style="{place}"></a>'


def colours_of(replay: Replay) -> dict[str, int]:
    return {key: number for number, key in enumerate(dict.fromkeys(bar.key for bar in replay.bars))}


def begun_in(replay: Replay) -> list[RunLine]:
    return [run for run in replay.runs if run.first >= replay.first]


def framed(names: str, chart: str) -> str:
    return f'<div class="chart"><div class="names">{names}</div><div class="scroll">{chart}</div></div>'


def with_overview(description: Description, replay: Replay, parts: list[tuple[str, Replay]]) -> list[str]:
    """An overview, links to the run lines, and the parts in detail."""
    lanes = lanes_of(description, replay, is_low=True)
    linked = {run.number: f"#run-{run.number}" for _, part in parts for run in begun_in(part)}
    about = (
        "A task is as high as the share of lines in which it runs something. A value is drawn between its least and "
        "its greatest number, a queue between none and all of its places."
    )
    if len(parts) > 1:
        about += " With <code>--lines A-B</code> or <code>--runs A-B</code> the page shows any other part in detail."
    found = [
        "<h2>The whole</h2>",
        f'<p class="about">{about}</p>',
        framed(names_picture(lanes), Overview(replay, lanes, linked).picture()),
        links(replay, linked),
        legend(*(part for _, part in parts)),
    ]
    for heading, part in parts:
        found += [f"<h2>{heading}: lines {part.first:,} to {part.last:,}</h2>", detail(description, part)]
    return found


def links(replay: Replay, linked: dict[int, str]) -> str:
    """All run lines by their numbers; those that are shown in detail are links to there."""
    shown = []
    for run in replay.runs:
        title = f"at {run.milliseconds} ms, lines {run.first} to {run.last or '?'}, {run.closing or 'not closed'}"
        kind = "" if run.closing == "idle" else ' class="endless"'
        address = linked.get(run.number)
        word = f'a href="{address}"' if address else "span"
        shown.append(f'<{word}{kind} title="{title}">{run.number}</{word.split(" ")[0]}>')
    numbers = "\n".join(shown)
    if len(replay.runs) > OPEN_RUNS:
        return f"<details class=\"runs\"><summary>The {len(replay.runs):,} run lines</summary>{numbers}</details>"
    return f'<nav class="runs">To run line {numbers}</nav>' if replay.runs else ""
