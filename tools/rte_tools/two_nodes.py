"""The traces of two nodes that a link joins, as `pair` prints them, and their page: both on one axis, with what crosses."""

from __future__ import annotations

from dataclasses import dataclass, replace
from html import escape
from typing import Iterable, Iterator

from rte_tools import svg
from rte_tools.causes import Arrow
from rte_tools.chart import COLUMN, Chart, columns
from rte_tools.description import Description
from rte_tools.files import Unfit, read_file
from rte_tools.lanes import HEADING, LINES, RUNS, Lane, lanes_of, names_picture
from rte_tools.page import BEGINNING, ENDING, MOST_COLUMNS, colours_of, counted, framed, legend, whole_page
from rte_tools.replay import Replay, replay
from rte_tools.trace import HEADER, Line, Trace, read_line
from rte_tools.wiring import ENVIRONMENT

NODES = ("1 ", "2 ")
TAKEN = ("0", "64")  # codes of a Receive that took a value
ORDER = (
    "From left to right is the order of the lines, not time: a column is one line, and ticks of a node that follow one another share a "
    "column. Above are the lanes of node 1, below those of node 2. Point at anything to see its line."
)


@dataclass(frozen=True)
class Side:
    """One of the two nodes: its description and its trace, whose lines have their numbers in the whole text."""

    node: str
    description: Description
    trace: Trace
    replay: Replay

    def window(self, first: int, last: int) -> Side:
        return replace(self, replay=self.replay.window(first, last))


def read_traces(path: str, text: str) -> tuple[Trace, Trace]:
    """The two traces of a text. Raises Unfit where a line is of neither node, or a header is not there."""
    held: dict[str, list[Line]] = {node: [] for node in NODES}
    versions: dict[str, str] = {}
    for number, line in enumerate(text.split("\n"), 1):
        if not line:
            continue
        node, rest = line[:2], line[2:]
        if node not in held:
            raise Unfit(f"{path} is not the text of two nodes: line {number} begins with neither `1 ` nor `2 `")
        if node in versions:
            held[node].append(read_line(number, rest))
        elif rest.startswith(HEADER):
            versions[node] = rest[len(HEADER) :]
        else:
            raise Unfit(f"{path} is not the text of two nodes: line {number} is before the header of its node")
    if len(versions) < len(NODES):
        raise Unfit(f"{path} is not the text of two nodes: it has not both headers")
    one, two = (Trace(versions[node], held[node]) for node in NODES)
    return one, two


def read_sides(path: str, one: Description, two: Description) -> tuple[Side, Side]:
    """Both nodes. Raises Unfit as `read_traces` does."""
    first, second = read_traces(path, read_file(path))
    return Side(NODES[0], one, first, replay(one, first)), Side(NODES[1], two, second, replay(two, second))


def crossings(one: Trace, two: Trace) -> Iterator[Arrow]:
    """From each Receive of node one that took a value to the Send right behind it."""
    sent = {line.number: line for line in two.lines if line.actor == ENVIRONMENT and line.verb == "send"}
    for line in one.lines:
        other = sent.get(line.number + 1)
        if other and line.actor == ENVIRONMENT and line.verb == "receive" and line.part("code") in TAKEN:
            lanes = (NODES[0] + ENVIRONMENT, NODES[1] + ENVIRONMENT)
            said = f"{line.part('target')} {line.part('value')} goes over the link, answered {other.part('code')}"
            yield Arrow("link", line.number, other.number, *lanes, None, said)


def both(one: Side, two: Side) -> Replay:
    """What both nodes do, in lanes whose names begin with their numbers."""
    parts = [named(side) for side in (one, two)]
    made = Replay(min(part.first for part in parts), max(part.last for part in parts))
    for part in parts:
        made.bars += part.bars
        made.marks += part.marks
        made.ticks += part.ticks
        made.runs += part.runs
        made.values |= part.values
        made.modes |= part.modes
        made.queues |= part.queues
        made.arrows += part.arrows
        made.waits += part.waits
        made.queued |= part.queued
    made.ticks.sort()
    made.runs.sort(key=lambda run: run.first)
    made.arrows += crossings(one.trace, two.trace)
    return made


def named(side: Side) -> Replay:
    """The replay of a side with the number of its node before each name."""
    held, node = side.replay, side.node
    return Replay(
        held.first,
        held.last,
        [replace(bar, lane=node + bar.lane, key=node + bar.key) for bar in held.bars],
        [replace(mark, lane=node + mark.lane) for mark in held.marks],
        list(held.ticks),
        {},
        None,
        [replace(run, node=node) for run in held.runs],
        {node + name: changes for name, changes in held.values.items()},
        {node + name: changes for name, changes in held.modes.items()},
        {node + name: queue for name, queue in held.queues.items()},
        [replace(arrow, source=node + arrow.source, target=node + arrow.target) for arrow in held.arrows],
        [replace(wait, lane=node + wait.lane) for wait in held.waits],
        {node + name for name in held.queued},
    )


def lanes_of_both(one: Side, two: Side) -> list[Lane]:
    """The lanes of both, one node below the other; the lines and run lines have their lanes at the top alone."""
    found: list[Lane] = []
    for side in (one, two):
        for lane in lanes_of(side.description, side.replay):
            if lane.kind in (LINES, RUNS):
                if side is two:
                    continue
                name = lane.name
            else:
                name = f"node {side.node}· {lane.name}" if lane.kind == HEADING else side.node + lane.name
            y = found[-1].y + found[-1].height if found else 0
            found.append(replace(lane, name=name, y=y))
    return found


class PairChart(Chart):
    """Draws what both nodes did."""

    def __init__(self, whole: Replay, sides: tuple[Side, Side]):
        super().__init__(whole, lanes_of_both(*sides), colours_of(whole))
        self.sides = {side.node + ENVIRONMENT: side.replay for side in sides}
        self.column_of = columns(whole, *self.sides.values())
        self.width = (self.column_of[whole.last] + 1) * COLUMN

    def ticks_of(self, lane: Lane) -> list[int]:
        return self.sides[lane.name].ticks


def detail(one: Side, two: Side, whole: Replay) -> str:
    chart = PairChart(whole, (one, two))
    return framed(names_picture(chart.lanes), chart.picture())


def pair_page(name: str, one: Side, two: Side, lines: tuple[int, int] | None = None) -> str:
    """The whole page, or these lines of it. Of long traces it shows the beginning and the end."""
    whole = both(one, two)
    if lines:
        whole = whole.window(*lines)
        one, two = one.window(whole.first, whole.last), two.window(whole.first, whole.last)
    body = [f"<h1>{escape(name)}</h1>", *introduction(one, two, whole)]
    body.append(svg.picture(0, 0, [svg.hatching()], "").replace("<svg ", '<svg class="patterns" '))
    body.append(legend(whole))
    for heading, first, last in parts_of(whole):
        part = whole.window(first, last)
        body += [f"<h2>{heading}: lines {part.first:,} to {part.last:,}</h2>"] if heading else []
        body.append(detail(one.window(first, last), two.window(first, last), part))
    return whole_page(name, body)


def parts_of(whole: Replay) -> Iterable[tuple[str, int, int]]:
    if columns(whole)[whole.last] < MOST_COLUMNS:
        return [("", whole.first, whole.last)]
    return [
        ("The beginning", whole.first, whole.first + BEGINNING - 1),
        ("The end", whole.last - ENDING + 1, whole.last),
    ]


def introduction(one: Side, two: Side, whole: Replay) -> list[str]:
    shown = [f"Lines {whole.first:,} to {whole.last:,} of the traces of two nodes"]
    for side in (one, two):
        cores = counted(side.description.cores, "core")
        shown.append(f"node {side.node.strip()}: the composition {escape(side.description.root)} on {cores}")
    crossed = sum(arrow.kind == "link" for arrow in whole.arrows)
    shown += [counted(len(whole.bars), "activation"), f"{counted(crossed, 'value')} over the link"]
    return [f'<p class="about">{" · ".join(shown)}</p>', f'<p class="about">{ORDER}</p>']
