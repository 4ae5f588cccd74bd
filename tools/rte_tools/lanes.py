"""The lanes of a timeline: their order, names and heights, and the column at the left that names them."""

from __future__ import annotations

from collections import defaultdict
from dataclasses import dataclass
from typing import Iterable, TypeVar

from rte_tools import svg
from rte_tools.causes import Queue
from rte_tools.description import Description
from rte_tools.replay import ELSEWHERE, Change, Replay
from rte_tools.wiring import ENVIRONMENT

LINES, RUNS, EVENTS, HEADING, TASK = "lines", "runs", "events", "heading", "task"
MODE, QUEUE, VALUE = "mode", "queue", "value"
HEIGHTS = {LINES: 22, RUNS: 24, EVENTS: 26, HEADING: 24, TASK: 44, MODE: 46, QUEUE: 32, VALUE: 26}
LOW = {LINES: 22, RUNS: 24, EVENTS: 22, HEADING: 20, TASK: 26, MODE: 26, QUEUE: 26, VALUE: 24}  # in an overview
NESTED = 24  # what a direct server adds to the height of its task
SHOWN = 34  # characters of a name
NOTHING = "–"  # what a value holds that is not set yet
Held = TypeVar("Held")


@dataclass(frozen=True)
class Lane:
    kind: str
    name: str
    y: int
    height: int
    note: str = ""  # at the right of the name: the last value


def by_lane(held: Iterable[Held]) -> dict[str, list[Held]]:
    """Bars, marks or waits by the names of their lanes."""
    found: dict[str, list[Held]] = defaultdict(list)
    for item in held:
        found[item.lane].append(item)
    return found


def lanes_of(description: Description, replay: Replay, is_low: bool = False, is_sparse: bool = False) -> list[Lane]:
    """All lanes from the top to the bottom. In an overview they are low; sparse ones are those that are not empty."""
    found: list[Lane] = []
    bars, marks = by_lane(replay.bars), by_lane(replay.marks)

    def add(kind: str, name: str, extra: int = 0, note: str = "") -> None:
        y = found[-1].y + found[-1].height if found else 0
        found.append(Lane(kind, name, y, LOW[kind] if is_low else HEIGHTS[kind] + extra, note))

    def add_tasks(heading: str, names: list[str]) -> None:
        shown = [name for name in names if not is_sparse or name in bars or name in marks]
        if shown or not is_sparse:
            add(HEADING, heading)
        for name in shown:
            add(TASK, name, NESTED * max((bar.depth for bar in bars.get(name, ())), default=0))

    add(LINES, "line of the trace")
    add(RUNS, "run lines")
    for name in replay.feeds or (ENVIRONMENT,):
        add(EVENTS, name)
    for core in range(description.cores):
        add_tasks(f"core {core}", [task.name for task in description.tasks.values() if task.of == core])
    if ELSEWHERE in bars or ELSEWHERE in marks:
        add_tasks("in no task", [ELSEWHERE])
    for kind, heading, notes in held_by(replay):
        shown = {name: note for name, note in notes.items() if not is_sparse or note != NOTHING}
        if shown:
            add(HEADING, heading)
        for name, note in shown.items():
            add(kind, name, note=note)
    return found


def held_by(replay: Replay) -> list[tuple[str, str, dict[str, str]]]:
    """Modes, queues and values by their names, each with what it holds last. What is queued stands in its queues."""
    values = {name: last_of(changes) for name, changes in replay.values.items() if name not in replay.queued}
    return [
        (MODE, "modes", {name: last_of(changes) for name, changes in replay.modes.items()}),
        (QUEUE, "queues", {name: last_fill(queue) for name, queue in replay.queues.items()}),
        (VALUE, "values", values),
    ]


def last_of(changes: list[Change]) -> str:
    if not changes:
        return NOTHING
    return "invalid" if changes[-1].state == "invalid" else changes[-1].text


def last_fill(queue: Queue) -> str:
    return f"{queue.fills[-1].count if queue.fills else 0} of {queue.length}"


def height_of(lanes: list[Lane]) -> int:
    return lanes[-1].y + lanes[-1].height


def names_width(lanes: list[Lane]) -> float:
    names = max(len(shortened(lane.name)) for lane in lanes)
    notes = max(len(shortened(lane.note)[:12]) for lane in lanes)
    return (names + notes + 3) * svg.CHARACTER + 20


def names_parts(lanes: list[Lane], width: float) -> list[str]:
    """The column at the left."""
    parts = []
    for lane in lanes:
        middle = lane.y + min(lane.height / 2 + 4, 18 if lane.kind in (TASK, MODE) else lane.height)
        kind = "heading" if lane.kind == HEADING else "name" if lane.kind in (LINES, RUNS) else "label"
        indent = 8 if lane.kind in (HEADING, LINES, RUNS, EVENTS) else 18
        parts.append(svg.text(indent, middle, shortened(lane.name), kind, lane.name))
        if lane.note:
            note = lane.note if len(lane.note) <= 12 else lane.note[:11] + "…"
            parts.append(svg.text(width - 8 - len(note) * svg.CHARACTER, middle, note, "name", lane.note))
        parts.append(svg.line(0, lane.y, width, lane.y, "rule"))
    return parts


def names_picture(lanes: list[Lane]) -> str:
    width = names_width(lanes)
    return svg.picture(width, height_of(lanes), names_parts(lanes, width), "names of the lanes")


def shortened(name: str) -> str:
    """A name, cut at its beginning where it is long."""
    return name if len(name) <= SHOWN else "…" + name[1 - SHOWN :]
