"""A replay in the JSON trace format that Perfetto reads: cores are processes, tasks are threads, values are counters.

The environment is a process of its own, with a thread for run lines and what the script does, and one for each mode
machine. A call is a slice within its activation, named by what it does; its value and code are arguments, so that calls
group. Flows lead from a request to the server, from a return to the answer, and from a write to what it starts.
"""

from __future__ import annotations

import json

from rte_tools.causes import Arrow
from rte_tools.description import Description
from rte_tools.exports import NOTE, task_name
from rte_tools.replay import Bar, Change, Mark, Replay
from rte_tools.trace import PARTS, read_line
from rte_tools.wiring import ENVIRONMENT

Place = tuple[int, int]  # a process and a thread
MACHINES = 1000  # where the numbers of the threads of mode machines begin
ELSEWHERE_THREAD = 999
ENCODED = json.JSONEncoder(separators=(",", ":")).encode
IN_THE_NAME = ("target", "list", "step")  # the parts of a line that are in the name of a call


def perfetto(description: Description, replay: Replay) -> str:
    places = places_of(description, replay)
    events = names_of(description, places)
    world = (description.cores + 1, 0)
    for run in replay.runs:
        given = {"ms": run.milliseconds, "closing": run.closing}
        events.append(slice_named(f"run {run.number}", run.first, run.last or replay.last, world, given))
    for bar in replay.bars:
        events += activation(bar, places.get(task_name(bar.lane), world))
    for name, changes in replay.modes.items():
        events += held_modes(changes, replay.last, places[f"mode {name}"])
    ends = {bar.last for bar in replay.bars}
    events += [call(mark, place_of(mark.lane, places, world), mark.moment in ends) for mark in replay.marks]
    for number, arrow in enumerate(replay.arrows):
        events += flow(number, arrow, places, world)
    for name, changes in replay.values.items():
        events += [counter(name, change, world[0]) for change in changes]
    for name, queue in replay.queues.items():
        waiting = [(fill.moment, {"waiting": fill.count}) for fill in queue.fills]
        events += [counted(f"{name} waiting", moment, numbers, world[0]) for moment, numbers in waiting]
    events.sort(key=lambda event: event.get("ts", -1))
    lines = ",\n".join(map(ENCODED, events))
    return f'{{"traceEvents":[\n{lines}\n],"otherData":{json.dumps({"note": NOTE})}}}\n'


def places_of(description: Description, replay: Replay) -> dict[str, Place]:
    """Where tasks stand, by their names, and mode machines, as `mode NAME`."""
    found = {task.name: (task.of, number) for number, task in enumerate(description.tasks.values(), 1)}
    found[task_name("")] = (description.cores + 1, ELSEWHERE_THREAD)
    for number, machine in enumerate(replay.modes):
        found[f"mode {machine}"] = (description.cores + 1, MACHINES + number)
    return found


def place_of(lane: str, places: dict[str, Place], world: Place) -> Place:
    """Where a lane of marks stands. The phases of a machine stand beside what the environment does."""
    return world if lane == ENVIRONMENT else places.get(task_name(lane), places.get(f"mode {lane}", world))


def names_of(description: Description, places: dict[str, Place]) -> list[dict]:
    world = description.cores + 1
    processes = [(core, f"core {core}") for core in range(description.cores)] + [(world, ENVIRONMENT)]
    found = [{"ph": "M", "name": "process_name", "pid": pid, "args": {"name": name}} for pid, name in processes]
    threads = {"run lines and the script": (world, 0), **places}
    for name, (process, thread) in threads.items():
        found.append({"ph": "M", "name": "thread_name", "pid": process, "tid": thread, "args": {"name": name}})
    return found


def slice_named(name: str, first: int, last: int, place: Place, given: dict) -> dict:
    held = {"ph": "X", "name": name, "ts": first, "dur": last - first}
    return {**held, "pid": place[0], "tid": place[1], "args": given}


def activation(bar: Bar, place: Place) -> list[dict]:
    held = {"name": bar.key, "pid": place[0], "tid": place[1]}
    given = {"event": bar.event} | ({} if bar.due is None else {"pending since line": bar.due})
    found = [{"ph": "B", "ts": bar.first, **held, "args": given}]
    return found + ([{"ph": "E", "ts": bar.last, **held}] if bar.last is not None else [])


def held_modes(changes: list[Change], last: int, place: Place) -> list[dict]:
    """A slice for each mode, and one for the way to it."""
    found = []
    for number, change in enumerate(changes):
        end = changes[number + 1].moment if number + 1 < len(changes) else last
        name = change.text if change.state == "set" else f"to {change.text}"
        found.append(slice_named(name, change.moment, end, place, {}))
    return found


def call(mark: Mark, place: Place, is_end: bool) -> dict:
    """A call lasts as long as its line, but for an admission that ends the activation."""
    line = read_line(mark.moment, mark.text)
    named = [line.part(name) for name in IN_THE_NAME if line.part(name)]
    given = {name: line.part(name) for name in PARTS.get(mark.verb, ()) if name not in IN_THE_NAME and line.part(name)}
    end = mark.moment + (0 if is_end else 1)
    return slice_named(" ".join([mark.verb, *named]), mark.moment, end, place, {"line": mark.moment, **given})


def flow(number: int, arrow: Arrow, places: dict[str, Place], world: Place) -> list[dict]:
    """From the slice that holds the beginning to the one that holds the end."""
    held = {"cat": arrow.kind, "name": arrow.kind, "id": number}
    source, target = place_of(arrow.source, places, world), place_of(arrow.target, places, world)
    return [
        {"ph": "s", "ts": arrow.first, "pid": source[0], "tid": source[1], **held},
        {"ph": "f", "bp": "e", "ts": arrow.last, "pid": target[0], "tid": target[1], **held},
    ]


def counter(name: str, change: Change, world: int) -> dict:
    words = change.text.split(",")
    numbers = {f"word {at}": int(word) for at, word in enumerate(words) if word.lstrip("-").isdigit()}
    return counted(name, change.moment, numbers, world)


def counted(name: str, moment: int, numbers: dict[str, int], world: int) -> dict:
    return {"ph": "C", "name": name, "ts": moment, "pid": world, "args": numbers}
