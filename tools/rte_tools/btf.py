"""A replay as BTF 2.2: tasks, runnables within them, and values as signals.

An activation that its task begins is a job of the task: it is activated when its event became due, and waits while a
`call` waits for a server in another task.
"""

from __future__ import annotations

from bisect import bisect_right

from rte_tools.causes import Wait
from rte_tools.description import Description
from rte_tools.exports import NOTE, core_of, task_name
from rte_tools.replay import Bar, Replay
from rte_tools.wiring import ENVIRONMENT

Event = tuple[int, str]  # a moment and a line


def btf(description: Description, replay: Replay) -> str:
    head = ["#version 2.2.0", "#creator tools/timeline.py", "#timeScale ns", f"# {NOTE}"]
    jobs = jobs_of(replay)
    events = signals(replay, jobs)
    for number, bar in enumerate(replay.bars):
        events += started(description, bar, number, jobs[number])
        events += ended(description, bar, number, jobs[number])
    bars = starts(replay)
    for wait in replay.waits:
        number = bar_of(bars, wait)
        if number is not None and not wait.is_direct:
            events += waited(description, replay.bars[number], number, jobs[number], wait)
    events.sort(key=lambda event: event[0])
    return "\n".join(head + [f"{moment},{text}" for moment, text in events]) + "\n"


def jobs_of(replay: Replay) -> list[str]:
    """Of each bar the task with the number of its job. A direct server runs in the job of its caller."""
    running: dict[str, int] = {}
    found = []
    for number, bar in enumerate(replay.bars):
        if bar.depth == 0:
            running[bar.lane] = number
        found.append(f"{task_name(bar.lane)},{running.get(bar.lane, number)}")
    return found


def started(description: Description, bar: Bar, number: int, job: str) -> list[Event]:
    """The lines of a start. A direct server runs in its caller's task, which has started before."""
    runnable = bar.key.partition("@")[0]
    begun = (bar.first, f"{job},R,{runnable},{number},start,")
    if bar.depth:
        return [begun]
    cause = f"{runnable.partition(':')[0]}.{bar.event}"
    due = bar.first if bar.due is None else bar.due
    return [
        (due, f"{cause},{number},STI,{cause},{number},trigger,"),
        (due, f"{cause},{number},T,{job},activate,"),
        (bar.first, f"{core(description, bar)},T,{job},start,"),
        begun,
    ]


def ended(description: Description, bar: Bar, number: int, job: str) -> list[Event]:
    if bar.last is None:
        return []
    lines = [f"{job},R,{bar.key.partition('@')[0]},{number},terminate,"]
    if bar.depth == 0:
        lines.append(f"{core(description, bar)},T,{job},terminate,")
    return [(bar.last, line) for line in lines]


def waited(description: Description, bar: Bar, number: int, job: str, wait: Wait) -> list[Event]:
    """The runnable and its task from the request to the answer."""
    runnable = f"{job},R,{bar.key.partition('@')[0]},{number}"
    task = f"{core(description, bar)},T,{job}"
    found = [(wait.first, f"{runnable},suspend,"), (wait.first, f"{task},wait,")]
    if wait.last is not None:
        steps = [f"{task},release,", f"{task},resume,", f"{runnable},resume,"]
        found += [(wait.last, step) for step in steps]
    return found


def core(description: Description, bar: Bar) -> str:
    return f"Core_{core_of(description, bar.lane)},0"


def starts(replay: Replay) -> dict[str, tuple[list[int], list[int]]]:
    """Of each activation's name the moments of its starts, and the numbers of these bars."""
    found: dict[str, tuple[list[int], list[int]]] = {}
    for number, bar in enumerate(replay.bars):
        moments, numbers = found.setdefault(bar.key, ([], []))
        moments.append(bar.first)
        numbers.append(number)
    return found


def bar_of(bars: dict[str, tuple[list[int], list[int]]], wait: Wait) -> int | None:
    moments, numbers = bars.get(wait.key, ([], []))
    at = bisect_right(moments, wait.first)
    return numbers[at - 1] if at else None


def signals(replay: Replay, jobs: list[str]) -> list[Event]:
    """The lines of writes, each by the task that runs then, or by the environment; and the modes that hold."""
    made_by = writers(replay, jobs)
    found = []
    for name, changes in replay.values.items():
        for change in changes:
            words = change.text.replace(",", " ") + (" invalid" if change.state == "invalid" else "")
            writer = made_by.get(change.moment, f"{ENVIRONMENT},0")
            found.append((change.moment, f"{writer},SIG,{name},0,write,{words}"))
    for name, changes in replay.modes.items():
        held = [change for change in changes if change.state == "set"]
        found += [(change.moment, f"{ENVIRONMENT},0,SIG,{name},0,write,{change.text}") for change in held]
    return found


def writers(replay: Replay, jobs: list[str]) -> dict[int, str]:
    """Of each mark's moment the task with its job; the marks of the environment are left out."""
    steps = [(bar.first, bar.lane, job) for bar, job in zip(replay.bars, jobs)]
    steps += [(mark.moment, mark.lane, "") for mark in replay.marks]
    running: dict[str, str] = {}
    found = {}
    for moment, lane, job in sorted(steps):
        if job:
            running[lane] = job
        elif lane in running:
            found[moment] = running[lane]
    return found
