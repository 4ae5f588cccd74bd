"""What a trace shows: activations in tasks, calls, values, modes, queues and run lines, and what led to what.

A moment is the number of a line in the trace.
"""

from __future__ import annotations

from bisect import bisect_left, bisect_right
from dataclasses import dataclass, field, replace
from typing import Any

from rte_tools.causes import Arrow, Causes, Queue, Wait
from rte_tools.description import Description
from rte_tools.trace import CLOSINGS, OF_LISTS, RUN, STOPPED, Line, Trace
from rte_tools.wiring import ENVIRONMENT, Wiring

ELSEWHERE = ""  # the lane of what belongs to no task of the description
CHANGES_VALUE = ("write", "publish", "send")
TOUCHES_VALUE = ("read", "receive", "fetch", "invalidate", "isUpdated")
CALLS = ("ask", "return", "answer", "result", "switch")


@dataclass(frozen=True)
class Bar:
    """An activation, from its start to its end; `last` is missing where it does not end."""

    lane: str  # the task
    depth: int  # 1 for a direct server within its caller
    key: str
    event: str
    first: int
    last: int | None = None
    due: int | None = None  # the moment at which its event became due, if that is known
    is_admitted: bool = True


@dataclass(frozen=True)
class Mark:
    """A call, a phase or another entry within a lane: a task, a machine or the environment."""

    lane: str
    moment: int
    verb: str
    text: str
    code: str = ""  # of an admission that is refused `no`


@dataclass(frozen=True)
class Change:
    """From this moment on a value or mode is shown so. The state is `set`, `invalid` or `moving`."""

    moment: int
    text: str
    state: str = "set"

    def held_from(self, moment: int) -> Change:
        return replace(self, moment=moment)


@dataclass(frozen=True)
class RunLine:
    number: int
    first: int
    milliseconds: int  # that passed before it
    last: int | None = None
    closing: str = ""
    node: str = ""  # of two nodes `1 ` or `2 `

    @property
    def name(self) -> str:
        """What is before the run line of a live node has no number."""
        return f"{self.node}run {self.number}" if self.number else "live"


@dataclass
class Replay:
    """All that is drawn or exported, between two moments."""

    first: int
    last: int
    bars: list[Bar] = field(default_factory=list)
    marks: list[Mark] = field(default_factory=list)
    ticks: list[int] = field(default_factory=list)  # the moments of ticks
    feeds: dict[str, list[int]] = field(default_factory=dict)  # of a live node: the lanes of its feeds, with the moments of their ticks
    served: RunLine | None = None  # of a live node: the lines before its run line
    runs: list[RunLine] = field(default_factory=list)
    values: dict[str, list[Change]] = field(default_factory=dict)  # of what is queued the last value that was sent
    modes: dict[str, list[Change]] = field(default_factory=dict)
    queues: dict[str, Queue] = field(default_factory=dict)
    arrows: list[Arrow] = field(default_factory=list)
    waits: list[Wait] = field(default_factory=list)
    queued: set[str] = field(default_factory=set)  # the names of values that are queued
    passed: int = 0  # the milliseconds before the first moment

    def ticks_of(self, lane: str) -> list[int]:
        """The moments of the ticks that a feed makes, or the environment."""
        return self.feeds.get(lane, self.ticks)

    def window(self, first: int, last: int) -> Replay:
        """What is between two moments; what began before goes on from the first one."""
        first, last = max(first, self.first), min(last, self.last)

        def overlaps(held: Bar | RunLine | Wait | Arrow) -> bool:
            return held.first <= last and (held.last is None or held.last >= first)

        return Replay(
            first,
            last,
            [bar for bar in self.bars if overlaps(bar)],
            [mark for mark in self.marks if first <= mark.moment <= last],
            [moment for moment in self.ticks if first <= moment <= last],
            {lane: [moment for moment in ticks if first <= moment <= last] for lane, ticks in self.feeds.items()},
            self.served if self.served and overlaps(self.served) else None,
            [run for run in self.runs if overlaps(run)],
            {name: clipped(changes, first, last) for name, changes in self.values.items()},
            {name: clipped(changes, first, last) for name, changes in self.modes.items()},
            {
                name: Queue(queue.kind, queue.length, clipped(queue.fills, first, last))
                for name, queue in self.queues.items()
            },
            [arrow for arrow in self.arrows if overlaps(arrow)],
            [wait for wait in self.waits if overlaps(wait)],
            self.queued,
            self.passed + bisect_left(self.ticks, first),
        )


def clipped(changes: list[Any], first: int, last: int) -> list:
    """The changes between two moments, with the one that holds at the first."""
    begin = bisect_left(changes, first, key=lambda change: change.moment)
    inside = changes[begin : bisect_right(changes, last, key=lambda change: change.moment)]
    if begin and (not inside or inside[0].moment > first):
        inside.insert(0, changes[begin - 1].held_from(first))
    return inside


def replay(description: Description, trace: Trace) -> Replay:
    """Goes through the trace once."""
    player = Player(description, trace.version)
    if trace.is_live:
        player.replay.served = RunLine(0, 2, 0)
    for line in trace.lines:
        player.step(line)
    return player.finish(trace.lines[-1].number if trace.lines else 1)


class Player:
    """The state while a trace is gone through."""

    def __init__(self, description: Description, version: str):
        self.names_modes = version != "1"
        self.wiring = Wiring(description)
        self.causes = Causes(self.wiring)
        self.replay = Replay(2, 2, ticks=self.causes.ticks)
        self.running: dict[str, Bar] = {}  # by key
        self.run: RunLine | None = None
        self.verbs = {
            "start": self.start,
            "end": self.end,
            "phase": self.phase,
            "admit": self.admit,
            **dict.fromkeys(CHANGES_VALUE + TOUCHES_VALUE, self.value),
            **dict.fromkeys(OF_LISTS, self.of_list),
            **dict.fromkeys(CALLS, self.call),
        }

    def step(self, line: Line) -> None:
        if line.feed:
            self.replay.feeds.setdefault(lane_of_feed(line), [])
        if line.is_tick:
            self.replay.ticks.append(line.number)
            if line.feed:
                self.replay.feeds[lane_of_feed(line)].append(line.number)
        elif not line.actor:
            self.run_line(line)
        else:
            self.verbs.get(line.verb, self.mark)(line)

    def run_line(self, line: Line) -> None:
        if line.verb == STOPPED and self.replay.served:
            self.replay.served = replace(self.replay.served, last=line.number, closing=STOPPED)
        elif line.verb == RUN:
            self.run = RunLine(len(self.replay.runs) + 1, line.number, len(self.replay.ticks))
            self.replay.runs.append(self.run)
        elif line.verb in CLOSINGS and self.run:
            closed = replace(self.run, last=line.number, closing=line.verb)
            self.replay.runs[-1] = closed
        if line.verb == "waiting":
            self.replay.marks.append(Mark(ENVIRONMENT, line.number, line.verb, line.text))

    def start(self, line: Line) -> None:
        instance, event = line.actor.partition(":")[0], line.part("event")
        caller = self.running.get(line.actor.partition("@")[2].partition(".")[0]) if "@" in line.actor else None
        lane = caller.lane if caller else self.wiring.tasks.get((instance, event), ELSEWHERE)
        depth = sum(bar.lane == lane for bar in self.running.values())
        due = self.causes.started(line, (instance, event), lane, depth)
        self.running[line.actor] = Bar(lane, depth, line.actor, event, line.number, None, due)

    def end(self, line: Line) -> None:
        bar = self.running.pop(line.actor, None)
        if bar:
            self.replay.bars.append(replace(bar, last=line.number))
        else:
            self.replay.marks.append(Mark(ELSEWHERE, line.number, line.verb, line.text))

    def mark(self, line: Line, code: str = "") -> str:
        """Notes a call; gives its lane."""
        lane = lane_of_feed(line) if line.feed else self.lane_of(line.actor)
        self.replay.marks.append(Mark(lane, line.number, line.verb, line.text, code or line.part("code")))
        return lane

    def admit(self, line: Line) -> None:
        """What is not admitted ends so."""
        is_refused = line.part("answer") == "no"
        self.mark(line, "no" if is_refused else "")
        if is_refused:
            if line.actor in self.running:
                self.running[line.actor] = replace(self.running[line.actor], is_admitted=False)
            self.end(line)

    def lane_of(self, key: str) -> str:
        if key == ENVIRONMENT:
            return ENVIRONMENT
        return self.running[key].lane if key in self.running else ELSEWHERE

    def value(self, line: Line) -> None:
        lane, target = self.mark(line), line.part("target")
        instance = line.actor.partition(":")[0]
        group = self.wiring.group(instance, target)
        changes = self.replay.values.setdefault(group, [])
        if line.verb in CHANGES_VALUE:
            changes.append(Change(line.number, line.part("value")))
            (self.causes.sent if line.verb == "send" else self.causes.written)(group, line, lane)
        elif line.verb == "invalidate":
            changes.append(Change(line.number, changes[-1].text if changes else "", "invalid"))
        elif line.verb == "receive":
            self.causes.received(f"{instance}.{target}", line)

    def of_list(self, line: Line) -> None:
        """What is fetched or published of a coherent list, element by element."""
        lane, instance = self.mark(line), line.actor.partition(":")[0]
        for element, words in self.wiring.listed(line):
            group = self.wiring.group(instance, element)
            changes = self.replay.values.setdefault(group, [])
            if line.verb == "publishAll":
                changes.append(Change(line.number, ",".join(words)))
                self.causes.written(group, line, lane)

    def call(self, line: Line) -> None:
        lane = self.mark(line)
        if line.verb == "ask":
            bar = self.running.get(line.actor)
            self.causes.called(line, lane, bar.depth if bar else 0)
        elif line.verb == "return":
            self.causes.served(line, lane)
        elif line.verb == "switch":
            self.causes.switched(f"{line.actor.partition(':')[0]}.{line.part('target')}", line, lane)
        else:
            self.causes.answered(line, lane)

    def phase(self, line: Line) -> None:
        machine = line.actor
        self.replay.marks.append(Mark(machine, line.number, line.verb, line.text))
        if machine not in self.replay.modes:
            self.replay.modes[machine] = [Change(self.replay.first, self.wiring.modes_of(machine)[1], "moving")]
        changes, mode = self.replay.modes[machine], self.mode_name(machine, line.part("mode"))
        self.causes.phase(machine, line, mode)
        if line.part("step") == "close":
            changes.append(Change(line.number, mode, "moving"))
        elif line.part("step") == "stable":
            changes.append(Change(line.number, changes[-1].text))

    def mode_name(self, machine: str, mode: str) -> str:
        """The name of a mode, which version 1 gives by its number."""
        modes = self.wiring.modes_of(machine)[0]
        if self.names_modes or not mode.isdigit() or int(mode) >= len(modes):
            return mode
        return modes[int(mode)]

    def finish(self, last: int) -> Replay:
        """Values, modes and queues come in the order of the plan."""
        made, order = self.replay, self.wiring.order
        made.last = max(last, made.first)
        made.feeds = dict(sorted(made.feeds.items()))
        made.bars += self.running.values()
        made.bars.sort(key=lambda bar: bar.first)
        self.causes.finish()
        made.queues, made.arrows, made.waits = self.causes.queues, self.causes.arrows, self.causes.waits
        made.values, made.modes = (
            {name: held[name] for name in sorted(held, key=lambda name: order.get(name, len(order)))}
            for held in (made.values, made.modes)
        )
        made.queued = {name for name in made.values if name in self.wiring.receivers}
        return made


def lane_of_feed(line: Line) -> str:
    return f"feed {line.feed}"


def labels(key: str) -> list[str]:
    """Names of an activation for a bar, from the longest to the shortest."""
    instance, _, runnable = key.partition("@")[0].partition(":")
    return [f"{instance}:{runnable}", f"{instance.rpartition('/')[2]}:{runnable}", runnable]
