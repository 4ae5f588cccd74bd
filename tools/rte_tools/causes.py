"""What led to what in a trace: starts and the calls that made them due, answers and returns, what waits in queues.

A trace may be wrong, as those of the corpus are. Then what does not fit is left out, and nothing is refused here.
"""

from __future__ import annotations

from collections import defaultdict, deque
from dataclasses import dataclass, field, replace

from rte_tools.trace import Line
from rte_tools.wiring import DATA as VALUES
from rte_tools.wiring import ENVIRONMENT, Name, Wiring

CALL, ANSWER, DATA, MODE, TIME = "call", "answer", "data", "mode", "time"  # why an event became due
SHOWN_WAITING = 4  # of what waits in a queue
LOST = 64
HEADER = 1  # the line of the header: from there on some events are due


@dataclass(frozen=True)
class Cause:
    """What an arrow begins at: a moment, in a lane."""

    kind: str
    moment: int
    lane: str


@dataclass(frozen=True)
class Arrow:
    """What led to what. The depth is that of the activation that starts at the end, and is missing at a call."""

    kind: str
    first: int
    last: int
    source: str  # lanes
    target: str
    depth: int | None
    text: str


@dataclass(frozen=True)
class Wait:
    """An activation waits for an answer, which does not come where `last` is missing."""

    lane: str
    depth: int
    key: str
    first: int
    last: int | None = None
    is_direct: bool = False


@dataclass(frozen=True)
class Fill:
    """From this moment on so much waits in a queue; something may have been lost at this moment."""

    moment: int
    count: int
    text: str = ""
    has_lost: bool = False

    def held_from(self, moment: int) -> Fill:
        """What waits from a later moment on, at which nothing is lost."""
        return replace(self, moment=moment, has_lost=False)


@dataclass
class Queue:
    kind: str
    length: int
    fills: list[Fill] = field(default_factory=list)


class Causes:
    """The state while a trace is gone through, and what was found."""

    def __init__(self, wiring: Wiring):
        self.wiring = wiring
        self.arrows: list[Arrow] = []
        self.waits: list[Wait] = []
        self.queues: dict[str, Queue] = {}
        self.ticks: list[int] = []  # the moments of ticks
        self.due: dict[Name, Cause] = {}
        self.ticks_at_start: dict[Name, int] = {}  # of timing events
        self.waiting: dict[str, deque[str]] = defaultdict(deque)  # by queue: what is shown of each that waits
        self.asked: dict[str, Cause] = {}  # by point
        self.serving: dict[str, str] = {}  # by activation: the point
        self.returned: dict[str, Cause] = {}  # by point
        self.callers: dict[str, Wait] = {}  # by activation
        self.mode_of: dict[str, str] = {}
        self.next_mode: dict[str, str] = {}
        self.was_stable: set[str] = set()
        self.switches: dict[str, deque[Cause]] = defaultdict(deque)
        for name in wiring.first_due:
            self.bring(name, Cause(TIME, HEADER, ""))
        for machine in wiring.machines:
            initial = wiring.modes_of(machine)[1]
            self.mode_of[machine] = self.next_mode[machine] = initial
            self.bring_all(wiring.switched.get((machine, "onEntry", initial), []), Cause(TIME, HEADER, ""))

    # ---- events that become due

    def bring(self, name: Name, cause: Cause) -> None:
        self.due.setdefault(name, cause)

    def bring_all(self, names: list[Name], cause: Cause) -> None:
        for name in names:
            self.bring(name, cause)

    def started(self, line: Line, name: Name, lane: str, depth: int) -> int | None:
        """Notes a start. Gives the moment at which its event became due, if that is known."""
        cause = self.cause_of(line, name)
        if cause and cause.kind != TIME:
            text = f"{line.actor} starts at line {line.number}, since line {cause.moment}"
            self.arrows.append(Arrow(cause.kind, cause.moment, line.number, cause.lane, lane, depth, text))
        return cause.moment if cause else None

    def cause_of(self, line: Line, name: Name) -> Cause | None:
        if name in self.wiring.periods:
            return self.tick_of(name)
        if len(line.fields) > 2 and line.fields[1] == "from":
            point = self.serving[line.actor] = line.fields[2]
            server = self.server_of(point)
            if server in self.wiring.queues:
                self.take(server, line.number)
            return self.asked.pop(point, None)
        return self.due.pop(self.wiring.flags.get(name, name), None)

    def tick_of(self, name: Name) -> Cause | None:
        """The first tick after the last start at which a period was over."""
        period = self.wiring.periods[name]
        wanted = (self.ticks_at_start.get(name, 0) // period + 1) * period
        self.ticks_at_start[name] = len(self.ticks)
        return Cause(TIME, self.ticks[wanted - 1], "") if wanted <= len(self.ticks) else None

    # ---- data

    def written(self, group: str, line: Line, lane: str) -> None:
        self.bring_all(self.wiring.heard_by.get(group, []), Cause(DATA, line.number, lane))

    def sent(self, group: str, line: Line, lane: str) -> None:
        for queue in self.wiring.receivers.get(group, []):
            if self.put(queue, line.number, line.part("value")):
                self.bring_all(self.wiring.heard_by.get(queue, []), Cause(DATA, line.number, lane))

    def received(self, name: str, line: Line) -> None:
        if line.part("value") != "-":
            self.take(name, line.number)

    def put(self, name: str, moment: int, shown: str) -> bool:
        """Puts something into a queue, if it has a place."""
        held, has_place = self.waiting[name], len(self.waiting[name]) < self.wiring.queues[name].length
        if has_place:
            held.append(shown)
        self.filled(name, moment, not has_place)
        return has_place

    def take(self, name: str, moment: int) -> None:
        if name in self.wiring.queues:
            if self.waiting[name]:
                self.waiting[name].popleft()
            self.filled(name, moment)

    def filled(self, name: str, moment: int, has_lost: bool = False) -> None:
        plan, held = self.wiring.queues[name], self.waiting[name]
        if name not in self.queues:
            self.queues[name] = Queue(plan.kind, plan.length, [Fill(HEADER, 0)])
        shown = "; ".join(held[at] for at in range(min(len(held), SHOWN_WAITING)))
        more = "; …" if len(held) > SHOWN_WAITING else ""
        self.queues[name].fills.append(Fill(moment, len(held), shown + more, has_lost))

    # ---- calls

    def server_of(self, point: str) -> str:
        """The name of the server that a point calls: `INSTANCE:RUNNABLE.PORT.OPERATION`, or `env.PORT.OPERATION`."""
        caller, port, operation = [*point.rsplit(".", 2), "", ""][:3]
        return self.wiring.group(caller.partition(":")[0], f"{port}.{operation}")

    def called(self, line: Line, lane: str, depth: int) -> None:
        """Notes a request that was accepted, and one that was not for want of a place."""
        owner, target = line.actor.partition("@")[0], line.part("target")
        point = f"{owner}.{target}"
        server = self.wiring.server(owner.partition(":")[0], target)
        if server is None:
            return
        if line.part("code") != "0":
            self.filled_by_request(server.name, line.number)
            return
        self.asked[point] = Cause(CALL, line.number, lane)
        self.returned.pop(point, None)
        if server.name in self.wiring.queues:
            self.put(server.name, line.number, owner)
        if line.actor != ENVIRONMENT and self.wiring.waits(owner, target):
            self.callers[line.actor] = Wait(lane, depth, line.actor, line.number, None, server.is_direct)

    def filled_by_request(self, server: str, moment: int) -> None:
        plan = self.wiring.queues.get(server)
        if plan and len(self.waiting[server]) == plan.length:
            self.filled(server, moment, True)

    def served(self, line: Line, lane: str) -> None:
        """A server returns: its caller may take the answer, and an event may become due."""
        point = self.serving.pop(line.actor, None)
        if point is None:
            return
        cause = Cause(ANSWER, line.number, lane)
        self.returned[point] = cause
        caller, port, operation = [*point.rsplit(".", 2), "", ""][:3]
        self.bring((caller.partition(":")[0], f"{port}.{operation}"), cause)

    def answered(self, line: Line, lane: str) -> None:
        """An answer, or a result, is taken."""
        owner, target = line.actor.partition("@")[0], line.part("target")
        point = f"{owner}.{target}"
        if line.verb == "result":
            point = self.wiring.results.get((owner.partition(":")[0], target), point)
        cause = self.returned.get(point)
        if wait := self.callers.pop(line.actor, None) if line.verb == "answer" else None:
            self.waits.append(replace(wait, last=line.number))
        if cause and line.part("code").isdigit() and int(line.part("code")) < LOST:
            del self.returned[point]
            text = f"line {line.number} takes what line {cause.moment} returned"
            self.arrows.append(Arrow(ANSWER, cause.moment, line.number, cause.lane, lane, None, text))

    # ---- modes

    def switched(self, machine: str, line: Line, lane: str) -> None:
        if machine not in self.wiring.machines:
            return
        if line.part("code") == "0":
            self.switches[machine].append(Cause(MODE, line.number, lane))
            self.put(machine, line.number, line.part("mode"))
        else:
            self.filled(machine, line.number, True)

    def phase(self, machine: str, line: Line, mode: str) -> None:
        """A phase makes events due; `close` takes the oldest switch, and its mode is the next one."""
        step, cause, last = line.part("step"), Cause(MODE, line.number, machine), self.mode_of.get(machine, "?")
        if step == "close":
            self.next_mode[machine] = mode
            self.closed(machine, line)
        elif step == "stable":
            self.mode_of[machine] = self.next_mode.get(machine, "?")
            if machine in self.was_stable:  # the first `stable` acknowledges nothing
                self.bring_all(self.wiring.acknowledged.get(machine, []), cause)
            self.was_stable.add(machine)
        else:
            following = self.next_mode.get(machine, "?")
            moments = {
                "exit": ("onExit", last),
                "transition": ("onTransition", last, following),
                "entry": ("onEntry", following),
            }
            self.bring_all(self.wiring.switched.get((machine, *moments.get(step, ())), []), cause)

    def closed(self, machine: str, line: Line) -> None:
        self.take(machine, line.number)
        if self.switches[machine]:
            cause = self.switches[machine].popleft()
            text = f"line {line.number} carries out the switch of line {cause.moment}"
            self.arrows.append(Arrow(MODE, cause.moment, line.number, cause.lane, machine, None, text))

    def finish(self) -> None:
        """Puts all in order. Queues of one place for requests or switches show nothing that the arrows do not."""
        self.waits += self.callers.values()
        self.arrows.sort(key=lambda arrow: arrow.first)
        shown = {name: held for name, held in self.queues.items() if held.kind == VALUES or held.length > 1}
        order = self.wiring.order
        self.queues = {name: shown[name] for name in sorted(shown, key=lambda name: order.get(name, len(order)))}
