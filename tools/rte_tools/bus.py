"""What the bus keeps after the lines of a trace that are legal, and what it answers next."""

from __future__ import annotations

from collections import defaultdict
from dataclasses import dataclass

from rte_tools.activation import Activation, Answer, Value, Wish
from rte_tools.bus_plan import ENVIRONMENT, BusPlan, Element, Name
from rte_tools.trace import Line, by_element

PHASES = {"stable": "close", "close": "exit", "exit": "transition", "transition": "entry", "entry": "stable"}
LIMIT, NO_DATA, NEVER_RECEIVED, UNCONNECTED, LOST, INVALID = 130, 131, 133, 134, 64, 1


@dataclass(frozen=True)
class Held:
    """Why something may not come yet."""

    why: str


def value_of(text: str) -> Value:
    return () if text == "-" else tuple(int(word) for word in text.split(","))


def split_actor(actor: str) -> tuple[str, str, str]:
    """The instance, the runnable and the point of an activation's name."""
    key, _, point = actor.partition("@")
    instance, _, runnable = key.partition(":")
    return instance, runnable, point


class Bus:
    """The state, by the lines so far. Each line that is noted is one that may come."""

    def __init__(self, plan: BusPlan, version: str):
        self.plan, self.version = plan, version
        self.ticks = 0
        self.last_write: dict[Name, tuple[Value, int]] = {}  # by group: the value, and the number of its line
        self.invalid: dict[Name, int] = {}  # by group: the line of the invalidation
        self.unread: dict[Name, bool] = {}  # whether an element was updated since its last read
        self.queues: dict[Name, list[tuple[Value, int]]] = defaultdict(list)  # with the lines of the sends
        self.lost: dict[Name, int] = {}  # the line of a send that was discarded since the last receive
        self.requests: dict[str | Name, list[tuple[str, Value]]] = defaultdict(list)  # those not started
        self.outstanding: set[str] = set()
        self.returned: dict[str, tuple[Answer, int]] = {}
        self.serving: dict[str, str] = {}  # by activation, the point
        self.holders: dict[Name, str] = {}
        self.stages = {machine: "entry" for machine in plan.machines}
        self.next_mode = {name: machine.initial for name, machine in plan.machines.items()}
        self.mode = dict(self.next_mode)
        self.switches: dict[Name, list[int]] = {machine: [] for machine in plan.machines}
        self.was_stable: set[Name] = set()
        self.due = {name for name, event in plan.events.items() if event.kind == "InitEvent"}
        self.owed: dict[Name, set[Name]] = {machine: set() for machine in plan.machines}
        self.running: dict[str, Activation] = {}
        self.started_by: dict[str, Name] = {}
        self.admitted: set[str] = set()
        self.waits_for: dict[str, str] = {}  # by caller: the direct activation that it waits for
        for machine in plan.machines:
            self.owe(machine, ("onEntry", self.mode[machine]))

    # ---- what is answered

    def answer(self, actor: str, wish: Wish) -> Answer | Held:
        """What the bus answers the wish, or why it holds it back."""
        owner = ENVIRONMENT if actor == ENVIRONMENT else split_actor(actor)[0]
        name = (owner, wish.target)
        if wish.verb in ("fetch", "read", "isUpdated"):
            return self.read(name, wish.verb)
        if wish.verb == "fetchAll":
            return self.moment(owner, self.plan.list_of(actor, wish.target).elements)
        if wish.verb == "send":
            return Answer(LIMIT if any(self.is_full(held) for held in self.receivers(name)) else 0)
        if wish.verb == "receive":
            return self.received(name)
        if wish.verb in ("ask", "answer", "result"):
            return self.called(self.point(actor, wish), wish.verb)
        if wish.verb == "enter" and name in self.holders:
            return Held(f"`{self.holders[name]}` is in the area")
        if wish.verb == "switch":
            return Answer(LIMIT if len(self.switches[name]) == self.plan.machines[name].queue else 0)
        if wish.verb == "mode":
            return Answer(self.mode_at(self.plan.mode_ports[name]))
        if wish.verb == "admit":
            return Answer(int(not self.is_disabled(self.started_by[actor])))
        return Answer()

    def read(self, name: Name, verb: str) -> Answer:
        element = self.plan.elements[name]
        if verb == "isUpdated":
            return Answer(int(self.unread.get(name, element.group in self.last_write)))
        return Answer(self.read_code(element), self.last_write.get(element.group, (element.init, 0))[0])

    def moment(self, owner: str, elements: tuple[str, ...]) -> Answer:
        """The values of some elements, one after the other."""
        return Answer(0, tuple(word for element in elements for word in self.read((owner, element), "fetch").value))

    def read_code(self, element: Element) -> int:
        if element.kind == "variable":
            return 0
        if not element.joined:
            return UNCONNECTED
        if element.group in self.invalid:
            return INVALID
        return NEVER_RECEIVED if element.never_received and element.group not in self.last_write else 0

    def receivers(self, name: Name) -> list[Name]:
        """The queues that a send reaches."""
        sender = self.plan.elements[name]
        reached = self.plan.in_group[sender.group] if sender.joined else []
        return [held for held in reached if not self.plan.elements[held].provided]

    def is_full(self, name: Name) -> bool:
        return len(self.queues[name]) == self.plan.elements[name].length

    def received(self, name: Name) -> Answer:
        if not self.plan.elements[name].joined:
            return Answer(UNCONNECTED)
        if not self.queues[name]:
            return Answer(NO_DATA)
        return Answer(LOST if name in self.lost else 0, self.queues[name][0][0])

    def point(self, actor: str, wish: Wish) -> str:
        if wish.verb == "result" or actor == ENVIRONMENT:
            return self.plan.results[split_actor(actor)[0], wish.target]
        return f"{actor.partition('@')[0]}.{wish.target}"

    def counter(self, point: str) -> str | Name:
        """Where requests of a point wait: with those of its queued server, or alone."""
        server = self.plan.points[point].server
        return point if self.plan.servers[server].queue is None else server

    def called(self, point: str, verb: str) -> Answer | Held:
        server = self.plan.points[point].server
        if server is None:
            return Answer(UNCONNECTED)
        if verb == "ask":
            queue = self.plan.servers[server].queue
            is_full = queue is not None and len(self.requests[server]) == queue
            return Answer(LIMIT if point in self.outstanding or is_full else 0)
        if point in self.outstanding and point in self.returned:
            return self.returned[point][0]
        return Answer(NO_DATA) if verb == "result" else Held("the server has not returned")

    def mode_at(self, machine: Name) -> int:
        is_stable = self.stages[machine] == "stable"
        return self.mode[machine] if is_stable else len(self.plan.machines[machine].modes)

    def is_disabled(self, event: Name) -> bool:
        machine, modes = self.plan.events[event].disabled
        is_stable = self.stages[machine] == "stable"
        return self.mode[machine] in modes or (not is_stable and self.next_mode[machine] in modes)

    def phase(self, machine: Name) -> str | Held:
        """The phase that may come, as a line shows it."""
        step = PHASES[self.stages[machine]]
        if step == "close":
            if not self.switches[machine]:
                return Held("no switch is asked for")
            return f"close {self.mode_text(machine, self.switches[machine][0])}"
        if step == "exit" and self.plan.machines[machine].waits:
            for actor in sorted(self.admitted):
                disabled = self.plan.events[self.started_by[actor]].disabled
                if disabled and disabled[0] == machine and self.next_mode[machine] in disabled[1]:
                    return Held(f"`{actor}` runs, whose event the next mode disables")
        if step != "exit" and self.owed[machine]:
            return Held(f"`{'.'.join(min(self.owed[machine]))}` has not started and ended")
        return step

    def mode_text(self, machine: Name, mode: int) -> str:
        modes = self.plan.machines[machine].modes
        if self.version == "1":
            return str(mode)
        return modes[mode] if mode < len(modes) else "-"

    def mode_number(self, machine: Name, text: str) -> int:
        return int(text) if self.version == "1" else self.plan.machines[machine].modes.index(text)

    def is_due(self, event: Name, point: str = "") -> bool:
        held = self.plan.events[event]
        if held.kind == "OperationInvokedEvent":
            return bool(self.requests[point or held.of])
        return (held.of if held.kind == "AsynchronousServerCallReturnsEvent" else event) in self.due

    def may_step(self) -> str:
        """What may come next inside a run line, or is not over; nothing where `idle` holds."""
        for actor, activation in self.running.items():
            return f"`{actor}` runs; it asks for `{activation.next.verb}`"
        for (instance, name), event in self.plan.events.items():
            if event.mapped and self.is_due((instance, name)):
                return f"the event `{name}` of `{instance}` may start `{event.runnable}`"
        for machine in self.plan.machines:
            step = self.phase(machine)
            if isinstance(step, str):
                return f"the machine `{'.'.join(machine)}` may go on with `phase {step}`"
        return ""

    # ---- what a line changes

    def note(self, line: Line) -> None:
        if line.is_tick:
            self.tick()
        elif line.verb == "phase":
            instance, _, name = line.actor.partition(".")
            self.go_on((instance, name), line)
        elif line.verb == "start":
            self.start(line)
        elif line.actor:
            self.entry(line)

    def tick(self) -> None:
        self.ticks += 1
        for period in self.plan.periods:
            if self.ticks % period == 0:
                self.due.update(self.plan.events_of[period])

    def start(self, line: Line) -> None:
        instance, runnable, _ = split_actor(line.actor)
        name = (instance, line.part("event"))
        event, given = self.plan.events[name], ()
        if event.kind == "OperationInvokedEvent":
            point = line.fields[2]
            given = self.requests[self.counter(point)].pop(0)[1]
            self.serving[line.actor] = point
        self.due.discard(event.of if event.kind == "AsynchronousServerCallReturnsEvent" else name)
        self.started_by[line.actor] = name
        self.running[line.actor] = Activation(self.plan, instance, runnable, event.disabled is not None, given)

    def entry(self, line: Line) -> None:
        owner = ENVIRONMENT if line.actor == ENVIRONMENT else split_actor(line.actor)[0]
        name = (owner, line.part("target"))
        answer = self.answered(line, name)
        if line.verb in ("write", "publish"):
            self.store(name, value_of(line.part("value")), line.number)
        elif line.verb == "publishAll":
            self.store_all(owner, line)
        elif line.verb == "invalidate":
            self.invalid[self.plan.elements[name].group] = line.number
        elif line.verb == "read":
            self.unread[name] = False
        elif line.verb == "send":
            self.send(name, value_of(line.part("value")), line.number)
        elif line.verb == "receive":
            self.lost.pop(name, None)
            if answer.code in (0, LOST):
                self.queues[name].pop(0)
        elif line.verb in ("ask", "answer", "result", "return"):
            self.call(line, answer)
        elif line.verb == "enter":
            self.holders[name] = line.actor
        elif line.verb == "exit":
            del self.holders[name]
        elif line.verb == "switch" and answer.code == 0:
            self.switches[name].append(self.mode_number(name, line.part("mode")))
        elif line.verb == "admit" and answer.code:
            self.admitted.add(line.actor)
        if line.actor in self.running:
            self.running[line.actor].feed(answer)
            if not self.running[line.actor].next:
                self.end(line.actor)

    def answered(self, line: Line, name: Name) -> Answer:
        """What a line says that the bus answered."""
        if line.verb == "admit":
            return Answer(int(line.part("answer") == "yes"))
        if line.verb == "isUpdated":
            return Answer(int(line.part("answer")))
        if line.verb == "mode":
            return Answer(self.mode_at(self.plan.mode_ports[name]))
        is_given = line.verb in ("write", "publish", "publishAll", "send", "ask")
        return Answer(int(line.part("code") or 0), () if is_given else value_of(line.part("value") or "-"))

    def store(self, name: Name, value: Value, number: int) -> None:
        group = self.plan.elements[name].group
        self.last_write[group] = (value, number)
        self.invalid.pop(group, None)
        for held in self.plan.in_group[group]:
            self.unread[held] = True
            self.bring(held)

    def store_all(self, owner: str, line: Line) -> None:
        """Stores what a line publishes of a list, in the order of the list: of two elements of one group the last one stays."""
        elements = self.plan.list_of(line.actor, line.part("list")).elements
        for element, words in by_element(line, elements, self.plan.words_of(line.actor)):
            self.store((owner, element), tuple(map(int, words)), line.number)

    def bring(self, element: Name) -> None:
        self.due.update(self.plan.events_of.get(element, ()))

    def send(self, name: Name, value: Value, number: int) -> None:
        for receiver in self.receivers(name):
            if self.is_full(receiver):
                self.lost[receiver] = number
            else:
                self.queues[receiver].append((value, number))
                self.bring(receiver)

    def call(self, line: Line, answer: Answer) -> None:
        if line.verb == "return":
            point = self.serving.pop(line.actor)
            self.returned[point] = (answer, line.number)
            self.due.add(point)
            return
        point = self.point(line.actor, Wish(line.verb, line.part("target")))
        if line.verb != "ask":
            if answer.code < LOST:
                self.outstanding.discard(point)
        elif answer.code == 0:
            self.outstanding.add(point)
            self.returned.pop(point, None)
            self.requests[self.counter(point)].append((point, value_of(line.part("value"))))
            server = self.plan.points[point].server
            if self.plan.servers[server].queue is None:
                self.waits_for[line.actor] = f"{':'.join(self.plan.servants[server])}@{point}"

    def end(self, actor: str) -> None:
        del self.running[actor]
        self.admitted.discard(actor)
        for owed in self.owed.values():
            owed.discard(self.started_by[actor])
        self.waits_for = {caller: held for caller, held in self.waits_for.items() if held != actor}

    def go_on(self, machine: Name, line: Line) -> None:
        step = self.stages[machine] = line.part("step")
        left = self.mode[machine]
        if step == "close":
            self.next_mode[machine] = self.switches[machine].pop(0)
        elif step == "exit":
            self.owe(machine, ("onExit", left))
        elif step == "transition":
            self.owe(machine, ("onTransition", left, self.next_mode[machine]))
        elif step == "entry":
            self.owe(machine, ("onEntry", self.next_mode[machine]))
        else:
            self.mode[machine] = self.next_mode[machine]
            if machine in self.was_stable:
                events = self.plan.events_of.get(machine, ())
                self.due.update(name for name in events if self.plan.events[name].kind == "ModeSwitchedAckEvent")
            self.was_stable.add(machine)

    def owe(self, machine: Name, moment: tuple) -> None:
        """A phase makes events pending, and the next phase waits for their activations."""
        for name in self.plan.events_of.get(machine, ()):
            event = self.plan.events[name]
            if event.kind == "SwcModeSwitchEvent" and event.moment == moment:
                self.owed[machine].add(name)
                self.due.add(name)
