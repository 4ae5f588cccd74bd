"""A run made apart from the program: the cores of a node take turns over the bus, core by core, and each turn makes one entry or none."""

from __future__ import annotations

from dataclasses import dataclass, field
from typing import Any

from rte_tools.activation import Wish
from rte_tools.bus import ENVIRONMENT, Bus, Held, split_actor
from rte_tools.bus_plan import Name, plan_of
from rte_tools.description import described
from rte_tools.trace import HEADER, read_line
from rte_tools.verdicts import ENOUGH, script_lines, spelled, value_text

MOST_ENTRIES, MOST_QUIET = 1024, 64  # of a core in a round: its entries, and its turns in a row without one


@dataclass
class Slot:
    """A task with its events in order of position, and the activation that runs in it; or a mode machine."""

    events: list[Name] = field(default_factory=list)
    running: str = ""
    machine: Name | None = None


@dataclass
class Core:
    slots: list[Slot] = field(default_factory=list)
    first: int = 0  # where the next turn begins

    def in_order(self) -> list[int]:
        return [*range(self.first, len(self.slots)), *range(self.first)]


class Layout:
    """What a node is before a run: the plan of a description, which is given as the value of its JSON, and the tasks of each core.

    It is made once, and each run begins from it.
    """

    def __init__(self, value: dict[str, Any]):
        self.plan = plan_of(value)
        self.instances = len(described(value).instances())
        mapping = value["mapping"]
        placed: dict[str, list[Name]] = {task["shortName"]: [] for task in mapping.get("tasks", [])}
        for held in sorted(mapping.get("events", []), key=lambda held: held["position"]):
            placed[held["task"]].append((held["instance"], held["event"]))
        self.tasks: list[list[list[Name]]] = [[] for _ in range(mapping["cores"])]
        for task in mapping.get("tasks", []):
            self.tasks[task["core"]].append(placed[task["shortName"]])

    def cores(self) -> list[Core]:
        """The cores with all tasks free; the machines are on the first one."""
        made = [Core([Slot(events) for events in tasks]) for tasks in self.tasks]
        made[0].slots += [Slot(machine=machine) for machine in self.plan.machines]
        return made


class Node:
    """A node that runs, and the lines of its trace so far."""

    def __init__(self, layout: Layout):
        self.plan = layout.plan
        self.bus = Bus(self.plan, "2")
        self.lines = [f"{HEADER}2"]
        self.cores = layout.cores()

    def put(self, text: str) -> bool:
        self.lines.append(text)
        self.bus.note(read_line(len(self.lines), text))
        return True

    # ---- one entry

    def call(self, actor: str, wish: Wish) -> bool:
        answer = self.bus.answer(actor, wish)
        return not isinstance(answer, Held) and self.put(spelled(self.bus, actor, wish, answer))

    def start(self, actor: str, event: Name, counter: Any) -> bool:
        if self.plan.events[event].kind != "OperationInvokedEvent":
            return self.put(f"{actor} start {event[1]}")
        point, value = self.bus.requests[counter][0]
        return self.put(f"{actor} start {event[1]} from {point} {value_text(value)}")

    def start_due(self, slot: Slot) -> bool:
        for event in slot.events:
            if self.bus.is_due(event):
                held = self.plan.events[event]
                slot.running = f"{event[0]}:{held.runnable}"
                return self.start(slot.running, event, held.of)
        return False

    def go_on(self, actor: str) -> bool:
        """The next call of an activation, or of the direct one that it waits for, which starts first."""
        direct = self.bus.waits_for.get(actor)
        if not direct:
            return self.call(actor, self.bus.running[actor].next)
        if direct in self.bus.running:
            return self.call(direct, self.bus.running[direct].next)
        instance, runnable, point = split_actor(direct)
        (event,) = self.plan.events_of[self.plan.serves[instance, runnable]]
        return self.start(direct, event, point)

    def try_slot(self, slot: Slot) -> bool:
        if slot.machine:
            phase = self.bus.phase(slot.machine)
            return isinstance(phase, str) and self.put(f"{'.'.join(slot.machine)} phase {phase}")
        return self.go_on(slot.running) if slot.running in self.bus.running else self.start_due(slot)

    def turn(self, core: Core) -> bool:
        for place in core.in_order():
            if self.try_slot(core.slots[place]):
                core.first = place + 1
                return True
        return False

    # ---- a run line

    def round(self) -> None:
        """Turns of the cores in the order of their numbers, until each has left or none of them makes an entry."""
        made, quiet = [0] * len(self.cores), [0] * len(self.cores)
        before = -1
        while before != len(self.lines):
            before = len(self.lines)
            for number, core in enumerate(self.cores):
                if made[number] < MOST_ENTRIES and quiet[number] < MOST_QUIET:
                    stepped = self.turn(core)
                    made[number] += stepped
                    quiet[number] = 0 if stepped else quiet[number] + 1

    def run_line(self) -> None:
        self.put("run")
        begun = len(self.lines)
        while True:
            self.round()
            if not sum([self.turn(core) for core in self.cores]):
                self.put("idle")
                return
            if len(self.lines) - begun >= ENOUGH:
                self.put("unsettled")
                return

    def line(self, text: str) -> None:
        """Carries out a line of the script."""
        verb, *words = text.split(" ")
        if verb == "run":
            self.run_line()
        elif verb == "tick":
            for _ in range(int(words[0])):
                self.put("env tick")
        elif verb == "switch":
            modes = self.plan.machines[ENVIRONMENT, words[0]].modes
            self.call(ENVIRONMENT, Wish("switch", words[0], (), modes.index(words[1])))
        else:
            value = tuple(map(int, words[1].split(","))) if words[1:] and words[1] != "-" else ()
            self.call(ENVIRONMENT, Wish(verb, words[0], value))

    def whole(self, script: str) -> str:
        """The trace of a whole run."""
        for _, text, _ in script_lines(script):
            self.line(text)
        return "\n".join(self.lines) + "\n"


def taken(value: dict[str, Any], script: str) -> str:
    """The trace of a whole run."""
    return Node(Layout(value)).whole(script)
