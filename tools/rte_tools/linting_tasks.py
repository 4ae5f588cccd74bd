"""What tasks, modes and queues make of a description: events that never start, values that stay, updates that are lost."""

from __future__ import annotations

from collections import Counter
from dataclasses import dataclass
from typing import Iterator

from rte_tools.description import Component, Description, Event, Instance, Runnable
from rte_tools.finding import Finding
from rte_tools.joins import End, Joins
from rte_tools.linting_programs import SERVER_EVENT
from rte_tools.programs import PARTS, statements

READS, WRITES = ("irvRead", "irvIRead"), ("irvWrite", "irvIWrite")
DATA_EVENT = "DataReceivedEvent"


def task_findings(description: Description) -> Iterator[Finding]:
    """The findings of this page."""
    yield from always_disabled(description)
    yield from values_that_stay(description)
    yield from lost_updates(description)


# ---- modes


def always_disabled(description: Description) -> Iterator[Finding]:
    """Events that are disabled in every mode."""
    for component in description.components.values():
        for event in component.events.values():
            disabled = event.keys.get("disabledInModes")
            port = component.ports.get(disabled["port"]) if disabled else None
            item = next(iter(description.items(port).values()), None) if port else None
            group = description.mode_groups.get(item.type) if item and item.kind == "mode" else None
            if group and set(group.modes) <= set(disabled.get("modes", [])):
                text = f"the event `{event.name}` is disabled in every mode of `{group.name}`"
                comes = f"so it never lets `{event.runnable}` run: leave a mode out, or take the event out"
                yield Finding(f"{event.place}/disabledInModes", f"{text}, {comes}")


# ---- queues


def most_receives(program: list, name: tuple[str, str]) -> int:
    """How many values of a queue a list of statements takes at most."""
    total = 0
    for statement in program:
        keyword = statement[0]
        if keyword == "receive":
            total += (statement[1], statement[2]) == name
        elif keyword == "repeat":
            total += statement[1] * most_receives(statement[2], name)
        elif keyword == "if":
            total += max(most_receives(statement[2], name), most_receives(statement[3], name))
        elif keyword == "area":
            total += most_receives(statement[2], name)
    return total


def values_that_stay(description: Description) -> Iterator[Finding]:
    """Queues that hold more than an activation takes, where only further values start one."""
    for component in description.components.values():
        starts = Counter(event.runnable for event in component.events.values())
        takers: dict[tuple[str, ...], list[Runnable]] = {}
        for runnable in component.runnables.values():
            for access in runnable.accesses:
                if access[0] == "receive":
                    takers.setdefault(access[1:], []).append(runnable)
        for event in component.events.values():
            if event.kind == DATA_EVENT and starts[event.runnable] == 1:
                name = (event.keys["port"], event.keys["element"])
                port = component.ports.get(name[0])
                length = port.said_of(name[1], "queueLength", 1) if port else 1
                if [held.name for held in takers.get(name, [])] == [event.runnable]:
                    yield from stays(takers[name][0], name, length)


def stays(runnable: Runnable, name: tuple[str, str], length: int) -> Iterator[Finding]:
    """The same, of the queue that starts a runnable."""
    if length > 1 and most_receives(runnable.program, name) == 1:
        queue = f"the queue of `{name[0]}`.`{name[1]}`, which holds {length}"
        text = f"`{runnable.name}` takes one value at each start from {queue}"
        rest = "a pending start is a flag, so several values may start it once, and the others stay"
        all_statements = statements(runnable.program, f"{runnable.place}/program")
        place = next(at for at, held in all_statements if held[:3] == ["receive", *name])
        yield Finding(place, f"{text}; {rest}: receive in a `repeat`")


# ---- inter-runnable variables


@dataclass(frozen=True)
class Touch:
    """How a runnable reads and writes an inter-runnable variable."""

    runnable: str
    place: str  # of its first access
    updates: bool  # whether it reads the variable and writes it
    whole: frozenset[str]  # the areas in one entry of which it makes all of its accesses
    writes: frozenset[str] | None  # the areas in which it makes each of its writes; none if it writes nothing


def touches(component: Component) -> dict[str, list[Touch]]:
    """By variable, how the runnables of a component touch it."""
    found: dict[str, list[Touch]] = {}
    for runnable in component.runnables.values() if component.variables else []:
        met: dict[str, list[tuple[str, str, tuple]]] = {}
        for keyword, variable, at, areas in with_areas(runnable.program, f"{runnable.place}/program", ()):
            met.setdefault(variable, []).append((keyword, at, areas))
        for variable, accesses in met.items():
            found.setdefault(variable, []).append(touch_of(runnable, accesses))
    return found


def touch_of(runnable: Runnable, met: list[tuple[str, str, tuple]]) -> Touch:
    """How one runnable touches one variable. What is implicit is fetched before and published after any area."""
    held = [(keyword, () if keyword in ("irvIRead", "irvIWrite") else areas) for keyword, _, areas in met]
    writes = [frozenset(name for _, name in areas) for keyword, areas in held if keyword in WRITES]
    entries = frozenset.intersection(*(frozenset(areas) for _, areas in held))
    return Touch(
        runnable.name,
        met[0][1],
        bool(writes) and any(keyword in READS for keyword, _ in held),
        frozenset(name for _, name in entries),
        frozenset.intersection(*writes) if writes else None,
    )


def with_areas(program: list, place: str, around: tuple) -> Iterator[tuple[str, str, str, tuple]]:
    """Accesses to inter-runnable variables: the keyword, the variable, the place, and the areas around with their places."""
    for number, statement in enumerate(program):
        at = f"{place}/{number}"
        if statement[0] in READS + WRITES:
            yield statement[0], statement[1], at, around
        inner = (*around, (at, statement[1])) if statement[0] == "area" else around
        for part, kind in enumerate(PARTS[statement[0]], 1):
            if kind == "body":
                yield from with_areas(statement[part], f"{at}/{part}", inner)


def lost_updates(description: Description) -> Iterator[Finding]:
    """Variables that a runnable reads and writes while another task may write them."""
    updated = {
        component.name: {name: held for name, held in touches(component).items() if any(one.updates for one in held)}
        for component in description.components.values()
    }
    instances = [node for node in description.instances() if updated[node.type.name]]
    tasks = Tasks(description) if instances else None
    told = set()
    for node in instances:
        for variable, held in updated[node.type.name].items():
            if tasks and (node.type.name, variable) not in told:
                for finding in in_two_tasks(tasks, node, variable, held):
                    told.add((node.type.name, variable))
                    yield finding
                    break


def in_two_tasks(tasks: Tasks, node: Instance, variable: str, held: list[Touch]) -> Iterator[Finding]:
    """An update and a write that may come between its read and its write."""
    held = [one for one in held if one.writes is not None]
    if len(set().union(*(tasks.of(node, one.runnable) for one in held))) < 2:
        return
    for update in held:
        for other in held:
            if not update.updates or update.whole & other.writes:
                continue
            one, two = tasks.of(node, update.runnable), tasks.of(node, other.runnable)
            pair = next(((task, its) for task in sorted(one) for its in sorted(two) if task != its), None)
            if pair:
                who = f"`{update.runnable}` reads and writes the variable `{variable}`"
                also = f"`{other.runnable}` writes it in another task (`{pair[0]}`, `{pair[1]}`)"
                if other == update:
                    also = f"it may run in the tasks `{pair[0]}` and `{pair[1]}` at once"
                text = f"{who}, and {also}, outside of a common area, so a write may be lost"
                yield Finding(update.place, f"{text}: put the accesses of each into one `area`, explicit ones")


class Tasks:
    """In which tasks runnables run. A server that is not mapped runs in those of its callers."""

    def __init__(self, description: Description):
        self.description = description
        self.joins = Joins(description)
        self.mapped = {(held.instance, held.event): held.task for held in description.mapped}
        self.nodes = {node.path: node for node in description.instances()}
        self.events: dict[tuple[str, str], list[Event]] = {}  # by component and runnable
        for component in description.components.values():
            for event in component.events.values():
                self.events.setdefault((component.name, event.runnable), []).append(event)

    def of(self, node: Instance, runnable: str) -> set[str]:
        found = set()
        for event in self.events.get((node.type.name, runnable), []):
            task = self.mapped.get((node.path, event.name))
            if task:
                found.add(task)
            elif event.kind == SERVER_EVENT:
                found |= self.of_callers(node, event)
        return found

    def of_callers(self, node: Instance, event: Event) -> set[str]:
        """The tasks of the runnables that call the operation of an event. By rule 28 these are mapped."""
        group = self.joins.group(End(node.path, event.keys["port"], event.keys["operation"]))
        found = set()
        for end in group.required if group else []:
            caller = self.nodes.get(end.instance)
            for held in caller.type.runnables.values() if caller else []:
                if {("call", end.port, end.item), ("acall", end.port, end.item)} & {*held.accesses}:
                    names = [one.name for one in self.events.get((caller.type.name, held.name), [])]
                    found |= {self.mapped[caller.path, name] for name in names if (caller.path, name) in self.mapped}
        return found
