"""Hints to rules 25 to 30: mapped events, tasks that wait in a circle, and the size of a plan."""

from __future__ import annotations

from collections import Counter, deque
from dataclasses import dataclass
from typing import Iterator

from rte_tools.description import Component, Event
from rte_tools.hint_case import Case, Mend, Spot
from rte_tools.joins import End
from rte_tools.names import nearest

SERVER_EVENT = "OperationInvokedEvent"
CALLS = ("call", "acall", "result")
MOST_OBJECTS = MOST_EVENTS = 16_384
MOST_QUEUED = 65_536
MOST_POINTS = 262_144


def not_there(case: Case) -> Iterator[str]:
    """Rule 25: whether the instance or the event is missing."""
    mapped = case.node.plain()
    path = mapped["instance"]
    components = {node.path: node.type for node in case.description.instances()}
    held = components.get(path)
    without = path.partition("/")[2]
    if held is None and path.startswith(f"{case.description.root}/") and without in components:
        yield f"There is no instance `{path}`; the path has no root: `{without}`."
    elif held is None:
        yield f"There is no instance `{path}`{nearest(path, components)}."
    elif isinstance(held, Component):
        yield f"`{path}` has no event `{mapped['event']}`{nearest(mapped['event'], held.events)}."
        yield Mend("name an event of the instance.")


def mapped_wrongly(case: Case) -> Iterator[str]:
    """Rules 26 and 27: where the event, or each event of the runnable, is mapped."""
    instance, separator, name = case.place.partition(":" if ":" in case.place else ".")
    node = case.description.instance(instance)
    events = [name]
    if separator == ":" and node and isinstance(node.type, Component):
        events = [event.name for event in node.type.events.values() if event.runnable == name]
    found = [held for held in case.description.mapped if held.instance == instance and held.event in events]
    if not found:
        tasks = ", ".join(f"`{task}`" for task in case.description.tasks)
        yield "No mapped event names it. " + (f"The tasks are {tasks}." if tasks else "There is no task yet.")
        yield Mend("map the event; or take it, or the prototype, out.")
    for held in found:
        yield f"`{held.event}` is mapped to `{held.task}` at {case.line(held.place)}."
    if found and separator == ".":
        yield Mend("leave one of them.")


def not_in_its_caller(case: Case) -> Iterator[str]:
    """Rule 28: why the server may not run in the task of its caller."""
    path, _, name = case.place.rpartition(".")
    node = case.description.instance(path)
    event = node.type.events.get(name) if node and isinstance(node.type, Component) else None
    if not event:
        return
    runnable = node.type.runnables[event.runnable]
    calls = [access for access in runnable.accesses if access[0] in CALLS]
    has_outer = is_called_outside(case, path, event)
    yield f"`{name}` is not mapped, so `{runnable.name}` would run in the task of its caller."
    if not runnable.concurrent:
        yield f"`{runnable.name}` has no `canBeInvokedConcurrently`."
    for access in calls[:1]:
        yield f"`{runnable.name}` has the access `{access[0]}` to `{access[1]}`.`{access[2]}`."
    if has_outer:
        yield "The environment calls the operation, and it has no task."
    yield Mend("map the event to a task" + ("." if calls or has_outer else ", or let the runnable be invoked concurrently."))


def is_called_outside(case: Case, path: str, event: Event) -> bool:
    """Whether the environment calls the operation of a server."""
    group = case.joins.group(End(path, event.keys["port"], event.keys["operation"]))
    return bool(group and any(not end.instance for end in group.required))


def may_be_direct(case: Case, path: str, event: Event) -> bool:
    """Whether the server may run in the task of its caller, by rule 28."""
    node = case.description.instance(path)
    runnable = node.type.runnables[event.runnable]
    has_calls = any(access[0] in CALLS for access in runnable.accesses)
    return runnable.concurrent and not has_calls and not is_called_outside(case, path, event)


# ---- rule 29


@dataclass(frozen=True)
class Wait:
    """A task waits for another one, since a runnable in it calls a server that is mapped there."""

    task: str
    other: str
    caller: str  # INSTANCE:RUNNABLE
    called: str  # PORT.OPERATION
    server: str  # INSTANCE:RUNNABLE
    place: str  # of the server's mapped event
    may_be_direct: bool  # whether the server may run in its caller's task

    def text(self) -> str:
        calls = f"`{self.caller}` calls `{self.called}`, which `{self.server}` serves"
        return f"Task `{self.task}` waits for `{self.other}`: {calls}."


def waits(case: Case) -> Iterator[Wait]:
    """What each task waits for."""
    description = case.description
    mapped = {(held.instance, held.event): held for held in description.mapped}
    serving: dict[End, tuple[str, Event]] = {}
    for node in description.instances():
        for event in node.type.events.values():
            if event.kind == SERVER_EVENT:
                serving[End(node.path, event.keys["port"], event.keys["operation"])] = (node.path, event)
    for node in description.instances():
        for runnable in node.type.runnables.values():
            calls = [access for access in runnable.accesses if access[0] == "call"]
            events = [held.name for held in node.type.events.values() if calls and held.runnable == runnable.name]
            tasks = {mapped[node.path, name].task for name in events if (node.path, name) in mapped}
            for access in calls:
                group = case.joins.group(End(node.path, access[1], access[2]))
                path, event = serving.get(group.provided[0], ("", None)) if group and group.provided else ("", None)
                if event and (path, event.name) in mapped:
                    held = mapped[path, event.name]
                    for task in tasks:
                        caller, server = f"{node.path}:{runnable.name}", f"{path}:{event.runnable}"
                        is_direct = may_be_direct(case, path, event)
                        yield Wait(task, held.task, caller, f"{access[1]}.{access[2]}", server, held.place, is_direct)


def shortest_circle(edges: list[Wait]) -> list[Wait]:
    """A circle of the fewest tasks; none where there is no circle."""
    leading: dict[str, dict[str, Wait]] = {}
    for edge in edges:
        leading.setdefault(edge.task, {}).setdefault(edge.other, edge)
    best: list[Wait] = []
    for begin in leading:
        back: dict[str, Wait] = {}
        waiting = deque([begin])
        while waiting and begin not in back:
            for edge in leading.get(waiting.popleft(), {}).values():
                if edge.other not in back:
                    back[edge.other] = edge
                    waiting.append(edge.other)
        circle: list[Wait] = []
        task = begin
        while begin in back and (not circle or task != begin):
            circle.insert(0, back[task])
            task = back[task].task
        if circle and (not best or len(circle) < len(best)):
            best = circle
    return best


def circle(case: Case) -> Iterator[str]:
    """Rule 29: the circle of tasks, with the calls between them."""
    found = shortest_circle(list(waits(case)))
    if not found:
        return
    yield Spot(f"{found[0].place}/task")
    if len(found) == 1:
        edge = found[0]
        calls = f"`{edge.caller}` calls `{edge.called}`, which `{edge.server}` serves in the same task"
        yield f"Task `{edge.task}` waits for itself: {calls}."
        none = ", or to none" if edge.may_be_direct else ""
        yield Mend(f"map the server to another task than `{edge.task}`{none}; or call by `acall`.")
        return
    for edge in found:
        yield edge.text()
    none = ", or to none" if any(edge.may_be_direct for edge in found) else ""
    yield Mend(f"map one of these servers to another task{none}; or call by `acall`.")


# ---- rule 30


def too_many(case: Case) -> Iterator[str]:
    """Rule 30: what there is too much of, and which component has most of it."""
    instances = Counter(node.type.name for node in case.description.instances())
    for what, most, counts in (
        ("events of instances", MOST_EVENTS, events_of(case)),
        ("points at which operations are called", MOST_POINTS, points_of(case)),
        ("places of queues", MOST_QUEUED, places_of(case)),
    ):
        numbers = {name: number * instances.get(name, 1) for name, number in counts.items()}
        total = sum(numbers.values())
        if total > most:
            name = max(numbers, key=lambda held: numbers[held])
            yield f"There are {total:,} {what}, and at most {most:,} may be there."
            yield f"`{name}` has {counts[name]:,} of them, {instances.get(name, 1):,} times."
            return
    yield f"There are more than {MOST_OBJECTS:,} groups of elements, variables, servers, areas and mode machines together."


def events_of(case: Case) -> dict[str, int]:
    """By component, how many events an instance has."""
    return {held.name: len(held.events) for held in case.description.components.values()}


def points_of(case: Case) -> dict[str, int]:
    """By component, how many accesses `call` and `acall` an instance has; and the environment's operations."""
    counts = {
        held.name: sum(access[0] in ("call", "acall") for one in held.runnables.values() for access in one.accesses)
        for held in case.description.components.values()
    }
    root = case.description.compositions[case.description.root]
    ports = [port for port in root.ports.values() if port.provides]
    counts[root.name] = sum(item.kind == "operation" for port in ports for item in case.description.items(port).values())
    return counts


def places_of(case: Case) -> dict[str, int]:
    """By component, and of the root for the environment, how long all its queues are."""
    counts = {}
    root = case.description.compositions[case.description.root]
    for held in [*case.description.components.values(), root]:
        counts[held.name] = 0
        for port in held.ports.values():
            is_provided = port.provides == isinstance(held, Component)
            for item in case.description.items(port).values():
                is_queue = item.queued and not is_provided or item.kind == "mode" and is_provided
                if is_queue or item.kind == "operation" and is_provided and held is not root:
                    counts[held.name] += port.said_of(item.name, "queueLength", 1)
    return counts
