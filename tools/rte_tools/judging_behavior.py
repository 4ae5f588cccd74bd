"""Rules 16 to 29: accesses, programs, events and their mapping. Each function gives the places at which its rule is broken."""

from __future__ import annotations

from typing import Any, Iterator

from rte_tools.description import Component
from rte_tools.joins import End
from rte_tools.judged import Judged, unless
from rte_tools.programs import PARTS, needed_access, statements, use_of

MOST_COST, MOST_VARIABLES = 100_000, 256
ASKING = ("call", "acall", "result")
# By event: the kind of the item, and whether the port provides.
EVENTS = {
    "DataReceivedEvent": ("data", False),
    "OperationInvokedEvent": ("operation", True),
    "AsynchronousServerCallReturnsEvent": ("operation", False),
    "SwcModeSwitchEvent": ("mode", False),
    "ModeSwitchedAckEvent": ("mode", True),
}
DISABLED = ("TimingEvent", "InitEvent", "DataReceivedEvent", "AsynchronousServerCallReturnsEvent")
# By access: the kind of the item, whether it is queued, and whether the port provides.
FITTING = {
    "write": ("data", False, True),
    "invalidate": ("data", False, True),
    "iwrite": ("data", False, True),
    "read": ("data", False, False),
    "isUpdated": ("data", False, False),
    "iread": ("data", False, False),
    "send": ("data", True, True),
    "receive": ("data", True, False),
    "call": ("operation", False, False),
    "acall": ("operation", False, False),
    "result": ("operation", False, False),
    "switch": ("mode", False, True),
    "mode": ("mode", False, False),
}


# ---- rules 16 and 17: accesses


def fitting_accesses(judged: Judged) -> Iterator[str]:
    for place, runnable, component in judged.runnables():
        for at, access in judged.objects("accesses", runnable, place):
            yield from unless(fits(judged, access, component), at)


def fits(judged: Judged, access: list, component: Component) -> bool:
    if access[0] not in FITTING:
        return True
    kind, queued, provides = FITTING[access[0]]
    port = component.ports[access[1]]
    items = judged.description.items(port)
    held = [items[access[2]]] if len(access) > 2 else list(items.values())
    return port.provides == provides and all((item.kind, item.queued) == (kind, queued) for item in held)


def fitting_statements(judged: Judged) -> Iterator[str]:
    """Each statement has its access, as many words as it needs, and a mode of the group."""
    for place, runnable, component in judged.runnables():
        declared = {tuple(access) for access in runnable.get("accesses", [])}
        for at, statement in statements(runnable.get("program", []), f"{place}/program"):
            access = needed_access(statement)
            if access is not None:
                yield from unless(access in declared and has_parts(judged, statement, component), at)


def has_parts(judged: Judged, statement: list, component: Component) -> bool:
    if statement[0] == "switch":
        (item,) = judged.description.items(component.ports[statement[1]]).values()
        return statement[2] in judged.description.mode_groups[item.type].modes
    given, taken = counts(judged, statement, component)
    for part, kind in zip(statement[1:], PARTS[statement[0]]):
        if kind in ("values", "takes") and len(part) != (given if kind == "values" else taken):
            return False
    return True


def counts(judged: Judged, statement: list, component: Component) -> tuple[int, int]:
    """How many expressions and how many variables a statement has: the words of its type, or the arguments of its operation."""
    if statement[0].startswith("irv"):
        words = judged.description.types[component.variables[statement[1]].of].words
        return words, words
    if statement[0] not in FITTING or statement[0] == "mode":
        return 0, 0
    port = component.ports[statement[1]]
    if statement[0] not in ASKING:
        words = judged.description.types[judged.description.items(port)[statement[2]].type].words
        return words, words
    directions = judged.directions[port.interface, statement[2]]
    return directions.count("in"), directions.count("out")


# ---- rules 18 to 20: programs


def not_too_costly(judged: Judged) -> Iterator[str]:
    for place, runnable, component in judged.runnables():
        program = runnable.get("program", [])
        use = use_of(program, "")
        variables = {*use.reads, *use.sets, *served_names(judged, runnable, component)}
        yield from unless(cost(program) <= MOST_COST and len(variables) <= MOST_VARIABLES, f"{place}/program")


def served_names(judged: Judged, runnable: dict, component: Component) -> list[str]:
    """The arguments of the operation that a runnable serves, and `error`."""
    for event in component.events.values():
        if event.kind == "OperationInvokedEvent" and event.runnable == runnable["shortName"]:
            item = judged.description.items(component.ports[event.keys["port"]])[event.keys["operation"]]
            return [*item.arguments, "error"]
    return []


def cost(program: list) -> int:
    """What a list of statements costs, by docs/FORMAT.md, Cost."""
    whole = 0
    for statement in program:
        parts = list(zip(statement[1:], PARTS[statement[0]]))
        own = sum(operators(part) for part, kind in parts if kind == "value")
        own += sum(operators(held) for part, kind in parts if kind == "values" for held in part)
        below = sum(cost(part) for part, kind in parts if kind == "body")
        times = statement[1] if statement[0] == "repeat" else 1
        whole += 1 + own + (statement[0] == "area") + times * below
    return whole


def operators(expression: Any) -> int:
    return 1 + operators(expression[1]) + operators(expression[2]) if isinstance(expression, list) else 0


def areas_in_order(judged: Judged) -> Iterator[str]:
    for place, runnable, component in judged.runnables():
        order = list(component.areas)
        for at, statement, areas in within_areas(runnable.get("program", []), f"{place}/program", ()):
            if statement[0] == "area":
                yield from unless(all(order.index(area) < order.index(statement[1]) for area in areas), at)


def no_calls_in_areas(judged: Judged) -> Iterator[str]:
    for place, runnable, _ in judged.runnables():
        for at, statement, areas in within_areas(runnable.get("program", []), f"{place}/program", ()):
            yield from unless(statement[0] not in ("call", "acall") or not areas, at)


def within_areas(program: list, place: str, areas: tuple[str, ...]) -> Iterator[tuple[str, list, tuple[str, ...]]]:
    """All statements with their places and the areas in which they stand."""
    for number, statement in enumerate(program):
        at = f"{place}/{number}"
        yield at, statement, areas
        inner = (*areas, statement[1]) if statement[0] == "area" else areas
        for part, kind in enumerate(PARTS[statement[0]], 1):
            if kind == "body":
                yield from within_areas(statement[part], f"{at}/{part}", inner)


# ---- rules 21 to 24: events


def fitting_events(judged: Judged) -> Iterator[str]:
    for place, behavior, component in judged.behaviors():
        for at, event in judged.objects("events", behavior, place):
            yield from unless(event_fits(judged, event, component), at)


def event_fits(judged: Judged, event: dict, component: Component) -> bool:
    if event["kind"] not in EVENTS:
        return True
    kind, provides = EVENTS[event["kind"]]
    port = component.ports[event["port"]]
    items = judged.description.items(port)
    item = items[event.get("element") or event["operation"]] if kind != "mode" else next(iter(items.values()), None)
    if port.provides != provides or item is None or item.kind != kind:
        return False
    return kind != "mode" or set(event.get("modes", [])) <= set(judged.description.mode_groups[item.type].modes)


def served_once(judged: Judged) -> Iterator[str]:
    for place, behavior, component in judged.behaviors():
        events = behavior.get("events", [])
        invoked = [(held["port"], held["operation"]) for held in events if held["kind"] == "OperationInvokedEvent"]
        for port in component.ports.values():
            operations = [item for item in judged.description.items(port).values() if item.kind == "operation"]
            is_served = all(invoked.count((port.name, item.name)) == 1 for item in operations)
            yield from unless(not port.provides or is_served, port.place)
        started = [held["runnable"] for held in events]
        for at, event in judged.objects("events", behavior, place):
            yield from unless(event["kind"] != "OperationInvokedEvent" or started.count(event["runnable"]) == 1, at)


def asynchronous_alone(judged: Judged) -> Iterator[str]:
    for place, behavior, _ in judged.behaviors():
        runnables = list(judged.objects("runnables", behavior, place))
        accesses = [access for _, held in runnables for access in held.get("accesses", [])]
        called = [tuple(access[1:]) for access in accesses if access[0] in ("call", "acall")]
        left = {tuple(access[1:]) for access in accesses if access[0] == "acall"}
        for below, runnable in runnables:
            for at, access in judged.objects("accesses", runnable, below):
                yield from unless(access[0] != "acall" or called.count(tuple(access[1:])) == 1, at)
                yield from unless(access[0] != "result" or tuple(access[1:]) in left, at)
        for at, event in judged.objects("events", behavior, place):
            is_return = event["kind"] == "AsynchronousServerCallReturnsEvent"
            yield from unless(not is_return or (event["port"], event["operation"]) in left, at)


def fitting_disabling(judged: Judged) -> Iterator[str]:
    for place, behavior, component in judged.behaviors():
        for at, event in judged.objects("events", behavior, place):
            disabled = event.get("disabledInModes")
            mode_switch = {**disabled, "kind": "SwcModeSwitchEvent"} if disabled else {}
            is_fit = not disabled or (event["kind"] in DISABLED and event_fits(judged, mode_switch, component))
            yield from unless(is_fit, at)


# ---- rules 25 to 29: the mapping


def mapped_events_are_there(judged: Judged) -> Iterator[str]:
    events = {(node.path, name) for node in judged.description.instances() for name in node.type.events}
    for held in judged.description.mapped:
        yield from unless((held.instance, held.event) in events, held.place)


def mapped_once(judged: Judged) -> Iterator[str]:
    counts: dict[tuple[str, str], int] = {}
    for held in judged.description.mapped:
        counts[held.instance, held.event] = counts.get((held.instance, held.event), 0) + 1
    for node in judged.description.instances():
        for name, event in node.type.events.items():
            count = counts.get((node.path, name), 0)
            yield from unless(count == 1 or (not count and event.kind == "OperationInvokedEvent"), f"{node.path}.{name}")


def in_one_task(judged: Judged) -> Iterator[str]:
    tasks = {(held.instance, held.event): held.task for held in judged.description.mapped}
    for node in judged.description.instances():
        found: dict[str, set[str]] = {}
        for name, event in node.type.events.items():
            if (node.path, name) in tasks:
                found.setdefault(event.runnable, set()).add(tasks[node.path, name])
        for runnable in node.type.runnables:
            yield from unless(len(found.get(runnable, ())) < 2, f"{node.path}:{runnable}")


def direct_servers(judged: Judged) -> Iterator[str]:
    """Servers that are not mapped run in the tasks of their callers."""
    mapped = {(held.instance, held.event) for held in judged.description.mapped}
    concurrent = {
        (component.name, runnable["shortName"]): runnable.get("canBeInvokedConcurrently", False)
        for _, runnable, component in judged.runnables()
    }
    for node in judged.description.instances():
        for name, event in node.type.events.items():
            if event.kind == "OperationInvokedEvent" and (node.path, name) not in mapped:
                asks = any(access[0] in ASKING for access in node.type.runnables[event.runnable].accesses)
                group = judged.joins.group(End(node.path, event.keys["port"], event.keys["operation"]))
                is_outer = any(not end.instance for end in group.required)
                may = concurrent[node.type.name, event.runnable] and not asks and not is_outer
                yield from unless(may, f"{node.path}.{name}")


def no_waiting_in_circles(judged: Judged) -> Iterator[str]:
    edges = waits(judged)
    for task in edges:
        seen: set[str] = set()
        waiting = set(edges[task])
        while waiting:
            held = waiting.pop()
            seen.add(held)
            waiting |= edges.get(held, set()) - seen
        if task in seen:
            yield "/mapping"
            return


def waits(judged: Judged) -> dict[str, set[str]]:
    """From each task, the tasks of the mapped servers that runnables in it call and wait for."""
    tasks = {(held.instance, held.event): held.task for held in judged.description.mapped}
    servers: dict[End, str] = {}
    callers: list[tuple[str, End]] = []
    for node in judged.description.instances():
        for name, event in node.type.events.items():
            task = tasks.get((node.path, name))
            if task and event.kind == "OperationInvokedEvent":
                servers[End(node.path, event.keys["port"], event.keys["operation"])] = task
            for access in node.type.runnables[event.runnable].accesses if task else ():
                if access[0] == "call":
                    callers.append((task, End(node.path, access[1], access[2])))
    edges: dict[str, set[str]] = {}
    for task, end in callers:
        edges.setdefault(task, set()).update(servers[held] for held in judged.joins.group(end).provided if held in servers)
    return edges
