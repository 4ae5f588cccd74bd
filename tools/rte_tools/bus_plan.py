"""What a description gives the bus: elements, servers, points, machines and events, by the names that a trace has for them.

The description breaks no rule. A name is the instance, which for the environment is `env`, and what stands after it in a trace.
"""

from __future__ import annotations

from dataclasses import dataclass, field
from functools import cached_property
from typing import Any, Callable, Hashable, Iterable, TypeVar

from rte_tools.description import Component, Description, described
from rte_tools.joins import End, Joins

ENVIRONMENT = "env"
Name = tuple[str, str]  # the instance, and `PORT.ITEM` or the name of a variable, an area, a runnable or an event
Key = TypeVar("Key", bound=Hashable)


@dataclass
class Element:
    """A data element at a port, or an inter-runnable variable."""

    kind: str  # "unqueued", "queued" or "variable"
    provided: bool
    limits: tuple[int, int]
    words: int
    init: tuple[int, ...]
    never_received: bool = False
    length: int = 1
    joined: bool = False
    group: Name = ("", "")


@dataclass(frozen=True)
class Server:
    """An operation of a component. A direct server has no queue."""

    operation: dict
    queue: int | None


@dataclass(frozen=True)
class Point:
    """A runnable, or the environment, with an operation that it calls."""

    owner: str
    runnable: str
    name: str  # `PORT.OPERATION`
    server: Name | None


@dataclass
class Machine:
    modes: list[str]
    initial: int
    queue: int
    waits: bool = False  # between Close and Exit, for what it disables


@dataclass(frozen=True)
class BusEvent:
    """An event of an instance; `of` is the element, server, point or machine that it is about, or the period."""

    kind: str
    runnable: str
    mapped: bool
    of: Any = None
    moment: tuple = ()  # of a SwcModeSwitchEvent: `onEntry`, `onExit` or `onTransition`, and the modes
    disabled: tuple[Name, tuple[int, ...]] | None = None  # the machine, and the modes in which the event is disabled


@dataclass(frozen=True)
class CoherentList:
    """Elements of an instance that a runnable fetches at one moment, or publishes at one."""

    elements: tuple[str, ...]  # `PORT.ELEMENT`
    reads: bool


@dataclass
class BusPlan:
    elements: dict[Name, Element] = field(default_factory=dict)
    servers: dict[Name, Server] = field(default_factory=dict)
    points: dict[str, Point] = field(default_factory=dict)
    results: dict[Name, str] = field(default_factory=dict)  # the point whose result `PORT.OPERATION` of an instance takes
    machines: dict[Name, Machine] = field(default_factory=dict)
    mode_ports: dict[Name, Name] = field(default_factory=dict)  # with the machine
    areas: set[Name] = field(default_factory=set)
    runnables: dict[Name, dict] = field(default_factory=dict)
    lists: dict[Name, list[CoherentList]] = field(default_factory=dict)  # of each runnable, in declared order
    serves: dict[Name, Name] = field(default_factory=dict)  # the operation that a runnable serves
    events: dict[Name, BusEvent] = field(default_factory=dict)
    operations: dict[Name, dict] = field(default_factory=dict)
    types: dict[str, dict] = field(default_factory=dict)

    # ---- the same by other keys, made at the first use: a long run looks at few of many

    @cached_property
    def in_group(self) -> dict[Name, list[Name]]:
        """The elements of each group."""
        return gathered(self.elements, lambda name: self.elements[name].group)

    @cached_property
    def events_of(self) -> dict[Any, list[Name]]:
        """The events that are about each element, server, point, machine or period."""
        return gathered(self.events, lambda name: self.events[name].of)

    @cached_property
    def periods(self) -> list[int]:
        return sorted({event.of for event in self.events.values() if event.kind == "TimingEvent"})

    @cached_property
    def servants(self) -> dict[Name, Name]:
        """The runnable that serves each operation."""
        return {operation: runnable for runnable, operation in self.serves.items()}

    @cached_property
    def bundles(self) -> list[list[Name]]:
        """The groups that coherent lists connect, each bundle and all of them in the order of the elements."""
        leaders: dict[Name, Name] = {group: group for group in self.in_group}
        for (instance, _), lists in self.lists.items():
            for held in lists:
                groups = [self.elements[instance, element].group for element in held.elements]
                for group in groups[1:]:
                    leaders[leader_of(leaders, group)] = leader_of(leaders, groups[0])
        return list(gathered(leaders, lambda group: leader_of(leaders, group)).values())

    def list_of(self, actor: str, position: str) -> CoherentList:
        """The list of the runnable that an activation is of. Raises a LookupError where there is none."""
        instance, _, runnable = actor.partition("@")[0].partition(":")
        return dict(enumerate(self.lists[instance, runnable]))[int(position)]

    def words_of(self, actor: str) -> Callable[[str], int]:
        """How many words an element of the actor's instance has."""
        instance = actor.partition("@")[0].partition(":")[0]
        return lambda element: self.elements[instance, element].words

    def limits(self, name: Name, direction: str) -> list[tuple[int, int]]:
        """The limits of the `in` or the `out` arguments of an operation."""
        return [limits_of(self.types[held["type"]]) for held in arguments(self.operations[name], direction)]


def leader_of(leaders: dict[Name, Name], group: Name) -> Name:
    """The group that stands for all that are connected with this one."""
    way = []
    while leaders[group] != group:
        way.append(group)
        group = leaders[group]
    for passed in way:
        leaders[passed] = group
    return group


def gathered(names: Iterable[Name], key: Callable[[Name], Key]) -> dict[Key, list[Name]]:
    found: dict[Key, list[Name]] = {}
    for name in names:
        found.setdefault(key(name), []).append(name)
    return found


def arguments(operation: dict, direction: str) -> list[dict]:
    return [held for held in operation.get("arguments", []) if held["direction"] == direction]


def limits_of(data_type: dict) -> tuple[int, int]:
    return data_type["lower"], data_type["upper"]


def plan_of(value: dict) -> BusPlan:
    """The plan of a description, which is given as the value of its JSON."""
    return Maker(value).plan


class Maker:
    """Makes the plan: the ports, what they are joined to, then the behaviour of each instance."""

    def __init__(self, value: dict):
        self.value = value
        self.plan = BusPlan(types=by_name(value, "dataTypes"))
        self.interfaces, self.groups = by_name(value, "interfaces"), by_name(value, "modeGroups")
        self.description: Description = described(value)
        self.joins = Joins(self.description)
        self.tasks = {(held.instance, held.event) for held in self.description.mapped}
        self.asynchronous: dict[Name, list[bool]] = {}
        instances = [
            (node.path, by_name(value, "components")[node.type.name])
            for node in self.description.nodes
            if isinstance(node.type, Component)
        ]
        root = by_name(value, "compositions")[value["root"]]
        self.specs: dict[tuple[str, str, str], dict] = {}
        for path, component in [*instances, (ENVIRONMENT, root)]:
            for port in component.get("ports", []):
                self.port(path, port, (port["kind"] == "PPortPrototype") != (path == ENVIRONMENT))
        for machine, said in self.asynchronous.items():
            self.plan.machines[machine].waits = not all(said)
        for path, component in instances:
            self.behavior(path, component.get("behavior", {}))
        self.events(instances)
        self.outer_points(root)

    def spec(self, path: str, port: str, item: str) -> dict:
        return self.specs.get((path, port, item), {})

    def provider(self, path: str, port: str, item: str) -> Name | None:
        """Who provides what is required here, if it is joined."""
        end = End("" if path == ENVIRONMENT else path, port, item)
        group = self.joins.group(end)
        return named(group.provided[0]) if group and group.provided else None

    def port(self, path: str, port: dict, provided: bool) -> None:
        interface, name = self.interfaces[port["interface"]], port["shortName"]
        for spec in port.get("comSpecs", []):
            self.specs[path, name, spec["element"]] = spec
        for element in interface.get("dataElements", []):
            self.element(path, name, element, provided)
        for operation in interface.get("operations", []):
            self.plan.operations[path, f"{name}.{operation['shortName']}"] = operation
        if "modeGroup" in interface:
            self.mode_element(path, name, interface["modeGroup"], provided)

    def element(self, path: str, port: str, element: dict, provided: bool) -> None:
        spec = self.spec(path, port, element["shortName"])
        group = self.joins.group(End("" if path == ENVIRONMENT else path, port, element["shortName"]))
        made = self.stored(element, spec, "queued" if element["swImplPolicy"] == "queued" else "unqueued", provided)
        made.joined = bool(group and group.provided and group.required)
        made.group = named((group.provided + group.required)[0])
        self.plan.elements[path, f"{port}.{element['shortName']}"] = made

    def stored(self, held: dict, spec: dict, kind: str, provided: bool) -> Element:
        data_type = self.plan.types[held["type"]]
        low, high = limits_of(data_type)
        init = spec.get("initValue", [max(low, min(high, 0))] * data_type["words"])
        never, length = spec.get("handleNeverReceived", False), spec.get("queueLength", 1)
        return Element(kind, provided, (low, high), data_type["words"], tuple(init), never, length)

    def mode_element(self, path: str, port: str, element: dict, provided: bool) -> None:
        name, spec = (path, f"{port}.{element['shortName']}"), self.spec(path, port, element["shortName"])
        if provided:
            group = self.groups[element["type"]]
            initial = group["modes"].index(group["initialMode"])
            self.plan.machines[name] = Machine(group["modes"], initial, spec.get("queueLength", 1), True)
            return
        machine = self.provider(path, port, element["shortName"])
        if machine:
            self.plan.mode_ports[name] = machine
            if path != ENVIRONMENT:
                waits_not = spec.get("supportsAsynchronousModeSwitch", False)
                self.asynchronous.setdefault(machine, []).append(waits_not)

    def behavior(self, path: str, behavior: dict) -> None:
        for variable in behavior.get("variables", []):
            made = self.stored(variable, variable, "variable", False)
            made.group = (path, variable["shortName"])
            self.plan.elements[path, variable["shortName"]] = made
        self.plan.areas |= {(path, area) for area in behavior.get("exclusiveAreas", [])}
        for runnable in behavior.get("runnables", []):
            self.plan.runnables[path, runnable["shortName"]] = runnable
            self.plan.lists[path, runnable["shortName"]] = [coherent_list(runnable, held) for held in runnable.get("coherent", [])]
            for access in runnable.get("accesses", []):
                if access[0] in ("call", "acall"):
                    self.point(path, runnable["shortName"], access)

    def point(self, path: str, runnable: str, access: list) -> None:
        item = f"{access[1]}.{access[2]}"
        point = f"{path}:{runnable}.{item}"
        self.plan.points[point] = Point(path, runnable, item, self.provider(path, access[1], access[2]))
        if access[0] == "acall":
            self.plan.results[path, item] = point

    def outer_points(self, root: dict) -> None:
        """The environment has a point for each operation of the root's P-ports."""
        for port in root.get("ports", []):
            if port["kind"] != "PPortPrototype":
                continue
            for operation in self.interfaces[port["interface"]].get("operations", []):
                item = f"{port['shortName']}.{operation['shortName']}"
                server = self.provider(ENVIRONMENT, port["shortName"], operation["shortName"])
                self.plan.points[f"{ENVIRONMENT}.{item}"] = Point(ENVIRONMENT, "", item, server)
                self.plan.results[ENVIRONMENT, item] = f"{ENVIRONMENT}.{item}"

    def events(self, instances: list[tuple[str, dict]]) -> None:
        for path, component in instances:
            for event in component.get("behavior", {}).get("events", []):
                self.plan.events[path, event["shortName"]] = self.event(path, event)

    def event(self, path: str, event: dict) -> BusEvent:
        kind, is_mapped = event["kind"], (path, event["shortName"]) in self.tasks
        disabled = event.get("disabledInModes")
        machine = self.machine_of(path, event["port"]) if "Mode" in kind else None
        of, moment = event.get("period"), ()
        if kind == "DataReceivedEvent":
            of = (path, f"{event['port']}.{event['element']}")
        elif kind == "OperationInvokedEvent":
            of = self.server(path, event, is_mapped)
        elif kind == "AsynchronousServerCallReturnsEvent":
            of = self.plan.results[path, f"{event['port']}.{event['operation']}"]
        elif machine:
            of = machine
            moment = (event.get("activation"), *self.numbers(machine, event.get("modes", [])))
        if disabled:
            by = self.machine_of(path, disabled["port"])
            return BusEvent(kind, event["runnable"], is_mapped, of, moment, (by, self.numbers(by, disabled.get("modes", []))))
        return BusEvent(kind, event["runnable"], is_mapped, of, moment)

    def server(self, path: str, event: dict, is_mapped: bool) -> Name:
        name = (path, f"{event['port']}.{event['operation']}")
        length = self.spec(path, event["port"], event["operation"]).get("queueLength", 1)
        self.plan.servers[name] = Server(self.plan.operations[name], length if is_mapped else None)
        self.plan.serves[path, event["runnable"]] = name
        return name

    def machine_of(self, path: str, port: str) -> Name:
        """The machine of a port with modes, on either side."""
        return next(
            machine
            for name, machine in [*self.plan.mode_ports.items(), *((held, held) for held in self.plan.machines)]
            if name[0] == path and name[1].startswith(f"{port}.")
        )

    def numbers(self, machine: Name, modes: list[str]) -> tuple[int, ...]:
        return tuple(self.plan.machines[machine].modes.index(mode) for mode in modes)


def coherent_list(runnable: dict, pairs: list[list[str]]) -> CoherentList:
    """A list of a runnable. It is one of reads or of writes, as the access of its first element says."""
    accesses = [tuple(access) for access in runnable.get("accesses", [])]
    return CoherentList(tuple(".".join(pair) for pair in pairs), any(("iread", *pair) in accesses for pair in pairs[:1]))


def by_name(value: dict, key: str) -> dict[str, dict]:
    return {held["shortName"]: held for held in value.get(key, [])}


def named(end: End) -> Name:
    return end.instance or ENVIRONMENT, f"{end.port}.{end.item}"
