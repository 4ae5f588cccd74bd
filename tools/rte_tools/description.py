"""A description as typed objects, each with the place where it stands.

It is made of a value that has its shape (rules 2 and 3). Names may still refer to nothing: then a lookup gives none.
"""

from __future__ import annotations

from dataclasses import dataclass, field
from typing import Any, Iterator

MOST_INSTANCES = 1024  # by rule 10; what is larger is not made flat to its end
MOST_NODES = 20_000
DEEPEST = 8
# The least and the greatest value of each base type.
BASES = {
    "boolean": (0, 1),
    "uint8": (0, 2**8 - 1),
    "uint16": (0, 2**16 - 1),
    "uint32": (0, 2**32 - 1),
    "sint8": (-(2**7), 2**7 - 1),
    "sint16": (-(2**15), 2**15 - 1),
    "sint32": (-(2**31), 2**31 - 1),
}


@dataclass(frozen=True)
class DataType:
    name: str
    place: str
    lower: int
    upper: int
    words: int
    base: str = ""  # the base type


@dataclass(frozen=True)
class Item:
    """A data element, an operation or the mode element of an interface."""

    name: str
    kind: str  # "data", "operation" or "mode"
    type: str
    queued: bool = False
    arguments: dict[str, str] = field(default_factory=dict)  # of an operation: the data type of each argument
    directions: dict[str, str] = field(default_factory=dict)  # of an operation: `in` or `out`, by argument
    errors: dict[str, int] = field(default_factory=dict)  # of an operation: the code of each error

    def names(self, direction: str) -> list[str]:
        """The arguments of an operation that are `in` or `out`, in their order."""
        return [name for name, held in self.directions.items() if held == direction]

    @property
    def outs(self) -> frozenset[str]:
        """Those of the arguments of an operation that it returns."""
        return frozenset(self.names("out"))


@dataclass(frozen=True)
class Interface:
    name: str
    kind: str
    place: str
    items: dict[str, Item]


@dataclass(frozen=True)
class ComSpec:
    element: str
    keys: tuple[str, ...]  # those beside `element`
    place: str
    values: dict[str, Any] = field(default_factory=dict)  # of these keys

    @property
    def queue_length(self) -> int:
        return self.values.get("queueLength", 1)


@dataclass(frozen=True)
class Port:
    name: str
    provides: bool
    interface: str
    place: str
    com_specs: tuple[ComSpec, ...]

    def said_of(self, item: str, key: str, missing: Any) -> Any:
        """What the com spec of an item says by a key, or what stands where it is missing."""
        return next((spec.values.get(key, missing) for spec in self.com_specs if spec.element == item), missing)


@dataclass(frozen=True)
class Named:
    """An area, a variable, a type, a task: what has a name, a place and at most one number or type."""

    name: str
    place: str
    of: Any = None


@dataclass(frozen=True)
class Runnable:
    name: str
    place: str
    accesses: tuple[tuple[str, ...], ...]
    program: list
    concurrent: bool = False
    coherent: tuple[tuple[tuple[str, str], ...], ...] = ()  # lists of ports and elements


@dataclass(frozen=True)
class Event:
    name: str
    kind: str
    runnable: str
    place: str
    keys: dict[str, Any]  # those of its kind, and `disabledInModes`


@dataclass(frozen=True)
class Component:
    name: str
    place: str
    ports: dict[str, Port]
    areas: dict[str, Named]
    variables: dict[str, Named]
    runnables: dict[str, Runnable]
    events: dict[str, Event]


@dataclass(frozen=True)
class Connector:
    """Two ends, each a prototype and a port; the prototype of an outer port is empty.

    Of an assembly the first end is the provider, of a delegation the inner port.
    """

    kind: str
    ends: tuple[tuple[str, str], tuple[str, str]]
    place: str


@dataclass(frozen=True)
class Composition:
    name: str
    place: str
    ports: dict[str, Port]
    prototypes: dict[str, Named]  # of: the name of the type
    connectors: tuple[Connector, ...]


@dataclass(frozen=True)
class ModeGroup:
    name: str
    place: str
    modes: tuple[str, ...]
    initial: str


@dataclass(frozen=True)
class MappedEvent:
    instance: str
    event: str
    task: str
    place: str


@dataclass(frozen=True)
class Instance:
    """A component or composition below the root, named by its path; the path of the root is empty."""

    path: str
    type: Component | Composition


@dataclass
class Description:
    types: dict[str, DataType]
    mode_groups: dict[str, ModeGroup]
    interfaces: dict[str, Interface]
    components: dict[str, Component]
    compositions: dict[str, Composition]
    root: str
    cores: int
    tasks: dict[str, Named]  # of: the number of the core
    mapped: list[MappedEvent]
    nodes: list[Instance] = field(default_factory=list)  # the instances of compositions and components, depth first

    def holders(self) -> list[Component | Composition]:
        """All that has ports: components, then compositions."""
        return [*self.components.values(), *self.compositions.values()]

    def instances(self) -> list[Instance]:
        """The instances of components, depth first."""
        return [node for node in self.nodes if isinstance(node.type, Component)]

    def instance(self, path: str) -> Instance | None:
        return next((node for node in self.nodes if node.path == path), None)

    def type_named(self, name: str) -> Component | Composition | None:
        return self.compositions.get(name) or self.components.get(name)

    def items(self, port: Port) -> dict[str, Item]:
        """The items of a port's interface."""
        interface = self.interfaces.get(port.interface)
        return interface.items if interface else {}


def described(value: dict) -> Description:
    """The description that a value of the right shape is."""
    mapping = value["mapping"]
    description = Description(
        types=by_name(data_type(place, held) for place, held in held_in(value, "dataTypes")),
        mode_groups=by_name(mode_group(place, held) for place, held in held_in(value, "modeGroups")),
        interfaces=by_name(interface(place, held) for place, held in held_in(value, "interfaces")),
        components=by_name(component(place, held) for place, held in held_in(value, "components")),
        compositions=by_name(composition(place, held) for place, held in held_in(value, "compositions")),
        root=value["root"],
        cores=mapping["cores"],
        tasks=by_name(
            Named(held["shortName"], place, held["core"]) for place, held in held_in(mapping, "tasks", "/mapping")
        ),
        mapped=[
            MappedEvent(held["instance"], held["event"], held["task"], place)
            for place, held in held_in(mapping, "events", "/mapping")
        ],
    )
    description.nodes = list(nodes_below(description))
    return description


def held_in(value: dict, key: str, place: str = "") -> Iterator[tuple[str, Any]]:
    """The items of a list, each with its place."""
    for number, held in enumerate(value.get(key, [])):
        yield f"{place}/{key}/{number}", held


def by_name(items) -> dict:
    return {item.name: item for item in items}


def data_type(place: str, held: dict) -> DataType:
    return DataType(held["shortName"], place, held["lower"], held["upper"], held["words"], held["baseType"])


def mode_group(place: str, held: dict) -> ModeGroup:
    return ModeGroup(held["shortName"], place, tuple(held["modes"]), held["initialMode"])


def interface(place: str, held: dict) -> Interface:
    items = [
        Item(item["shortName"], "data", item["type"], item["swImplPolicy"] == "queued")
        for item in held.get("dataElements", [])
    ]
    items += [operation(item) for item in held.get("operations", [])]
    if "modeGroup" in held:
        items.append(Item(held["modeGroup"]["shortName"], "mode", held["modeGroup"]["type"]))
    return Interface(held["shortName"], held["kind"], place, by_name(items))


def operation(held: dict) -> Item:
    arguments = held.get("arguments", [])
    return Item(
        held["shortName"],
        "operation",
        "",
        arguments={argument["shortName"]: argument["type"] for argument in arguments},
        directions={argument["shortName"]: argument["direction"] for argument in arguments},
        errors={error["shortName"]: error["code"] for error in held.get("errors", [])},
    )


def port(place: str, held: dict) -> Port:
    specs = tuple(
        ComSpec(spec["element"], tuple(key for key in spec if key != "element"), spec_place, spec)
        for spec_place, spec in held_in(held, "comSpecs", place)
    )
    return Port(held["shortName"], held["kind"] == "PPortPrototype", held["interface"], place, specs)


def component(place: str, held: dict) -> Component:
    behavior, below = held["behavior"], f"{place}/behavior"
    return Component(
        name=held["shortName"],
        place=place,
        ports=by_name(port(at, part) for at, part in held_in(held, "ports", place)),
        areas=by_name(Named(part, at) for at, part in held_in(behavior, "exclusiveAreas", below)),
        variables=by_name(
            Named(part["shortName"], at, part["type"]) for at, part in held_in(behavior, "variables", below)
        ),
        runnables=by_name(runnable(at, part) for at, part in held_in(behavior, "runnables", below)),
        events=by_name(event(at, part) for at, part in held_in(behavior, "events", below)),
    )


def runnable(place: str, held: dict) -> Runnable:
    accesses = tuple(tuple(access) for access in held.get("accesses", []))
    coherent = tuple(tuple((port_name, element) for port_name, element in pairs) for pairs in held.get("coherent", []))
    return Runnable(
        held["shortName"],
        place,
        accesses,
        held.get("program", []),
        held.get("canBeInvokedConcurrently", False),
        coherent,
    )


def event(place: str, held: dict) -> Event:
    keys = {key: part for key, part in held.items() if key not in ("kind", "shortName", "runnable")}
    return Event(held["shortName"], held["kind"], held["runnable"], place, keys)


def composition(place: str, held: dict) -> Composition:
    return Composition(
        name=held["shortName"],
        place=place,
        ports=by_name(port(at, part) for at, part in held_in(held, "ports", place)),
        prototypes=by_name(
            Named(part["shortName"], at, part["type"]) for at, part in held_in(held, "prototypes", place)
        ),
        connectors=tuple(connector(at, part) for at, part in held_in(held, "connectors", place)),
    )


def connector(place: str, held: dict) -> Connector:
    if held["kind"] == "AssemblySwConnector":
        ends = (tuple(held["provider"]), tuple(held["requester"]))
    else:
        ends = (tuple(held["inner"]), ("", held["outer"]))
    return Connector(held["kind"], ends, place)


def nodes_below(description: Description) -> Iterator[Instance]:
    """The root and all below it. It ends early where there are more than rules 9 and 10 allow."""
    root = description.compositions.get(description.root)
    waiting = [("", root)] if root else []
    made = components = 0
    while waiting and made < MOST_NODES and components < MOST_INSTANCES:
        path, held = waiting.pop()
        yield Instance(path, held)
        made += 1
        components += isinstance(held, Component)
        depth = len(path.split("/")) if path else 0
        if isinstance(held, Composition) and depth < DEEPEST:
            waiting += reversed(list(prototypes_of(description, path, held)))


def prototypes_of(description: Description, path: str, held: Composition) -> Iterator[tuple[str, Any]]:
    """The prototypes of a composition with their paths, those whose type is declared."""
    for prototype in held.prototypes.values():
        below = description.type_named(prototype.of)
        if below:
            yield (f"{path}/{prototype.name}" if path else prototype.name), below
