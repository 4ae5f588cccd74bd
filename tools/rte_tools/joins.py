"""Which elements, operations and mode elements are joined, over all connectors."""

from __future__ import annotations

from dataclasses import dataclass, field

from rte_tools.description import Composition, Description, Instance, Port


@dataclass(frozen=True, order=True)
class End:
    """An item of a port of an instance; the instance of the environment is empty."""

    instance: str
    port: str
    item: str

    def __str__(self) -> str:
        return f"{self.instance or 'env'}.{self.port}.{self.item}"


@dataclass
class Group:
    """Ends that connectors join. The environment provides at R-ports of the root and requires at P-ports."""

    provided: list[End] = field(default_factory=list)
    required: list[End] = field(default_factory=list)

    @property
    def name(self) -> str:
        return str((self.provided + self.required)[0])


Side = tuple[str, str]  # an instance or a composition by its path, and a port


class Joins:
    """The groups of a description.

    Two ports are joined if a chain of connectors leads up over delegations, across one assembly, and down over delegations. That two
    ports are delegated to one outer port joins nothing by itself.
    """

    def __init__(self, description: Description):
        self.description = description
        self.parents: dict[End, End] = {}
        self.groups: dict[End, Group] = {}
        self.up: dict[Side, list[Side]] = {}  # from an inner port to the outer ones of its composition
        self.down: dict[Side, list[Side]] = {}
        self.across: dict[Side, list[Side]] = {}  # from a requester to its providers
        self.ports: dict[Side, Port] = {}
        self.pairs = 0  # of joined items
        for node in description.nodes:
            self.ports.update({(node.path, port.name): port for port in node.type.ports.values()})
            if isinstance(node.type, Composition):
                self.connect(node, node.type)
        for node in description.nodes:
            if node.path == "" or not isinstance(node.type, Composition):
                self.join_required(node)
        for node in description.nodes:
            self.gather(node)

    def group(self, end: End) -> Group | None:
        """The group of an end of a component or of the environment, or none where it is no end of these."""
        return self.groups.get(self.top(end))

    def is_joined(self, instance: str, port: Port) -> bool:
        """Whether an item of the port of a component is joined with one of the other side."""
        for item in self.description.items(port):
            group = self.group(End(instance, port.name, item))
            if group and (group.required if port.provides else group.provided):
                return True
        return False

    def top(self, end: End) -> End:
        """The end that stands for all that are connected with this one."""
        way = []
        while self.parents.get(end, end) != end:
            way.append(end)
            end = self.parents[end]
        for passed in way:
            self.parents[passed] = end
        return end

    def connect(self, node: Instance, composition: Composition) -> None:
        for connector in composition.connectors:
            (first, first_port), (second, second_port) = connector.ends
            one, other = (below(node.path, first), first_port), (below(node.path, second), second_port)
            if connector.kind == "AssemblySwConnector":
                self.across.setdefault(other, []).append(one)
            else:
                self.up.setdefault(one, []).append(other)
                self.down.setdefault(other, []).append(one)

    def port_of(self, composition: Composition, prototype: str, port: str) -> Port | None:
        """The port of a prototype, or the outer one where no prototype is named."""
        if not prototype:
            return composition.ports.get(port)
        named = composition.prototypes.get(prototype)
        held = self.description.type_named(named.of) if named else None
        return held.ports.get(port) if held else None

    def join_required(self, node: Instance) -> None:
        """Joins each port that requires with those that provide for it. The environment requires at P-ports of the root."""
        for port in node.type.ports.values():
            if port.provides == (node.path == ""):
                for provider in self.providers((node.path, port.name)):
                    self.join(provider, (node.path, port.name))

    def providers(self, side: Side) -> list[Side]:
        """The ports of components, and the outer ones of the root, that provide for a required port."""
        if side[0] == "":
            return self.ends_below([side])
        outer = reached([side], self.up)
        found = self.ends_below([provider for held in outer for provider in self.across.get(held, ())])
        return found + [held for held in outer[1:] if held[0] == ""]

    def ends_below(self, sides: list[Side]) -> list[Side]:
        """The ports of components that are reached downwards."""
        return [held for held in reached(sides, self.down) if held not in self.down and held[0]]

    def join(self, provider: Side, requester: Side) -> None:
        """Joins the items of one name. A mode element is the only one of its port, and its name makes no difference."""
        if provider not in self.ports:
            return
        mine, theirs = (self.description.items(self.ports[side]) for side in (requester, provider))
        for name, item in mine.items():
            other = next(iter(theirs), "") if item.kind == "mode" else name
            if other in theirs and theirs[other].kind == item.kind:
                self.pairs += 1
                self.parents[self.top(End(*requester, name))] = self.top(End(*provider, other))

    def gather(self, node: Instance) -> None:
        """Puts the ends of a component, or of the environment, into their groups."""
        is_root = node.path == ""
        if isinstance(node.type, Composition) and not is_root:
            return
        for port in node.type.ports.values():
            for item in self.description.items(port):
                end = End(node.path, port.name, item)
                group = self.groups.setdefault(self.top(end), Group())
                (group.provided if port.provides != is_root else group.required).append(end)


def reached(sides: list[Side], ways: dict[Side, list[Side]]) -> list[Side]:
    """These and all to which the ways lead."""
    found = list(dict.fromkeys(sides))
    known = set(found)
    for side in found:
        for other in ways.get(side, ()):
            if other not in known:
                known.add(other)
                found.append(other)
    return found


def below(path: str, prototype: str) -> str:
    return "/".join(part for part in (path, prototype) if part)
