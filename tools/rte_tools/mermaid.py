"""The compositions of a description as a Mermaid flowchart."""

from __future__ import annotations

from typing import Iterator

from rte_tools.description import Component, Composition, Connector, Description
from rte_tools.joins import below

INDENT = "  "


class Flowchart:
    """A box for each instance of a component, a frame for each composition, an arrow for each connector.

    Outer ports are round. An arrow leads as data flows and names the ports of components.
    """

    def __init__(self, description: Description):
        self.nodes = {node.path: node for node in description.nodes}
        self.identifiers: dict[tuple[str, str], str] = {}
        self.taken: set[str] = set()

    def lines(self) -> list[str]:
        frames = {path: node.type for path, node in self.nodes.items() if isinstance(node.type, Composition)}
        found = ["flowchart LR"]
        if "" in frames:
            found += self.frame("", frames[""], 1)
        for path, held in frames.items():
            found += self.arrows(path, held)
        return found

    def frame(self, path: str, held: Composition, depth: int) -> Iterator[str]:
        """A composition with all that is in it."""
        outside, inside = INDENT * depth, INDENT * (depth + 1)
        name = f"{path.rpartition('/')[2]}: {held.name}" if path else held.name
        yield f'{outside}subgraph {self.identifier(path)}["{name}"]'
        for port in held.ports:
            yield f'{inside}{self.identifier(path, port)}(["{port}"])'
        for prototype in held.prototypes:
            node = self.nodes.get(below(path, prototype))
            if node and isinstance(node.type, Composition):
                yield from self.frame(node.path, node.type, depth + 1)
            elif node:
                yield f'{inside}{self.identifier(node.path)}["{prototype}: {node.type.name}"]'
        yield f"{outside}end"

    def arrows(self, path: str, held: Composition) -> Iterator[str]:
        """The connectors of a composition."""
        for connector in held.connectors:
            source, target = directed(held, connector)
            ports = [port for prototype, port in (source, target) if self.is_component(path, prototype)]
            label = f'|"{" → ".join(ports)}"|' if ports else ""
            yield f"{INDENT}{self.end(path, *source)} -->{label} {self.end(path, *target)}"

    def end(self, path: str, prototype: str, port: str) -> str:
        """What an arrow leads to: the box of a component, or an outer port of a composition."""
        place = below(path, prototype)
        return self.identifier(place) if self.is_component(path, prototype) else self.identifier(place, port)

    def is_component(self, path: str, prototype: str) -> bool:
        node = self.nodes.get(below(path, prototype)) if prototype else None
        return node is not None and isinstance(node.type, Component)

    def identifier(self, path: str, port: str = "") -> str:
        """A name that nothing else has, of letters, digits and underscores."""
        if (path, port) not in self.identifiers:
            name = "root" + "".join("__" + part for part in [*path.split("/"), port] if part)
            while name in self.taken:
                name += "_"
            self.taken.add(name)
            self.identifiers[path, port] = name
        return self.identifiers[path, port]


def directed(held: Composition, connector: Connector) -> tuple[tuple[str, str], tuple[str, str]]:
    """The two ends in the direction in which data flows."""
    first, second = connector.ends
    outer = held.ports.get(second[1]) if not second[0] else None
    inwards = outer is not None and not outer.provides
    return (second, first) if inwards else (first, second)
