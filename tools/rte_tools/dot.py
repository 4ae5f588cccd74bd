"""The compositions of a description as a graph in DOT, the language of Graphviz."""

from __future__ import annotations

from html import escape
from typing import Iterator

from rte_tools.description import Component, Composition, Description, Port
from rte_tools.joins import below
from rte_tools.mermaid import INDENT, Flowchart, directed

# By the kind of an interface: how an arrow looks, and its colour.
STYLES = {
    "SenderReceiverInterface": ("solid", "#0b7d77"),
    "ClientServerInterface": ("dashed", "#b4297f"),
    "ModeSwitchInterface": ("dotted", "#7b45d6"),
}
UNKNOWN = ("solid", "#59636e")
SAID = "solid: data; dashed: calls; dotted: modes; from the port that provides to the one that requires"
HEAD = (
    "rankdir=LR",
    'bgcolor="white"',
    'fontname="Helvetica"',
    "fontsize=11",
    "labelloc=b",
    f'label="{SAID}"',
    "nodesep=0.3",
    "ranksep=0.7",
    'node [fontname="Helvetica", fontsize=11, shape=plain]',
    'edge [fontname="Helvetica", fontsize=9, penwidth=1.3, arrowsize=0.7]',
)
OUTER = 'shape=box, style="rounded,filled", fillcolor="#f3f6fa", color="#7d93ad", height=0.25, margin="0.08,0.03"'
FRAME = ('style="rounded"', 'color="#7d93ad"', "labelloc=t", "labeljust=l", "fontsize=12")
CELL = 'border="1" color="#2f6fd0"'


class Graph(Flowchart):
    """A table for each instance of a component, with its ports at the sides; a frame for each composition."""

    def __init__(self, description: Description):
        super().__init__(description)
        self.description = description

    def lines(self) -> list[str]:
        frames = {path: node.type for path, node in self.nodes.items() if isinstance(node.type, Composition)}
        found = ["digraph composition {", *(f"{INDENT}{line};" for line in HEAD)]
        if "" in frames:
            found += self.frame("", frames[""], 1)
        for path, held in frames.items():
            found += self.arrows(path, held)
        return [*found, "}"]

    def frame(self, path: str, held: Composition, depth: int) -> Iterator[str]:
        outside, inside = INDENT * depth, INDENT * (depth + 1)
        name = f"{path.rpartition('/')[2]}: {held.name}" if path else held.name
        yield f"{outside}subgraph cluster_{self.identifier(path)} {{"
        for line in (f'label="{name}"', *FRAME):
            yield f"{inside}{line};"
        for port in held.ports.values():
            yield f'{inside}{self.identifier(path, port.name)} [{OUTER}, label="{port.name}"];'
        for prototype in held.prototypes:
            node = self.nodes.get(below(path, prototype))
            if node and isinstance(node.type, Composition):
                yield from self.frame(node.path, node.type, depth + 1)
            elif node:
                yield f"{inside}{self.identifier(node.path)} [label=<{table(prototype, node.type)}>];"
        yield f"{outside}}}"

    def arrows(self, path: str, held: Composition) -> Iterator[str]:
        for connector in held.connectors:
            source, target = directed(held, connector)
            style, colour = self.style(path, held, source)
            drawn = f'style={style}, color="{colour}"'
            yield f"{INDENT}{self.tied(path, *source, 'e')} -> {self.tied(path, *target, 'w')} [{drawn}];"

    def tied(self, path: str, prototype: str, port: str, side: str) -> str:
        """An end, and at a component the port at its side."""
        end = self.end(path, prototype, port)
        return f'{end}:"{port}":{side}' if self.is_component(path, prototype) else end

    def style(self, path: str, held: Composition, source: tuple[str, str]) -> tuple[str, str]:
        """How an arrow looks, by the interface of the port from which it leads."""
        node = self.nodes.get(below(path, source[0])) if source[0] else None
        port = (node.type if node else held).ports.get(source[1])
        interface = self.description.interfaces.get(port.interface) if port else None
        return STYLES.get(interface.kind, UNKNOWN) if interface else UNKNOWN


def table(name: str, component: Component) -> str:
    """The name over the ports: those that require at the left, those that provide at the right."""
    required = [port for port in component.ports.values() if not port.provides]
    provided = [port for port in component.ports.values() if port.provides]
    head = f'<td colspan="2" bgcolor="#cfe3ff" {CELL}><b>{escape(name)}</b>: {escape(component.name)}</td>'
    rows = [f"<tr>{head}</tr>"]
    for at in range(max(len(required), len(provided))):
        rows.append(f"<tr>{cell(required, at, 'left')}{cell(provided, at, 'right')}</tr>")
    return f'<table border="0" cellborder="0" cellspacing="0" cellpadding="4">{"".join(rows)}</table>'


def cell(ports: list[Port], at: int, side: str) -> str:
    if at >= len(ports):
        return f"<td {CELL}></td>"
    port = escape(ports[at].name)
    return f'<td port="{port}" align="{side}" {CELL}>{port}</td>'
