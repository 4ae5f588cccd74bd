"""The lines by which the program refuses, and where in a file the places stand that they name."""

from __future__ import annotations

import re
from dataclasses import dataclass

from rte_tools.description import Component, Description, Port

LINE = re.compile(
    r"refused rule (?P<rule>\d+) at (?P<place>\S+)(?: of (?P<which>[12]))?"
    r"|script refused line (?P<line>\d+) cause (?P<cause>\d+)"
    r"|not read (?P<file>[123])"
    r"|bad line (?P<bad>\d+)"
    r"|illegal (?P<illegal>\d+) D(?P<clause>\d+)"
    r"|(?P<unlinked>no link)"
    r"|(?P<crowded>too many cores)"
    r"|(?P<words>words refused)"
)


@dataclass(frozen=True)
class Refusal:
    """A rule at a place, a script line with a cause, a file that was not read, the words, a line of a trace, two nodes without a link, or more
    cores than a live node may have."""

    kind: str  # "rule", "script", "not read", "words", "bad", "illegal", "no link" or "too many cores"
    number: int = 0  # of the rule, of the cause, of the file, or of the clause
    place: str = ""
    line: int = 0
    which: int = 0  # of two descriptions the one that breaks the rule, 1 or 2

    def __str__(self) -> str:
        """The line that the program prints."""
        said = {
            "rule": f"refused rule {self.number} at {self.place}" + (f" of {self.which}" if self.which else ""),
            "words": "words refused",
            "no link": "no link",
            "too many cores": "too many cores",
            "not read": f"not read {self.number}",
            "script": f"script refused line {self.line} cause {self.number}",
            "bad": f"bad line {self.line}",
            "illegal": f"illegal {self.line} D{self.number}",
        }
        return said[self.kind]

    @property
    def status(self) -> int:
        """The status with which the program says it."""
        statuses = {"rule": 1, "words": 2, "not read": 3, "script": 5, "bad": 6, "illegal": 6, "no link": 10, "too many cores": 11}
        return statuses[self.kind]


def read_refusal(text: str) -> Refusal | None:
    """The refusal that a line is, or none."""
    found = LINE.fullmatch(text)
    if not found:
        return None
    if found["rule"]:
        return Refusal("rule", int(found["rule"]), found["place"], which=int(found["which"] or 0))
    if found["unlinked"] or found["crowded"]:
        return Refusal(text)
    if found["cause"]:
        return Refusal("script", int(found["cause"]), line=int(found["line"]))
    if found["bad"]:
        return Refusal("bad", line=int(found["bad"]))
    if found["illegal"]:
        return Refusal("illegal", int(found["clause"]), line=int(found["illegal"]))
    if found["file"]:
        return Refusal("not read", int(found["file"]))
    return Refusal("words")


def pointer_of(description: Description, place: str) -> str:
    """The JSON pointer of a place that is a name, as from rule 14 on: `r.i.v`, `r.E`, `r:Look`, `env.m.g`."""
    instance, separator, rest = place.partition(":" if ":" in place else ".")
    node = description.instance("" if instance == "env" else instance)
    if node and separator == "." and "." in rest:
        port = node.type.ports.get(rest.split(".")[0])
        return port.place if port else "/"
    if node and isinstance(node.type, Component):
        held = (node.type.runnables if separator == ":" else node.type.events).get(rest)
        return held.place if held else "/"
    return "/"


def port_at(description: Description, place: str) -> tuple[str, Port] | None:
    """The instance and the port that a name of an item names."""
    parts = place.split(".")
    node = description.instance("" if parts[0] == "env" else parts[0])
    if node is None or len(parts) != 3 or parts[1] not in node.type.ports:
        return None
    return node.path, node.type.ports[parts[1]]
