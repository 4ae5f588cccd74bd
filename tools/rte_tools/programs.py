"""Programs of runnables: their statements, the accesses that these need, and the variables that they use."""

from __future__ import annotations

from dataclasses import dataclass, field
from typing import Any, Iterator

# The parts of each statement behind its keyword. `value` and `values` are expressions; `sets` and `takes` name one
# variable and some that take words; `body` is a list of statements.
PARTS = {
    "set": ("sets", "value"),
    "if": ("value", "body", "body"),
    "repeat": ("count", "body"),
    "area": ("name", "body"),
    "write": ("name", "name", "values", "sets"),
    "read": ("name", "name", "takes", "sets"),
    "invalidate": ("name", "name", "sets"),
    "isUpdated": ("name", "name", "sets"),
    "send": ("name", "name", "values", "sets"),
    "receive": ("name", "name", "takes", "sets"),
    "iwrite": ("name", "name", "values"),
    "iread": ("name", "name", "takes"),
    "irvWrite": ("name", "values"),
    "irvRead": ("name", "takes"),
    "irvIWrite": ("name", "values"),
    "irvIRead": ("name", "takes"),
    "call": ("name", "name", "values", "takes", "sets"),
    "acall": ("name", "name", "values", "sets"),
    "result": ("name", "name", "takes", "sets"),
    "switch": ("name", "name", "sets"),
    "mode": ("name", "sets"),
}
NO_ACCESS = ("set", "if", "repeat")
SHORT_ACCESS = ("switch", "mode")  # the access names the port alone


@dataclass
class Use:
    """What a program uses: its variables, each with the places below the program, and the accesses it needs."""

    reads: dict[str, list[str]] = field(default_factory=dict)
    sets: dict[str, list[str]] = field(default_factory=dict)
    accesses: dict[tuple[str, ...], list[str]] = field(default_factory=dict)


def needed_access(statement: list) -> tuple[str, ...] | None:
    """The access that a statement needs, or none."""
    keyword = statement[0]
    if keyword in NO_ACCESS:
        return None
    if keyword == "area":
        return ("enter", statement[1])
    if keyword in SHORT_ACCESS or keyword.startswith("irv"):
        return (keyword, statement[1])
    return (keyword, statement[1], statement[2])


def statements(program: list, place: str) -> Iterator[tuple[str, list]]:
    """All statements of a program with their places, an outer one before those within it."""
    for number, statement in enumerate(program):
        at = f"{place}/{number}"
        yield at, statement
        for part, kind in enumerate(PARTS[statement[0]], 1):
            if kind == "body":
                yield from statements(statement[part], f"{at}/{part}")


def names_in(expression: Any, place: str) -> Iterator[tuple[str, str]]:
    """The variables of an expression with their places."""
    if isinstance(expression, str):
        yield place, expression
    if isinstance(expression, list):
        for part in (1, 2):
            yield from names_in(expression[part], f"{place}/{part}")


def use_of(program: list, place: str) -> Use:
    """What a program uses."""
    use = Use()
    for at, statement in statements(program, place):
        access = needed_access(statement)
        if access:
            use.accesses.setdefault(access, []).append(at)
        for part, kind in enumerate(PARTS[statement[0]], 1):
            note_part(use, kind, statement[part], f"{at}/{part}")
    return use


def note_part(use: Use, kind: str, part: Any, place: str) -> None:
    """Notes the variables of one part of a statement."""
    if kind == "sets":
        use.sets.setdefault(part, []).append(place)
    elif kind == "takes":
        for number, name in enumerate(part):
            use.sets.setdefault(name, []).append(f"{place}/{number}")
    elif kind == "value":
        for at, name in names_in(part, place):
            use.reads.setdefault(name, []).append(at)
    elif kind == "values":
        for number, expression in enumerate(part):
            for at, name in names_in(expression, f"{place}/{number}"):
                use.reads.setdefault(name, []).append(at)
