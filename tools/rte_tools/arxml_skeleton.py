"""Programs that make each access of their runnable once: read all, call all, write all. They are to be filled in by hand.

What only the component's own code can decide stands behind `["if",0,..]` and is never done: whether a value is invalid, and to which
mode a switch goes.
"""

from __future__ import annotations

from dataclasses import dataclass, field

from rte_tools.arxml_interfaces import RESERVED

STATUS = "s"
MOST_NAMED = 200  # of a program's 256 variables; where they would be more, all reads share sixteen
MOST = 32


@dataclass
class Component:
    """What a program needs to know of its component, by the names that accesses have."""

    kinds: dict[tuple[str, ...], dict] = field(default_factory=dict)  # the data type of (port, element) or (variable,)
    operations: dict[tuple[str, str], dict] = field(default_factory=dict)
    arguments: dict[str, dict] = field(default_factory=dict)  # the data types of arguments, by their name in `types`
    modes: dict[str, str] = field(default_factory=dict)  # the initial mode of each port that provides modes
    areas: list[str] = field(default_factory=list)
    types: dict[str, dict] = field(default_factory=dict)


def nearest_to_zero(kind: dict) -> int:
    return max(kind["lower"], min(0, kind["upper"]))


def zeros(kind: dict) -> list[int]:
    """The value that a data type has where no initial one is said."""
    return [nearest_to_zero(kind)] * kind["words"]


class Skeleton:
    """The program of one runnable; `serves` is the operation whose server it is."""

    def __init__(self, component: Component, accesses: list[list[str]], serves: dict | None = None):
        self.component, self.accesses, self.serves = component, accesses, serves or {}
        arguments = [held["shortName"] for held in self.serves.get("arguments", [])]
        self.used = {*arguments, RESERVED, STATUS}
        self.status = STATUS if STATUS not in arguments else "code"
        words = sum(self.words(access) for access in accesses)
        self.shared = words > MOST_NAMED

    def program(self) -> list:
        made: list = []
        for keyword in ("isUpdated", "read", "receive", "iread", "mode", "irvIRead"):
            made += self.all(keyword)
        made += self.inside(self.all("irvRead") + self.all("irvWrite"))
        for keyword in ("call", "acall", "result", "write", "invalidate", "send", "iwrite", "irvIWrite", "switch"):
            made += self.all(keyword)
        for argument in self.serves.get("arguments", []):
            if argument["direction"] == "out":
                made.append(["set", argument["shortName"], nearest_to_zero(self.component.types[argument["type"]])])
        return made

    def inside(self, statements: list) -> list:
        """The statements inside all areas that the runnable enters, the last declared one innermost."""
        entered = {access[1] for access in self.accesses if access[0] == "enter"}
        for area in reversed(self.component.areas):
            if area in entered:
                statements = [["area", area, statements]]
        return statements

    def all(self, keyword: str) -> list:
        return [statement for access in self.accesses if access[0] == keyword for statement in self.statements(access)]

    def statements(self, access: list[str]) -> list:
        keyword, names = access[0], access[1:]
        if keyword in ("read", "receive"):
            return [[*access, self.variables(access), self.status]]
        if keyword in ("iread", "irvRead", "irvIRead"):
            return [[*access, self.variables(access)]]
        if keyword in ("isUpdated", "mode"):
            return [[*access, self.variable("_".join([names[-1], "is" if keyword == "mode" else "new"]))]]
        if keyword in ("write", "send"):
            return [[*access, zeros(self.kind(access)), self.status]]
        if keyword in ("iwrite", "irvWrite", "irvIWrite"):
            return [[*access, zeros(self.kind(access))]]
        if keyword == "invalidate":
            return [["if", 0, [[*access, self.status]], []]]
        if keyword == "switch":
            return [["if", 0, [[*access, self.component.modes[names[0]], self.status]], []]]
        return [self.asked(access)]

    def asked(self, access: list[str]) -> list:
        """A call, one that does not wait, or its result."""
        arguments = self.component.operations[access[1], access[2]].get("arguments", [])
        given = [nearest_to_zero(self.component.types[held["type"]]) for held in arguments if held["direction"] == "in"]
        taken = [self.variable(held["shortName"]) for held in arguments if held["direction"] == "out"]
        parts = {"call": [given, taken], "acall": [given], "result": [taken]}[access[0]]
        return [*access, *parts, self.status]

    # ---- words and the variables for them

    def kind(self, access: list[str]) -> dict:
        return self.component.kinds[tuple(access[1:])]

    def words(self, access: list[str]) -> int:
        if access[0] in ("read", "receive", "iread", "irvRead", "irvIRead"):
            return self.kind(access)["words"]
        if access[0] in ("call", "result"):
            return len(self.component.operations[access[1], access[2]].get("arguments", []))
        return 1

    def variables(self, access: list[str]) -> list[str]:
        """Variables for the words that an access takes, named after what is read."""
        count = self.kind(access)["words"]
        if self.shared:
            return [f"v{number}" for number in range(1, count + 1)]
        if count == 1:
            return [self.variable(access[-1])]
        return [self.variable(f"{access[-1][: MOST - 4]}_{number}") for number in range(1, count + 1)]

    def variable(self, name: str) -> str:
        """A name that nothing else in the program has."""
        if self.shared:
            return "v1"
        made, number = name[:MOST], 2
        while made in self.used:
            made, number = f"{name[: MOST - 4]}_{number}", number + 1
        self.used.add(made)
        return made
