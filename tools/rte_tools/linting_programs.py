"""What programs do that comes to nothing: variables that nothing reads, `out` arguments, codes and values that are clamped."""

from __future__ import annotations

from typing import Iterator

from rte_tools.description import Component, DataType, Description, Item, Runnable
from rte_tools.finding import Finding
from rte_tools.intervals import Given, Interval, Limits, State, Walk
from rte_tools.names import nearest
from rte_tools.programs import Use, statements, use_of

SERVER_EVENT = "OperationInvokedEvent"
ERROR = "error"  # the variable whose value a server returns as its code
MOST_VARIABLES = 256  # of a program, by rule 18
SHORTEST = 3  # letters of a name of which one is taken for a slip


def served(description: Description, component: Component) -> dict[str, list[Item]]:
    """The operations that each runnable of a component serves."""
    found: dict[str, list[Item]] = {}
    for event in component.events.values():
        port = component.ports.get(event.keys.get("port", "")) if event.kind == SERVER_EVENT else None
        operation = description.items(port).get(event.keys["operation"]) if port else None
        if operation:
            found.setdefault(event.runnable, []).append(operation)
    return found


def program_values(description: Description) -> Iterator[Finding]:
    """The findings of this page, of all programs."""
    for component in description.components.values():
        serves = served(description, component)
        for runnable in component.runnables.values():
            place = f"{runnable.place}/program"
            use = use_of(runnable.program, place)
            operations = serves.get(runnable.name, [])
            yield from unread_variables(runnable, use, operations)
            for operation in operations:
                yield from unset_results(runnable, use, operation)
            if len({*use.reads, *use.sets}) <= MOST_VARIABLES:
                yield from by_intervals(description, component, runnable, operations)


# ---- variables


def unread_variables(runnable: Runnable, use: Use, operations: list[Item]) -> Iterator[Finding]:
    """Variables that are set and never read."""
    returned = {name for operation in operations for name in (*operation.names("out"), ERROR)}
    place = f"{runnable.place}/program"
    told = set()
    for at, statement in statements(runnable.program, place):
        name = statement[1] if statement[0] == "set" else ""
        if name and name not in use.reads and name not in returned | told:
            told.add(name)
            text = f"the variable `{name}` is set and never read{nearest(name, use.reads)}"
            yield Finding(f"{at}/1", f"{text}: correct it, or take it out")
    known = {*use.reads, *returned}
    for name, places in use.sets.items():
        # What a call takes need not be read; it is told only if its name is that of one that is read, but for a slip.
        if name not in use.reads and name not in returned | told:
            meant = next((held for held in sorted(known) if is_slip(name, held)), "")
            if meant:
                text = f"the variable `{name}` takes a value and is never read; the nearest one is `{meant}`"
                yield Finding(places[0], f"{text}: correct it, or take another name")


def is_slip(one: str, other: str) -> bool:
    """Whether one letter is missing, too many or another, or two neighbours are exchanged. Digits are no slips."""
    if min(len(one), len(other)) < SHORTEST or abs(len(one) - len(other)) > 1 or one == other:
        return False
    begin = 0
    while begin < min(len(one), len(other)) and one[begin] == other[begin]:
        begin += 1
    end = 0
    while end < min(len(one), len(other)) - begin and one[-1 - end] == other[-1 - end]:
        end += 1
    first, second = one[begin : len(one) - end], other[begin : len(other) - end]
    if not (first + second).isalpha():
        return False
    return max(len(first), len(second)) == 1 or len(first) == 2 and first == second[::-1]


# ---- what a server returns


def unset_results(runnable: Runnable, use: Use, operation: Item) -> Iterator[Finding]:
    """`out` arguments that the program never sets."""
    for name in operation.names("out"):
        if name not in use.sets and name not in operation.names("in"):
            text = f"`{runnable.name}` never sets `{name}`, an `out` argument of `{operation.name}`, so 0 is returned"
            yield Finding(runnable.place, f"{text}{nearest(name, use.sets)}: set the variable `{name}`")


def undeclared_code(place: str, value: Interval, operations: list[Item]) -> Iterator[Finding]:
    """A `set` of `error` to what no operation declares."""
    for operation in operations:
        codes = {0, *operation.errors.values()}
        if not any(value[0] <= code <= value[1] for code in codes):
            declared = ", ".join(f"{code} ({name})" for name, code in operation.errors.items()) or "none"
            text = f"`error` is {between(value)}, a code that `{operation.name}` does not declare, so 0 is returned"
            yield Finding(place, f"{text}: its codes are {declared}")


# ---- intervals


def by_intervals(
    description: Description, component: Component, runnable: Runnable, operations: list[Item]
) -> Iterator[Finding]:
    """Values that are certainly clamped, and codes that are certainly not declared."""
    types = Types(description, component)
    walk = Walk(Limits(types.given, types.taken))
    state: State = {}
    for operation in operations:
        state.update(zip(operation.names("in"), types.arguments(operation, "in")))
    walk.body(runnable.program, f"{runnable.place}/program", state)
    for given in walk.given:
        yield from clamped(given)
    for place, name, value in walk.sets:
        if name == ERROR:
            yield from undeclared_code(place, value, operations)
    for operation in operations:
        for name, limits in zip(operation.names("out"), types.arguments(operation, "out")):
            if name in state:
                for text in clamp_text(f"what `{runnable.name}` returns as `{name}`", state[name], limits):
                    yield Finding(runnable.place, text)


def clamped(given: Given) -> Iterator[Finding]:
    """A value that lies outside of its limits in any case."""
    statement = given.statement
    name = f"`{statement[1]}`" if statement[0].startswith("irv") else f"`{statement[1]}`.`{statement[2]}`"
    for text in clamp_text(f"the value for {name}", given.interval, given.limits):
        yield Finding(given.place, text)


def clamp_text(what: str, interval: Interval, limits: Interval) -> Iterator[str]:
    outside = interval[0] > limits[1] or interval[1] < limits[0]
    if outside:
        held = limits[1] if interval[0] > limits[1] else limits[0]
        text = f"{what} is {between(interval)}, outside of its type, which goes from {limits[0]} to {limits[1]}"
        yield f"{text}, so it is clamped to {held}: correct the value, or take a wider type"


def between(interval: Interval) -> str:
    low, high = interval
    return str(low) if low == high else f"from {low} to {high}"


class Types:
    """The limits of what the statements of a component give and take."""

    def __init__(self, description: Description, component: Component):
        self.description = description
        self.component = component

    def given(self, statement: list) -> list[Interval] | None:
        return self.of(statement, "in")

    def taken(self, statement: list) -> list[Interval] | None:
        return self.of(statement, "out")

    def of(self, statement: list, direction: str) -> list[Interval] | None:
        """The limits of each word of an element or variable, or of each argument of an operation."""
        if statement[0].startswith("irv"):
            variable = self.component.variables.get(statement[1])
            return words(self.description.types.get(variable.of)) if variable else None
        port = self.component.ports.get(statement[1])
        item = self.description.items(port).get(statement[2]) if port and isinstance(statement[2], str) else None
        if item is None:
            return None
        return self.arguments(item, direction) if item.kind == "operation" else words(self.description.types.get(item.type))

    def arguments(self, operation: Item, direction: str) -> list[Interval]:
        """The limits of each argument; of one whose type is not there any number."""
        found = (words(self.description.types.get(operation.arguments[name])) for name in operation.names(direction))
        return [held[0] if held else UNKNOWN for held in found]


UNKNOWN: Interval = (-(2**63), 2**63 - 1)


def words(held: DataType | None) -> list[Interval] | None:
    return [(held.lower, held.upper)] * held.words if held else None
