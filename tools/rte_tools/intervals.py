"""Between which numbers the variables of a program lie, at each statement.

The intervals are never too small: what a variable holds in any run lies in its interval. So what lies outside of all of an
interval never comes.
"""

from __future__ import annotations

from dataclasses import dataclass, field
from typing import Any, Callable, Iterable

from rte_tools.activation import LEAST, MOST
from rte_tools.programs import use_of

Interval = tuple[int, int]
State = dict[str, Interval]  # a variable that is missing is 0

ANY: Interval = (LEAST, MOST)
CODES: Interval = (0, 134)  # of any answer
FLAG: Interval = (0, 1)
ZERO: Interval = (0, 0)
MOST_MODES = 32  # of a group; the number between two modes is the number of modes


@dataclass(frozen=True)
class Limits:
    """What a program gives and takes: the limits of each word, or none where a name refers to nothing."""

    given: Callable[[list], list[Interval] | None]  # of a statement that gives values
    taken: Callable[[list], list[Interval] | None]  # of a statement that takes values


@dataclass
class Given:
    """Values that a statement gives, with their places: the limits of each, and the interval in which it lies."""

    statement: list
    place: str
    limits: Interval
    interval: Interval


@dataclass
class Walk:
    """One way through a program. `given` and `sets` list what was met on it."""

    limits: Limits
    given: list[Given] = field(default_factory=list)
    sets: list[tuple[str, str, Interval]] = field(default_factory=list)  # the place, the variable and the value of a `set`

    def body(self, program: list, place: str, state: State) -> None:
        """Carries out a list of statements: the state becomes that after it."""
        for number, statement in enumerate(program):
            self.statement(statement, f"{place}/{number}", state)

    def statement(self, statement: list, place: str, state: State) -> None:
        keyword = statement[0]
        if keyword == "set":
            state[statement[1]] = value_of(statement[2], state)
            self.sets.append((place, statement[1], state[statement[1]]))
        elif keyword == "if":
            self.choice(statement, place, state)
        elif keyword == "repeat":
            self.repeat(statement, place, state)
        elif keyword == "area":
            self.body(statement[2], f"{place}/2", state)
        else:
            self.ask(statement, place, state)

    def choice(self, statement: list, place: str, state: State) -> None:
        """An `if`: a list that is certainly not carried out is passed over."""
        low, high = value_of(statement[1], state)
        other = dict(state)
        if (low, high) != ZERO:
            self.body(statement[2], f"{place}/2", state)
        if low <= 0 <= high:
            self.body(statement[3], f"{place}/3", other)
        if (low, high) == ZERO:
            state.update(other)
        elif low <= 0 <= high:
            for name in {*state, *other}:
                state[name] = hull(state.get(name, ZERO), other.get(name, ZERO))

    def repeat(self, statement: list, place: str, state: State) -> None:
        """A `repeat`: what its list sets may be anything when it is carried out more than once."""
        _, count, program = statement
        if count > 1:
            state.update({name: ANY for name in use_of(program, "").sets})
        if count > 0:
            self.body(program, f"{place}/2", state)

    def ask(self, statement: list, place: str, state: State) -> None:
        """A statement that asks the bus."""
        keyword = statement[0]
        lists = [(number, part) for number, part in enumerate(statement) if isinstance(part, list)]
        if keyword in GIVES:
            number, values = lists.pop(0)
            for at, (value, limits) in enumerate(zip(values, self.limits.given(statement) or [])):
                self.given.append(Given(statement, f"{place}/{number}/{at}", limits, value_of(value, state)))
        if lists:
            names = lists[0][1]
            for name, limits in zip(names, self.limits.taken(statement) or [ANY] * len(names)):
                stays = keyword in MAY_TAKE_NONE
                state[name] = hull(state.get(name, ZERO), limits) if stays else limits
        if isinstance(statement[-1], str) and keyword not in NO_CODE:
            state[statement[-1]] = {"isUpdated": FLAG, "mode": (0, MOST_MODES)}.get(keyword, CODES)


GIVES = ("write", "send", "iwrite", "irvWrite", "irvIWrite", "call", "acall")
MAY_TAKE_NONE = ("receive", "call", "result")  # the variables may stay as they were
NO_CODE = ("iwrite", "iread", "irvWrite", "irvRead", "irvIWrite", "irvIRead")


def hull(one: Interval, other: Interval) -> Interval:
    return min(one[0], other[0]), max(one[1], other[1])


def value_of(expression: Any, state: State) -> Interval:
    """The interval of an expression."""
    if isinstance(expression, str):
        return state.get(expression, ZERO)
    if isinstance(expression, int):
        return expression, expression
    operator, one, other = expression[0], value_of(expression[1], state), value_of(expression[2], state)
    if operator in COMPARISONS:
        always, never = COMPARISONS[operator](one, other)
        return (1, 1) if always else ZERO if never else FLAG
    return limited(OPERATIONS[operator](one, other))


def limited(values: Iterable[int]) -> Interval:
    """From the least to the greatest of the values, in 64 bits."""
    found = list(values)
    return max(LEAST, min(MOST, min(found))), max(LEAST, min(MOST, max(found)))


def quotients(one: Interval, other: Interval) -> list[int]:
    """The quotients at the ends; a divisor of 0 gives 0."""
    divisors = {divisor for divisor in (*other, -1, 1) if divisor and other[0] <= divisor <= other[1]}
    found = [abs(part) // abs(divisor) * (1 if (part < 0) == (divisor < 0) else -1) for part in one for divisor in divisors]
    return found + [0] * (other[0] <= 0 <= other[1])


OPERATIONS: dict[str, Callable[[Interval, Interval], Iterable[int]]] = {
    "add": lambda one, other: (one[0] + other[0], one[1] + other[1]),
    "sub": lambda one, other: (one[0] - other[1], one[1] - other[0]),
    "mul": lambda one, other: [part * factor for part in one for factor in other],
    "div": quotients,
}


def same(one: Interval, other: Interval) -> tuple[bool, bool]:
    """Whether both are always the same, and whether they never are."""
    return one[0] == one[1] == other[0] == other[1], one[1] < other[0] or other[1] < one[0]


COMPARISONS: dict[str, Callable[[Interval, Interval], tuple[bool, bool]]] = {
    "eq": same,
    "ne": lambda one, other: same(one, other)[::-1],
    "lt": lambda one, other: (one[1] < other[0], one[0] >= other[1]),
    "le": lambda one, other: (one[1] <= other[0], one[0] > other[1]),
}
