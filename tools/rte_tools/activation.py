"""What an activation of a runnable asks of the bus, call by call, after the answers that it got."""

from __future__ import annotations

from collections import defaultdict
from dataclasses import dataclass, field
from typing import Any, Generator, Iterable, Iterator

from rte_tools.bus_plan import BusPlan, arguments

LEAST, MOST = -(2**63), 2**63 - 1
IMPLICIT_READS, IMPLICIT_WRITES = ("iread", "irvIRead"), ("iwrite", "irvIWrite")
Value = tuple[int, ...]


@dataclass(frozen=True)
class Wish:
    """A line without what the bus answers: its verb, the target, and the value, code or mode that the runnable gives.

    The target of a coherent list is its place among the lists of the runnable.
    """

    verb: str
    target: str = ""
    value: Value = ()
    number: int = 0  # the code of a return, the mode of a switch
    marks: str = ""  # of a list that is published: 1 for each element that was written, and 0
    computed: Value = field(default=(), compare=False)  # the words before they were clamped, of a value that was computed


@dataclass(frozen=True)
class Answer:
    """What the bus answers: a code (of an `admit` and an `isUpdated` 1 or 0; of a `mode` its number) and a value."""

    code: int = 0
    value: Value = ()


Steps = Generator[Wish, Answer, None]


def held_to(word: int, limits: tuple[int, int]) -> int:
    return max(limits[0], min(limits[1], word))


def clamped(words: Iterable[int], limits: Iterable[tuple[int, int]]) -> Value:
    return tuple(map(held_to, words, limits))


def computed(expression: Any, variables: dict[str, int]) -> int:
    """The value of an expression, in 64 bits."""
    if isinstance(expression, str):
        return variables[expression]
    if isinstance(expression, int):
        return expression
    operator, one, other = expression[0], computed(expression[1], variables), computed(expression[2], variables)
    if operator == "div":
        quotient = abs(one) // abs(other) if other else 0
        return held_to(quotient if (one < 0) == (other < 0) else -quotient, (LEAST, MOST))
    operations = {"add": one + other, "sub": one - other, "mul": one * other}
    comparisons = {"eq": one == other, "ne": one != other, "lt": one < other, "le": one <= other}
    return held_to(operations[operator], (LEAST, MOST)) if operator in operations else int(comparisons[operator])


class Activation:
    """The steps of an activation: `next` is the wish that comes next, none once it is over."""

    def __init__(self, plan: BusPlan, instance: str, runnable: str, is_asked: bool, given: Value):
        self.plan, self.instance = plan, instance
        self.runnable = plan.runnables[instance, runnable]
        self.lists = [held.elements for held in plan.lists[instance, runnable]]
        self.served = plan.serves.get((instance, runnable))
        self.variables: dict[str, int] = defaultdict(int)
        self.fetched: dict[str, Value] = {}
        self.written: dict[str, Wish] = {}  # what is published at the end
        self.steps = self.whole(is_asked, given)
        self.next: Wish | None = next(self.steps, None)

    def feed(self, answer: Answer) -> None:
        try:
            self.next = self.steps.send(answer)
        except StopIteration:
            self.next = None

    def whole(self, is_asked: bool, given: Value) -> Steps:
        """All of it: admission, fetches, the program, publications, the return, the end."""
        if is_asked and not (yield Wish("admit")).code:
            return
        for held in self.in_order(IMPLICIT_READS):
            yield from self.fetching(held)
        if self.served:
            names = [held["shortName"] for held in arguments(self.plan.operations[self.served], "in")]
            self.variables.update(zip(names, given))
        yield from self.body(self.runnable.get("program", []))
        for held in self.in_order(IMPLICIT_WRITES):
            yield from self.publishing(held)
        if self.served:
            yield self.returned()
        yield Wish("end")

    def in_order(self, keywords: tuple[str, ...]) -> Iterator[str | int]:
        """What is fetched or published: the targets that are in no list, and each list, by number, at its first access."""
        met = set()
        for access in self.runnable.get("accesses", []):
            if access[0] in keywords:
                target = ".".join(access[1:])
                listed = next((number for number, held in enumerate(self.lists) if target in held), None)
                if listed is None:
                    yield target
                elif listed not in met:
                    met.add(listed)
                    yield listed

    def fetching(self, held: str | int) -> Steps:
        if isinstance(held, str):
            self.fetched[held] = (yield Wish("fetch", held)).value
            return
        words = (yield Wish("fetchAll", str(held))).value
        for element in self.lists[held]:
            count = self.plan.elements[self.instance, element].words
            self.fetched[element], words = words[:count], words[count:]

    def publishing(self, held: str | int) -> Steps:
        """The last words of what was written; nothing where nothing was."""
        if isinstance(held, str):
            if held in self.written:
                yield self.written[held]
            return
        written = [self.written[element] for element in self.lists[held] if element in self.written]
        if written:
            marks = "".join(str(int(element in self.written)) for element in self.lists[held])
            value = tuple(word for wish in written for word in wish.value)
            words = tuple(word for wish in written for word in wish.computed)
            yield Wish("publishAll", str(held), value, marks=marks, computed=words)

    def returned(self) -> Wish:
        """The code, where it is one of the operation, and the values of the `out` arguments."""
        operation = self.plan.operations[self.served]
        error = self.variables["error"]
        code = error if error in [held["code"] for held in operation.get("errors", [])] else 0
        names = [held["shortName"] for held in arguments(operation, "out")]
        words = tuple(self.variables[name] for name in names)
        return Wish("return", "", clamped(words, self.plan.limits(self.served, "out")), code, computed=words)

    def body(self, statements: list) -> Steps:
        for statement in statements:
            keyword = statement[0]
            if keyword == "set":
                self.variables[statement[1]] = computed(statement[2], self.variables)
            elif keyword == "if":
                yield from self.body(statement[2 if computed(statement[1], self.variables) else 3])
            elif keyword == "repeat":
                for _ in range(statement[1]):
                    yield from self.body(statement[2])
            elif keyword == "area":
                yield Wish("enter", statement[1])
                yield from self.body(statement[2])
                yield Wish("exit", statement[1])
            elif keyword.startswith("irv"):
                yield from self.variable_access(keyword, statement[1], statement[2])
            elif keyword in ("call", "acall", "result"):
                yield from self.call(keyword, f"{statement[1]}.{statement[2]}", statement[3:])
            elif keyword in ("switch", "mode"):
                yield from self.modes(statement)
            else:
                yield from self.port_access(keyword, f"{statement[1]}.{statement[2]}", statement[3:])

    def giving(self, verb: str, target: str, expressions: list) -> Wish:
        """The wish that gives the words of expressions to an element or a variable."""
        limits = self.plan.elements[self.instance, target].limits
        words = tuple(computed(held, self.variables) for held in expressions)
        return Wish(verb, target, clamped(words, [limits] * len(words)), computed=words)

    def take(self, names: list[str], value: Value) -> None:
        self.variables.update(zip(names, value))

    def variable_access(self, keyword: str, target: str, parts: list) -> Steps:
        if keyword == "irvWrite":
            yield self.giving("write", target, parts)
        elif keyword == "irvRead":
            self.take(parts, (yield Wish("read", target)).value)
        elif keyword == "irvIWrite":
            self.written[target] = self.giving("publish", target, parts)
        else:
            self.take(parts, self.fetched[target])

    def port_access(self, keyword: str, target: str, parts: list) -> Steps:
        if keyword == "iwrite":
            self.written[target] = self.giving("publish", target, parts[0])
        elif keyword == "iread":
            self.take(parts[0], self.fetched[target])
        elif keyword in ("write", "send"):
            self.variables[parts[1]] = (yield self.giving(keyword, target, parts[0])).code
        elif keyword in ("read", "receive"):
            answer = yield Wish(keyword, target)
            self.take(parts[0], answer.value)
            self.variables[parts[1]] = answer.code
        else:  # invalidate, isUpdated
            self.variables[parts[0]] = (yield Wish(keyword, target)).code

    def call(self, keyword: str, target: str, parts: list) -> Steps:
        if keyword == "result":
            answer = yield Wish("result", target)
        else:
            words = tuple(computed(held, self.variables) for held in parts[0])
            value = clamped(words, self.plan.limits((self.instance, target), "in"))
            answer = yield Wish("ask", target, value, computed=words)
            if keyword == "call" and answer.code == 0:
                answer = yield Wish("answer", target)
        if keyword != "acall":
            self.take(parts[-2], answer.value)
        self.variables[parts[-1]] = answer.code

    def modes(self, statement: list) -> Steps:
        named = (*self.plan.machines, *self.plan.mode_ports)
        target = next(
            name for path, name in named if path == self.instance and name.startswith(f"{statement[1]}.")
        )
        if statement[0] == "switch":
            mode = self.plan.machines[self.instance, target].modes.index(statement[2])
            self.variables[statement[3]] = (yield Wish("switch", target, (), mode)).code
        else:
            self.variables[statement[2]] = (yield Wish("mode", target)).code
