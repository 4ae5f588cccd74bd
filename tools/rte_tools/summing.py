"""What is counted of a trace: starts, codes, values lost, queues, admissions, clamped values."""

from __future__ import annotations

from collections import Counter
from dataclasses import dataclass
from itertools import count as counting
from typing import Iterator

from rte_tools.activation import Wish
from rte_tools.bus import ENVIRONMENT, LIMIT, LOST, NEVER_RECEIVED, UNCONNECTED, Bus, split_actor
from rte_tools.bus_plan import BusPlan, Name
from rte_tools.trace import RUN, Line, Trace, by_element
from rte_tools.verdicts import GIVING

CODES = {
    1: "RTE_E_INVALID",
    64: "RTE_E_LOST_DATA",
    130: "RTE_E_LIMIT",
    131: "RTE_E_NO_DATA",
    133: "RTE_E_NEVER_RECEIVED",
    134: "RTE_E_UNCONNECTED",
}
SERVED = ("answer", "result", "return")  # their codes below 64 are errors of the operation
NOT_STARTED = (LookupError, ValueError)  # what the bus says of a line that may not come: a request or a field that is not there


class Unfitting(Exception):
    """A line is not what its program does next."""


@dataclass(frozen=True)
class Row:
    """One fact. `count` is how often, or how many."""

    table: str
    where: str
    what: str
    count: int
    note: str = ""


@dataclass
class Clamped:
    """Values that were clamped to one word: how many, the least and the greatest before, and the first line."""

    count: int
    least: int
    most: int
    line: int


class Sums:
    """The counts while a trace is gone through."""

    def __init__(self, plan: BusPlan, version: str):
        self.plan, self.bus = plan, Bus(plan, version)
        self.totals: Counter = Counter()
        self.starts: Counter = Counter()
        self.refused: Counter = Counter()
        self.codes: Counter = Counter()
        self.missing: Counter = Counter()  # reads of what was never received or is unconnected
        self.lost: Counter = Counter()
        self.fills: Counter = Counter()  # by queue, the greatest
        self.clamped: dict[tuple[str, str, int, int], Clamped] = {}

    def take(self, line: Line) -> None:
        """Counts a line and goes on behind it."""
        if line.actor in self.bus.running and line.verb != "start":
            self.program(line, self.bus.running[line.actor].next)
        elif line.actor not in ("", ENVIRONMENT) and line.verb not in ("start", "phase"):
            raise Unfitting(f"no activation of `{line.actor}` runs")
        self.total(line)
        if line.verb == "start":
            self.starts[line.actor.partition("@")[0], line.part("event")] += 1
        elif line.verb == "send":
            self.lost.update(held for held in self.receivers(line) if self.bus.is_full(held))
        elif line.verb == "admit" and line.part("answer") == "no":
            self.refused[line.actor, self.bus.started_by[line.actor][1]] += 1
        if line.part("code") not in ("", "0"):
            self.code(line, int(line.part("code")))
        self.bus.note(line)
        self.fill(line)

    def program(self, line: Line, wish: Wish | None) -> None:
        """Looks whether an activation does what its program asks for, and what was clamped."""
        given = ",".join(map(str, wish.value)) or "-" if wish and line.verb in GIVING else ""
        said = line.part("value") if line.verb in GIVING else ""
        target = line.part("target") or line.part("list")
        if not wish or (line.verb, target, line.part("marks"), said) != (wish.verb, wish.target, wish.marks, given):
            asked = " ".join(part for part in (wish.verb, wish.target, wish.marks, given) if part) if wish else "nothing"
            raise Unfitting(f"its program asks for `{asked}`")
        for (what, number), before, after in zip(self.words(line), wish.computed, wish.value):
            if before != after:
                self.clamp((line.actor.partition("@")[0], what, number, after), before, line)

    def words(self, line: Line) -> Iterator[tuple[str, int]]:
        """Of each word that a line gives, what it is given to, and its number there."""
        if line.verb == "publishAll":
            elements = self.plan.list_of(line.actor, line.part("list")).elements
            for element, words in by_element(line, elements, self.plan.words_of(line.actor)):
                yield from ((f"publishAll {element}", number) for number in range(1, len(words) + 1))
        else:
            yield from ((f"{line.verb} {line.part('target')}".rstrip(), number) for number in counting(1))

    def clamp(self, key: tuple[str, str, int, int], before: int, line: Line) -> None:
        held = self.clamped.setdefault(key, Clamped(0, before, before, line.number))
        held.count += 1
        held.least, held.most = min(held.least, before), max(held.most, before)

    def total(self, line: Line) -> None:
        code = line.part("code")
        self.totals["ticks"] += line.is_tick
        self.totals["runs"] += not line.actor and line.verb == RUN
        self.totals["idle"] += not line.actor and line.verb == "idle"
        self.totals["unsettled"] += not line.actor and line.verb == "unsettled"
        self.totals["starts"] += line.verb == "start"
        self.totals["sends"] += line.verb == "send"
        self.totals["taken"] += line.verb == "receive" and code in ("0", str(LOST))
        self.totals["limits"] += line.verb in ("send", "ask") and code == str(LIMIT)
        self.totals["asks"] += line.verb == "ask" and code == "0"
        self.totals["answers"] += line.verb == "answer" and code == "0"

    def code(self, line: Line, code: int) -> None:
        key = (line.actor.partition("@")[0], f"{line.verb} {line.part('target')}".rstrip(), code)
        is_missing = line.verb == "read" and code in (NEVER_RECEIVED, UNCONNECTED)
        (self.missing if is_missing else self.codes)[key] += 1

    def receivers(self, line: Line) -> list[Name]:
        owner = ENVIRONMENT if line.actor == ENVIRONMENT else split_actor(line.actor)[0]
        return self.bus.receivers((owner, line.part("target")))

    def fill(self, line: Line) -> None:
        """How full the queues are that a line fills."""
        if line.verb == "send":
            for name in self.receivers(line):
                self.fills[name] = max(self.fills[name], len(self.bus.queues[name]))
        elif line.verb == "ask" and line.part("code") == "0":
            point = self.bus.point(line.actor, Wish("ask", line.part("target")))
            server = self.plan.points[point].server
            if server and self.plan.servers[server].queue is not None:
                self.fills[server] = max(self.fills[server], len(self.bus.requests[server]))
        elif line.verb == "switch" and line.part("code") == "0":
            owner = ENVIRONMENT if line.actor == ENVIRONMENT else split_actor(line.actor)[0]
            name = (owner, line.part("target"))
            self.fills[name] = max(self.fills[name], len(self.bus.switches[name]))


def sums_of(trace: Trace, plan: BusPlan) -> Sums:
    """Goes through a trace once. Raises Unfitting at a line that is not what its program does next."""
    sums = Sums(plan, trace.version)
    for line in trace.lines:
        try:
            sums.take(line)
        except (Unfitting, *NOT_STARTED) as error:
            why = f": {error}" if isinstance(error, Unfitting) else ""
            raise Unfitting(f"{line.number}: `{line.text}` may not come here{why}") from error
    return sums


# ---- rows


def rows(sums: Sums, instances: int) -> Iterator[Row]:
    """All that was counted, table by table."""
    yield Row("totals", "", "instances", instances)
    for name, count in sums.totals.items():
        yield Row("totals", "", name, count)
    for (key, event), count in ordered(sums.starts):
        yield Row("starts", key, event, count)
    for (key, event), count in ordered(sums.refused):
        yield Row("not admitted", key, event, count)
    for (key, what, code), count in ordered(sums.codes):
        yield Row("codes that are not 0", key, what, count, named(code, what, key, sums.plan))
    for (key, what, code), count in ordered(sums.missing):
        yield Row("reads of nothing", key, what, count, named(code, what, key, sums.plan))
    for name, count in ordered(sums.lost):
        yield Row("values lost", ".".join(name), "", count)
    for name, length in queues(sums.plan):
        yield Row("greatest fill of queues", ".".join(name), "", sums.fills[name], f"of {length}")
    for (key, what, number, after), held in sorted(sums.clamped.items()):
        before = str(held.least) if held.least == held.most else f"{held.least} to {held.most}"
        word = f", word {number}" if number > 1 else ""
        yield Row("clamped values", key, what + word, held.count, f"{before} -> {after}, first in line {held.line}")


def ordered(counts: Counter) -> list[tuple]:
    return sorted(counts.items())


def named(code: int, what: str, key: str, plan: BusPlan) -> str:
    """A code with its name."""
    verb, _, target = what.partition(" ")
    if verb not in SERVED or code >= LOST:
        return f"{code} {CODES[code]}" if code in CODES else str(code)
    owner = ENVIRONMENT if key == ENVIRONMENT else split_actor(key)[0]
    name = plan.serves.get((owner, split_actor(key)[1])) if verb == "return" else (owner, target)
    errors = plan.operations.get(name, {}).get("errors", [])
    return " ".join([str(code), *(held["shortName"] for held in errors if held["code"] == code)])


def queues(plan: BusPlan) -> Iterator[tuple[Name, int]]:
    """All queues with their lengths: of receivers, of mapped servers, of mode machines."""
    for name, element in plan.elements.items():
        if element.kind == "queued" and not element.provided and element.joined:
            yield name, element.length
    for name, server in plan.servers.items():
        if server.queue is not None:
            yield name, server.queue
    for name, machine in plan.machines.items():
        yield name, machine.queue
