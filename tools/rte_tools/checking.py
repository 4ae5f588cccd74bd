"""What a check says of a trace: the first line that has no reading or breaks a clause, or that there is none.

It is apart from the program: fitting.py says what a line may be, and bus.py what is answered.
"""

from __future__ import annotations

from typing import Iterator

from rte_tools.bus import ENVIRONMENT, Bus, Held, split_actor, value_of
from rte_tools.bus_plan import BusPlan
from rte_tools.fitting import Reading
from rte_tools.refusal import Refusal
from rte_tools.trace import CLOSINGS, HEADER, RUN, Line, read_line
from rte_tools.verdicts import ENOUGH, script_lines, spelled, wish_of

SCRIPT_CLAUSE = 16
# The clause that speaks of what is answered to a verb.
CLAUSES = {
    **dict.fromkeys(("fetch", "fetchAll", "read", "isUpdated"), 7),
    **dict.fromkeys(("send", "receive"), 8),
    **dict.fromkeys(("ask", "answer", "result"), 9),
    "enter": 10,
    **dict.fromkeys(("switch", "mode"), 11),
    "admit": 12,
}


def checked(plan: BusPlan, trace: str, script: str) -> Refusal | None:
    """The refusal of a trace of a script that is not refused itself, or none where the trace is legal."""
    *lines, last = trace.split("\n")
    if not trace:
        return Refusal("illegal", SCRIPT_CLAUSE, line=1)
    if not lines or lines[0] not in (f"{HEADER}1", f"{HEADER}2"):
        return Refusal("bad", line=1)
    check = Check(plan, lines[0].removeprefix(HEADER), script)
    for number, text in enumerate(lines[1:], 2):
        refusal = check.take(read_line(number, text))
        if refusal:
            return refusal
    end = len(lines) + 1
    if last:
        return Refusal("bad", line=end)
    return Refusal("illegal", SCRIPT_CLAUSE, line=end) if check.inside or check.order else None


def orders(script: str) -> Iterator[str]:
    """What a script asks for, one call or run mark after the other."""
    for _, text, count in script_lines(script):
        yield from ["tick"] * count if text.startswith("tick ") else [text]


class Steps:
    """How far the lines before go, and which clause a line breaks behind them, whatever asked for it."""

    def __init__(self, plan: BusPlan, version: str):
        self.reading, self.bus = Reading(plan, version), Bus(plan, version)
        self.inside = False  # a run line
        self.made = 0  # entries of runnables and machines since the run mark
        self.asked: dict[str, str] = {}  # by activation: the point, where its last entry is an accepted ask

    def note(self, line: Line) -> None:
        if not line.actor:
            self.inside, self.made = line.verb == RUN, 0
        elif line.actor != ENVIRONMENT:
            self.made += 1
            self.asked.pop(line.actor, None)
            if line.verb == "ask" and line.part("code") == "0":
                self.asked[line.actor] = self.bus.point(line.actor, wish_of(line, self.bus))
        self.bus.note(line)

    # ---- the first clause that a line breaks, or 0

    def broken_closing(self, line: Line) -> int:
        """Of a closing word, within a run line."""
        holds = not self.bus.may_step() if line.verb == "idle" else self.made >= ENOUGH
        return 0 if holds else 15

    def broken_step(self, line: Line) -> int:
        """Of an entry of a runnable or of a machine."""
        if line.verb == "phase":
            instance, _, name = line.actor.partition(".")
            return 0 if line.text == f"{line.actor} phase {self.bus.phase((instance, name))}" else 11
        if line.verb == "start":
            return self.broken_start(line) if self.may_start(line) else 6
        return self.broken_answer(line) if self.goes_on(line) else 6

    def ordered_by(self, line: Line) -> str:
        """The script's line that asks for a call of the environment."""
        if line.is_tick:
            return "tick"
        words = [line.verb, line.part("target")]
        if line.verb == "switch":
            name = (ENVIRONMENT, line.part("target"))
            words.append(self.bus.plan.machines[name].modes[self.bus.mode_number(name, line.part("mode"))])
        elif line.verb in ("write", "send", "ask"):
            words.append(line.part("value"))
        return " ".join(words)

    def goes_on(self, line: Line) -> bool:
        """Whether an activation does what its program asks for next."""
        if line.actor not in self.bus.running or line.actor in self.bus.waits_for:
            return False
        return wish_of(line, self.bus) == self.bus.running[line.actor].next

    def may_start(self, line: Line) -> bool:
        """Whether none of its key runs; a direct server starts behind the ask at its point."""
        instance, runnable, point = split_actor(line.actor)
        if self.bus.plan.events[instance, line.part("event")].runnable != runnable or line.actor in self.bus.running:
            return False
        return not point or self.asked.get(point.rpartition(".")[0].rpartition(".")[0]) == point

    def broken_start(self, line: Line) -> int:
        """A server's start takes the oldest request, of its own point if it is direct; and the event is pending."""
        instance, _, point = split_actor(line.actor)
        event = self.bus.plan.events[instance, line.part("event")]
        if event.kind == "OperationInvokedEvent":
            named = line.fields[2]
            waiting = self.bus.requests[self.bus.counter(named)]
            is_oldest = not waiting or waiting[0] == (named, value_of(line.fields[3]))
            if not is_oldest or (point and point != named):
                return 9
        return 0 if self.bus.is_due((instance, line.part("event")), point) else 13

    def broken_answer(self, line: Line) -> int:
        """The clause of what is answered, where it is another than the line says."""
        if line.verb not in CLAUSES:
            return 0
        wish = wish_of(line, self.bus)
        answer = self.bus.answer(line.actor, wish)
        is_so = not isinstance(answer, Held) and spelled(self.bus, line.actor, wish, answer) == line.text
        return 0 if is_so else CLAUSES[line.verb]


class Check(Steps):
    """A trace of a script."""

    def __init__(self, plan: BusPlan, version: str, script: str):
        super().__init__(plan, version)
        self.left = orders(script)
        self.order = next(self.left, "")  # what the script asks for next

    def take(self, line: Line) -> Refusal | None:
        """The refusal of a line; or none, and the line is noted."""
        if not self.reading.fits(line):
            return Refusal("bad", line=line.number)
        clause = self.broken(line)
        if clause:
            return Refusal("illegal", clause, line=line.number)
        if line.actor in ("", ENVIRONMENT) and line.verb not in CLOSINGS:
            self.order = next(self.left, "")
        self.note(line)
        return None

    def broken(self, line: Line) -> int:
        if line.verb == RUN and not line.actor:
            return 0 if self.order == RUN and not self.inside else SCRIPT_CLAUSE
        if not line.actor:
            return self.broken_closing(line) if self.inside else 15
        if (line.actor == ENVIRONMENT) == self.inside:
            return SCRIPT_CLAUSE
        if line.actor != ENVIRONMENT:
            return self.broken_step(line)
        return SCRIPT_CLAUSE if self.order != self.ordered_by(line) else self.broken_answer(line)
