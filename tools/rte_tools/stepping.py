"""Goes through a trace as the bus does: whether each line is one that may come, without the script and without the program."""

from __future__ import annotations

from rte_tools.bus import Bus, Held, split_actor, value_of
from rte_tools.bus_plan import ENVIRONMENT, BusPlan
from rte_tools.trace import CLOSINGS, RUN, STOPPED, Line, Trace
from rte_tools.verdicts import spelled, wish_of

UNREADABLE = (LookupError, ValueError)  # a field is missing, or is no number


class Stepper:
    """The state after the lines that were taken."""

    def __init__(self, plan: BusPlan, version: str, is_live: bool = False):
        self.bus = Bus(plan, version)
        self.inside = False  # a run line
        self.is_served = is_live  # up to the word `stopped` the environment and runnables act side by side

    def take(self, line: Line) -> None:
        if not line.actor:
            self.inside, self.is_served = line.verb == RUN, False
        self.bus.note(line)

    def fault(self, line: Line) -> str:
        """Why a line may not come next, or nothing."""
        if not line.actor:
            return self.mark_fault(line)
        if (line.actor == ENVIRONMENT) == self.inside and not self.is_served:
            return "it stands on the wrong side of a run mark"
        if line.is_tick:
            return ""
        if line.verb == "phase":
            return self.phase_fault(line)
        return self.start_fault(line) if line.verb == "start" else self.entry_fault(line)

    def mark_fault(self, line: Line) -> str:
        if line.verb == "waiting":
            return "the program writes no such line"
        if self.is_served or line.verb == STOPPED:
            return "" if self.is_served and line.verb == STOPPED else f"`{STOPPED}` stands behind the stimuli, once"
        if self.inside != (line.verb in CLOSINGS):
            return "a run line is open" if self.inside else "no run line is open"
        left = self.bus.may_step() if line.verb == "idle" else ""
        return f"something may still step: {left}" if left else ""

    def phase_fault(self, line: Line) -> str:
        instance, _, name = line.actor.partition(".")
        step = self.bus.phase((instance, name))
        if isinstance(step, Held):
            return step.why
        return "" if line.text == f"{line.actor} phase {step}" else f"`phase {step}` comes next"

    def start_fault(self, line: Line) -> str:
        instance, _, point = split_actor(line.actor)
        event = self.bus.plan.events[instance, line.part("event")]
        if line.actor in self.bus.running:
            return "it runs already"
        if not self.bus.is_due((instance, line.part("event")), point):
            return "its event is not pending"
        if event.kind == "OperationInvokedEvent":
            oldest = self.bus.requests[point or event.of][0]
            if (line.fields[2], value_of(line.fields[3])) != oldest:
                return f"the oldest request is that of `{oldest[0]}`"
        return ""

    def entry_fault(self, line: Line) -> str:
        wish = wish_of(line, self.bus)
        if line.actor != ENVIRONMENT:
            if line.actor not in self.bus.running:
                return f"no activation of `{line.actor}` runs"
            if line.actor in self.bus.waits_for:
                return f"it waits until `{self.bus.waits_for[line.actor]}` has ended"
            wish = self.bus.running[line.actor].next
        answer = self.bus.answer(line.actor, wish)
        if isinstance(answer, Held):
            return answer.why
        text = spelled(self.bus, line.actor, wish, answer)
        return "" if text == line.text else f"the line would be `{text}`"


def first_fault(trace: Trace, plan: BusPlan) -> tuple[Line, str] | None:
    """The first line of a trace that may not come after those before it, and why; or none."""
    stepper = Stepper(plan, trace.version, trace.is_live)
    for line in trace.lines:
        try:
            why = stepper.fault(line)
            if not why:
                stepper.take(line)
        except UNREADABLE:
            why = "it is not spelled as an entry"
        if why:
            return line, why
    return None
