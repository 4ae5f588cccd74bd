"""Whether a line of a trace is the one spelling of an entry that fits the description: docs/FORMAT.md, 'The trace'."""

from __future__ import annotations

import re
from typing import Callable

from rte_tools.activation import LEAST, MOST
from rte_tools.bus import ENVIRONMENT, split_actor
from rte_tools.bus_plan import BusPlan, Element, Name
from rte_tools.trace import OF_LISTS, PARTS, RUN, Line, by_element

WORD = re.compile(r"0|-?[1-9][0-9]*")
NUMBER = re.compile(r"0|[1-9][0-9]*")
MOST_WORDS, CODES, SERVED_CODES = 16, 256, 64  # of a value; codes are below 256, and those of a return below 64
LONGEST_LINE = 2048
STEPS = ("exit", "transition", "entry", "stable")
# The verbs of elements: the kinds that they are for, and whether that is the side that provides. A variable has no sides.
ELEMENTS = {
    "fetch": (("unqueued", "variable"), False),
    "read": (("unqueued", "variable"), False),
    "write": (("unqueued", "variable"), True),
    "publish": (("unqueued", "variable"), True),
    "invalidate": (("unqueued",), True),
    "isUpdated": (("unqueued",), False),
    "send": (("queued",), True),
    "receive": (("queued",), False),
}
OF_ENVIRONMENT = ("tick", "write", "read", "send", "receive", "ask", "result", "switch", "mode")
OF_MACHINES = ("phase",)


def is_number(text: str, end: int) -> bool:
    return NUMBER.fullmatch(text) is not None and int(text) < end


def is_value(text: str) -> bool:
    words = [] if text == "-" else text.split(",")
    fit = all(WORD.fullmatch(word) is not None and LEAST <= int(word) <= MOST for word in words)
    return fit and len(words) <= MOST_WORDS


def count_of(value: str) -> int:
    """How many words a value has."""
    return 0 if value == "-" else value.count(",") + 1


class Reading:
    """What fits a plan, in a version of the trace."""

    def __init__(self, plan: BusPlan, version: str):
        self.plan, self.version = plan, version
        self.machines = {".".join(name): name for name in plan.machines}
        self.verbs: dict[str, Callable[[Line, str], bool]] = {
            **dict.fromkeys(ELEMENTS, self.of_element),
            **dict.fromkeys(OF_LISTS, self.of_list),
            **dict.fromkeys(("ask", "answer", "result"), self.of_point),
            **dict.fromkeys(("enter", "exit"), self.of_area),
            **dict.fromkeys(("tick", "admit", "end"), lambda line, owner: True),
            "return": lambda line, owner: int(line.part("code")) < SERVED_CODES,
            "switch": self.of_machine,
            "mode": self.of_mode_port,
            "start": self.of_start,
            "phase": self.of_phase,
        }

    def fits(self, line: Line) -> bool:
        if not line.actor:
            return line.text in (RUN, "idle", "unsettled")
        if len(line.text.encode("utf-8", "surrogateescape")) > LONGEST_LINE or not self.may_act(line):
            return False
        if line.verb not in ("start", "phase") and len(line.fields) != len(PARTS.get(line.verb, ())):
            return False
        return self.are_numbers(line) and self.verbs[line.verb](line, line.actor.partition("@")[0].partition(":")[0])

    def may_act(self, line: Line) -> bool:
        """Whether there is such an actor, and its entries may have the verb."""
        if line.actor == ENVIRONMENT:
            return line.verb in OF_ENVIRONMENT
        if line.actor in self.machines:
            return line.verb in OF_MACHINES
        return line.verb in self.verbs and line.verb not in ("tick", "phase") and self.is_key(line.actor)

    def is_key(self, actor: str) -> bool:
        """An activation has a point if its runnable serves directly, and it is one that is joined to its operation."""
        instance, runnable, point = split_actor(actor)
        served = self.plan.serves.get((instance, runnable))
        is_direct = served is not None and self.plan.servers[served].queue is None
        if (instance, runnable) not in self.plan.runnables or is_direct != ("@" in actor):
            return False
        return not is_direct or self.calls(point, served)

    def calls(self, point: str, server: Name) -> bool:
        return point in self.plan.points and self.plan.points[point].server == server

    def are_numbers(self, line: Line) -> bool:
        """Codes, values and what else is spelled in one way."""
        code, value = line.part("code"), line.part("value")
        if "code" in PARTS.get(line.verb, ()) and not is_number(code, 1 if line.verb in ("write", "invalidate") else CODES):
            return False
        if "value" in PARTS.get(line.verb, ()) and not is_value(value):
            return False
        answers = {"admit": ("yes", "no"), "isUpdated": ("0", "1")}
        return line.verb not in answers or line.part("answer") in answers[line.verb]

    # ---- what stands behind a verb. `owner` is the instance, or the environment

    def of_element(self, line: Line, owner: str) -> bool:
        element: Element | None = self.plan.elements.get((owner, line.part("target")))
        kinds, provided = ELEMENTS[line.verb]
        if element is None or element.kind not in kinds or (owner == ENVIRONMENT and element.kind == "variable"):
            return False
        gives = line.verb in ("write", "publish", "send")
        return (element.kind == "variable" or element.provided == provided) and (
            not gives or count_of(line.part("value")) == element.words
        )

    def of_list(self, line: Line, owner: str) -> bool:
        """A list of reads of the runnable, or one of writes whose marked elements have as many words as the value."""
        instance, runnable, _ = split_actor(line.actor)
        lists = self.plan.lists[instance, runnable]
        if not is_number(line.part("list"), len(lists)):
            return False
        held = lists[int(line.part("list"))]
        if line.verb == "fetchAll" or held.reads:
            return held.reads == (line.verb == "fetchAll")
        if re.fullmatch(f"[01]{{{len(held.elements)}}}", line.part("marks")) is None:
            return False
        words_of = self.plan.words_of(line.actor)
        return count_of(line.part("value")) == sum(words_of(element) for element, _ in by_element(line, held.elements, words_of))

    def of_point(self, line: Line, owner: str) -> bool:
        if line.verb == "result":
            return (owner, line.part("target")) in self.plan.results
        return f"{line.actor.partition('@')[0]}.{line.part('target')}" in self.plan.points

    def of_area(self, line: Line, owner: str) -> bool:
        return (owner, line.part("target")) in self.plan.areas

    def is_mode(self, machine: Name, text: str, with_transition: bool) -> bool:
        modes = self.plan.machines[machine].modes
        if self.version == "1":
            return is_number(text, len(modes) + with_transition)
        return text in modes or (with_transition and text == "-")

    def of_machine(self, line: Line, owner: str) -> bool:
        name = (owner, line.part("target"))
        return name in self.plan.machines and self.is_mode(name, line.part("mode"), False)

    def of_mode_port(self, line: Line, owner: str) -> bool:
        machine = self.plan.mode_ports.get((owner, line.part("target")))
        return machine is not None and self.is_mode(machine, line.part("mode"), True)

    def of_phase(self, line: Line, owner: str) -> bool:
        if line.part("step") == "close":
            return len(line.fields) == 2 and self.is_mode(self.machines[line.actor], line.part("mode"), False)
        return len(line.fields) == 1 and line.part("step") in STEPS

    def of_start(self, line: Line, owner: str) -> bool:
        """A server's start names a point that is joined to it."""
        event = self.plan.events.get((owner, line.part("event")))
        if event is None or event.kind != "OperationInvokedEvent":
            return event is not None and len(line.fields) == 1
        if len(line.fields) != 4 or line.fields[1] != "from" or not is_value(line.fields[3]):
            return False
        return self.calls(line.fields[2], event.of)
