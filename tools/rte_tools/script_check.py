"""The first bad line of a script, with the cause that docs/FORMAT.md has for it."""

from __future__ import annotations

import re

from rte_tools.bus import ENVIRONMENT, value_of
from rte_tools.bus_plan import BusPlan
from rte_tools.refusal import Refusal

MOST_LINES, MOST_TICKS, MOST_RUNS = 100_000, 1_000_000, 1_000
MOST_TICKS_OF_A_LINE = 100_000
LEAST, MOST = -(2**63), 2**63 - 1

NAME = "[A-Za-z][A-Za-z0-9_]{0,31}"
WORD = "(?:0|-?[1-9][0-9]*)"
FORM = re.compile(
    r"(?P<run>run)|tick (?P<ticks>[1-9][0-9]{0,5})"
    rf"|(?P<verb>write|send|ask|read|receive|result|switch|mode) (?P<target>{NAME}\.{NAME})(?: (?P<third>[^ ]+))?"
)
VALUE = re.compile(rf"-|{WORD}(?:,{WORD})*")
GIVING = ("write", "send", "ask")
ELEMENTS = {"write": ("unqueued", True), "send": ("queued", True), "read": ("unqueued", False), "receive": ("queued", False)}


def first_bad_line(script: str, plan: BusPlan) -> Refusal | None:
    """The refusal of a script over a plan, or none. Lines are counted with those that do nothing."""
    ticks = runs = 0
    for number, text in enumerate(script.removesuffix("\n").split("\n") if script else (), 1):
        cause = 0
        if text and not text.startswith("#"):
            cause = cause_of(text, plan)
            ticks += int(text[5:]) if not cause and text.startswith("tick ") else 0
            runs += text == "run"
        if not cause and (number > MOST_LINES or ticks > MOST_TICKS or runs > MOST_RUNS):
            cause = 4
        if cause:
            return Refusal("script", cause, line=number)
    return None


def cause_of(text: str, plan: BusPlan) -> int:
    """The cause for which a line is bad by itself, from 1 to 3, or 0."""
    form = FORM.fullmatch(text)
    if not form or int(form["ticks"] or 0) > MOST_TICKS_OF_A_LINE:
        return 1
    if not form["verb"]:
        return 0
    verb, target, third = form["verb"], form["target"], form["third"]
    if not third_fits(verb, third):
        return 1
    if not is_offered(verb, target, plan) or (verb == "switch" and third not in plan.machines[ENVIRONMENT, target].modes):
        return 2
    return 3 if verb in GIVING and not is_of_type(verb, target, third, plan) else 0


def third_fits(verb: str, third: str | None) -> bool:
    """Whether what stands behind the name is written as the form asks."""
    if verb in GIVING or verb == "switch":
        return third is not None and (VALUE if verb in GIVING else re.compile(NAME)).fullmatch(third) is not None
    return third is None


def is_offered(verb: str, target: str, plan: BusPlan) -> bool:
    """Whether the environment has a thing of that name for which the form is."""
    name = (ENVIRONMENT, target)
    if verb in ELEMENTS:
        element = plan.elements.get(name)
        return element is not None and (element.kind, element.provided) == ELEMENTS[verb]
    return name in {"ask": plan.results, "result": plan.results, "switch": plan.machines, "mode": plan.mode_ports}[verb]


def is_of_type(verb: str, target: str, third: str, plan: BusPlan) -> bool:
    """Whether a value has as many words as is asked for, each within its limits."""
    name, words = (ENVIRONMENT, target), value_of(third)
    if verb == "ask":
        limits = plan.limits(name, "in")
    else:
        limits = [plan.elements[name].limits] * plan.elements[name].words
    if len(words) != len(limits) or not all(LEAST <= word <= MOST for word in words):
        return False
    return all(low <= word <= high for word, (low, high) in zip(words, limits))
