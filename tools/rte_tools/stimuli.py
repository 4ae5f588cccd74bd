"""Stimuli: what four feeds give to a live node, and the first bad line (docs/FORMAT.md, 'Stimuli')."""

from __future__ import annotations

from typing import Any, NamedTuple

from rte_tools.bus_plan import BusPlan
from rte_tools.refusal import Refusal
from rte_tools.script_check import MOST_LINES, cause_of
from rte_tools.trace import FEEDS, RUN

STOP = "stop"
MOST_CORES, MOST_WISHES = 7, 65_536
NO_FORM, TOO_MANY = 1, 4  # causes


class Wished(NamedTuple):
    """What a feed asks for: a tick, or a call as a line of a script has it; and the number of its line of the stimuli."""

    order: str
    line: int


def crowded(value: dict[str, Any]) -> Refusal | None:
    """The refusal of a description with more cores than a live node may have, or none."""
    return Refusal("too many cores") if value["mapping"]["cores"] > MOST_CORES else None


def lines_of(text: str) -> list[str]:
    return text.removesuffix("\n").split("\n") if text else []


def is_silent(text: str) -> bool:
    """Whether a line says nothing."""
    return text == "" or text.startswith("#")


def is_of_feed(text: str) -> bool:
    return text[:1] in FEEDS and text[1:2] == " "


def count_of(text: str) -> int:
    """How many wishes a good line gives to its feed."""
    if not is_of_feed(text):
        return 0
    return int(text.removeprefix(f"{text[0]} tick ")) if text[2:].startswith("tick ") else 1


def cause_of_line(text: str, plan: BusPlan) -> int:
    """The cause for which a line is bad by itself, from 1 to 3, or 0."""
    if is_silent(text) or text == STOP:
        return 0
    said = text[2:] if is_of_feed(text) else ""
    return NO_FORM if is_silent(said) or said == RUN else cause_of(said, plan)


def first_bad_stimulus(text: str, plan: BusPlan) -> Refusal | None:
    """The refusal of stimuli over a plan, or none. If no line stops, the one behind the last is bad."""
    lines = lines_of(text)
    stopped, wishes = False, 0
    for number, line in enumerate(lines, 1):
        cause = NO_FORM if stopped else cause_of_line(line, plan)
        if not cause:
            stopped = line == STOP
            wishes += count_of(line)
            cause = TOO_MANY if number > MOST_LINES or wishes > MOST_WISHES else 0
        if cause:
            return Refusal("script", cause, line=number)
    return None if stopped else Refusal("script", NO_FORM, line=len(lines) + 1)


def feeds_of(text: str) -> list[list[Wished]]:
    """What each of the four feeds asks for, of stimuli that are good."""
    feeds: list[list[Wished]] = [[] for _ in FEEDS]
    for number, line in enumerate(lines_of(text), 1):
        if is_of_feed(line):
            is_tick = line[2:].startswith("tick ")
            feeds[int(line[0])] += [Wished("tick" if is_tick else line[2:], number)] * count_of(line)
    return feeds


def next_of(feeds: list[list[Wished]], places: list[int], texts: list[str]) -> list[str]:
    """What each feed asks for behind so many of its wishes; `texts` are the lines of the stimuli."""
    said = []
    for feed, (wishes, place) in enumerate(zip(feeds, places)):
        if place < len(wishes):
            number = wishes[place].line
            begun = next(at for at in range(place, -1, -1) if at == 0 or wishes[at - 1].line != number)
            done = f", of which {place - begun:,} ticks are done" if place > begun else ""
            said.append(f"Feed {feed} goes on with line {number} of the stimuli, `{texts[number - 1]}`{done}.")
        elif wishes:
            said.append(f"Feed {feed} is done.")
    return said or ["The stimuli have no wish."]
