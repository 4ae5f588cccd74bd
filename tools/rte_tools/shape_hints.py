"""Hints to rules 2 and 3: what the schema says of a place, and what was perhaps meant there."""

from __future__ import annotations

import re
from typing import Any, Iterator

from rte_tools.shape import Fault, Shape

MOST_FAULTS = 3  # how many are told at one place
MOST_HOMES = 2  # of a key that is told where it belongs
UNKNOWN_KEY = re.compile(r"there is no key `([^`]+)` here")
NO_OPERATOR = re.compile(r"`(\w+)` is none of `add`")
# What stands for operators that the language does not have.
OPERATORS = {
    "gt": '`a` is greater than `b` by `["lt","b","a"]`',
    "ge": '`a` is greater than `b` or the same by `["le","b","a"]`',
    "mod": 'the remainder is `["sub","a",["mul","b",["div","a","b"]]]`',
    "and": 'both hold by `["mul","a","b"]`, if each is 0 or 1',
    "or": 'one of them holds by `["ne",["add","a","b"],0]`, if each is 0 or 1',
    "not": '`a` does not hold by `["eq","a",0]`',
    "neg": 'the negative is `["sub",0,"a"]`',
}


def shape_hints(shape: Shape, value: Any, faults: list[Fault], place: str) -> Iterator[str]:
    """What the schema says of the place and of what is below it."""
    above = "" if place == "/" else place
    told: set[str] = set()
    for fault in [fault for fault in faults if (fault.place + "/").startswith(above + "/")][:MOST_FAULTS]:
        yield fault.message[0].upper() + fault.message[1:] + "."
        meant = meaning(shape, fault)
        if meant:
            yield meant
        elif fault.note and fault.note not in told:
            told.add(fault.note)
            yield f"The schema says: {fault.note}"


def meaning(shape: Shape, fault: Fault) -> str:
    """What was perhaps meant, or nothing."""
    operator = NO_OPERATOR.match(fault.message)
    if operator:
        held = OPERATORS.get(operator[1], "")
        return held and f"There is no `{operator[1]}`: {held}."
    key = UNKNOWN_KEY.match(fault.message)
    if not key:
        return ""
    if key[1] == "$schema":
        return "A description does not name its schema. Name it in the settings of the editor: docs/FORMAT.md, 'The schema'."
    homes = homes_of(shape, key[1])
    if homes == ["Com spec"]:
        return f"`{key[1]}` stands in an object of the port's `comSpecs`, beside the `element` that it is for."
    return f"`{key[1]}` is a key of: {', '.join(homes)}." if 0 < len(homes) <= MOST_HOMES else ""


def homes_of(shape: Shape, key: str) -> list[str]:
    """The titles of the objects that have a key."""
    return [held["title"] for held in shape.schema["$defs"].values() if key in held.get("properties", {}) and "title" in held]
