"""Checks a value against the schema of descriptions, with messages for people.

It knows the keywords that `schema/description.schema.json` uses; another one is a KeyError. A whole number is one that
is written without fraction and exponent, as rule 2 asks.
"""

from __future__ import annotations

import difflib
import re
import sys
from dataclasses import dataclass
from typing import Any, Callable, Iterable, Iterator

Schema = Any  # an object of keywords, or true

DEEP = 10_000  # calls within one another: 127 brackets may be open at once, and each takes some ten
NOTES = {"$schema", "$defs", "title", "description", "default", "examples"}
BRANCHES = {"then", "else"}
TYPES = {
    "object": (dict, "an object"),
    "array": (list, "a list"),
    "string": (str, "a text"),
    "integer": (int, "a whole number"),
    "boolean": (bool, "true or false"),
}


@dataclass(frozen=True)
class Fault:
    """What is wrong at a place, and what the schema says of that place."""

    place: str
    message: str
    note: str


# ---- what a value says by itself: each gives a message, or nothing


def wrong_type(value: Any, wanted: Any) -> str:
    kinds = wanted if isinstance(wanted, list) else [wanted]
    if any(is_of(value, kind) for kind in kinds):
        return ""
    said = f"the text {spelled(value)}" if isinstance(value, str) else spelled(value)
    return f"{said} is not {' or '.join(TYPES[kind][1] for kind in kinds)}"


def not_listed(value: Any, wanted: list) -> str:
    return "" if value in wanted else f"{spelled(value)} is none of {listed(wanted)}{nearest(value, wanted)}"


def not_equal(value: Any, wanted: Any) -> str:
    return "" if value == wanted else f"{spelled(value)} is not {spelled(wanted)}"


def too_small(value: Any, wanted: int) -> str:
    return f"{value} is less than {wanted}" if is_of(value, "integer") and value < wanted else ""


def too_large(value: Any, wanted: int) -> str:
    return f"{value} is more than {wanted}" if is_of(value, "integer") and value > wanted else ""


def no_name(value: Any, wanted: str) -> str:
    if not isinstance(value, str) or re.search(wanted, value):
        return ""
    return f"{spelled(value)} is not a name; it has {len(value.encode('utf-8', 'replace'))} bytes"


def too_few(value: Any, wanted: int) -> str:
    if not isinstance(value, list) or len(value) >= wanted:
        return ""
    return f"there are {len(value)} parts, and {wanted} have to be there"


def too_many(value: Any, wanted: int) -> str:
    if not isinstance(value, list) or len(value) <= wanted:
        return ""
    return f"there are {len(value)} parts, and at most {wanted} may be there"


CHECKS: dict[str, Callable[[Any, Any], str]] = {
    "type": wrong_type,
    "enum": not_listed,
    "const": not_equal,
    "minimum": too_small,
    "maximum": too_large,
    "pattern": no_name,
    "minItems": too_few,
    "maxItems": too_many,
}


class Shape:
    """A schema, ready to look at values."""

    def __init__(self, schema: Schema):
        self.schema = schema
        self.ways = {
            "$ref": self.reference,
            "prefixItems": self.first_items,
            "items": self.other_items,
            "properties": self.properties,
            "required": self.required,
            "additionalProperties": self.other_properties,
            "allOf": self.all_of,
            "if": self.condition,
        }
        sys.setrecursionlimit(max(DEEP, sys.getrecursionlimit()))

    def faults(self, value: Any, schema: Schema = None, place: str = "", note: str = "") -> Iterator[Fault]:
        """All that is wrong with the value. Places are as in refusals, but for the whole, which is empty."""
        schema = self.schema if schema is None else schema
        if schema is True:
            return
        note = schema.get("description", note)
        for keyword, wanted in schema.items():
            if keyword in CHECKS:
                message = CHECKS[keyword](value, wanted)
                if message:
                    yield Fault(place, message, "" if keyword == "enum" else note)
            elif keyword not in NOTES and keyword not in BRANCHES:
                yield from self.ways[keyword](value, schema, place, note)

    def accepts(self, value: Any, schema: Schema = None) -> bool:
        return next(self.faults(value, schema), None) is None

    # ---- ways to the parts of a value, or to other parts of the schema

    def reference(self, value: Any, schema: Schema, place: str, note: str) -> Iterator[Fault]:
        held = self.schema
        for part in schema["$ref"].split("/")[1:]:
            held = held[part]
        if "description" in schema:
            held = {**held, "description": schema["description"]}
        yield from self.faults(value, held, place, note)

    def first_items(self, value: Any, schema: Schema, place: str, note: str) -> Iterator[Fault]:
        if isinstance(value, list):
            for number, (item, wanted) in enumerate(zip(value, schema["prefixItems"])):
                yield from self.faults(item, wanted, f"{place}/{number}", note)

    def other_items(self, value: Any, schema: Schema, place: str, note: str) -> Iterator[Fault]:
        if isinstance(value, list):
            for number in range(len(schema.get("prefixItems", [])), len(value)):
                yield from self.faults(value[number], schema["items"], f"{place}/{number}", note)

    def properties(self, value: Any, schema: Schema, place: str, note: str) -> Iterator[Fault]:
        if isinstance(value, dict):
            for key, wanted in schema["properties"].items():
                if key in value:
                    yield from self.faults(value[key], wanted, f"{place}/{key}", note)

    def required(self, value: Any, schema: Schema, place: str, note: str) -> Iterator[Fault]:
        for key in schema["required"]:
            if isinstance(value, dict) and key not in value:
                yield Fault(place, f"the key `{key}` is missing", note)

    def other_properties(self, value: Any, schema: Schema, place: str, note: str) -> Iterator[Fault]:
        known = schema["properties"]
        for key in value if isinstance(value, dict) else []:
            if key not in known:
                message = f"there is no key {spelled(key)} here; the keys are {listed(known)}{nearest(key, known)}"
                yield Fault(place, message, note)

    def all_of(self, value: Any, schema: Schema, place: str, note: str) -> Iterator[Fault]:
        for part in schema["allOf"]:
            yield from self.faults(value, part, place, note)

    def condition(self, value: Any, schema: Schema, place: str, note: str) -> Iterator[Fault]:
        branch = "then" if self.accepts(value, schema["if"]) else "else"
        if branch in schema:
            yield from self.faults(value, schema[branch], place, note)


def is_of(value: Any, kind: str) -> bool:
    """Whether a value is of a type of the schema. In Python true is a whole number; here it is none."""
    if isinstance(value, bool):
        return kind == "boolean"
    return isinstance(value, TYPES[kind][0])


def spelled(value: Any) -> str:
    """A value in a message, cut where it is long."""
    if value is None or isinstance(value, bool):
        return {None: "null", True: "true", False: "false"}[value]
    if isinstance(value, (list, dict)):
        return "a list" if isinstance(value, list) else "an object"
    text = str(value)
    text = text if len(text) <= 60 else text[:57] + "..."
    return f"`{text}`" if isinstance(value, str) else text


def listed(names: Iterable[Any]) -> str:
    return ", ".join(f"`{name}`" for name in names)


def nearest(name: Any, names: Iterable[Any]) -> str:
    """A hint at the name that was perhaps meant."""
    close = difflib.get_close_matches(str(name), [str(known) for known in names], 1, 0.6)
    return f"; perhaps `{close[0]}` was meant" if close else ""
