#!/usr/bin/env python3
"""Checks the schema of descriptions: what it has to accept, and what it has to refuse.

It has to accept the descriptions of crates/worked_rows/data that the program reads, and each case of accepted.json; and
to refuse each case of broken.json. A case says what to change in the description bases/whole of these: `at` a JSON
pointer the `value`, or `without` what a pointer names. If a case has `says`, a validator has to say that.

Besides, each `default` and each of the `examples` in the schema has to be what the schema asks for at that place, and a
key that may be missing has a `default`, unless nothing stands for it.

The schema is tried by the checker of tools/rte_tools and, where it is installed, by Python's `jsonschema`.
The status is 1 where something is wrong, else 0.
"""

from __future__ import annotations

import copy
import json
import pathlib
import sys
from typing import Any, Callable, Iterator

HERE = pathlib.Path(__file__).resolve().parent
TOP = HERE.parent
DATA = TOP / "crates" / "worked_rows" / "data"
WHOLE = DATA / "bases" / "whole" / "description.json"
sys.path.insert(0, str(TOP / "tools"))

from rte_tools.shape import Shape  # noqa: E402

# Keys that may be missing and for which no one value stands then.
NO_DEFAULT = {"initValue", "disabledInModes"}

Messages = Callable[[Any, Any], Iterator[str]]  # what is wrong with a value, by a part of the schema


def read(path: pathlib.Path) -> Any:
    return json.loads(path.read_text(encoding="utf-8"))


def changed(description: Any, case: dict) -> Any:
    """The description with the case's change."""
    description = copy.deepcopy(description)
    *way, last = case.get("at", case.get("without")).split("/")[1:]
    held = description
    for key in way:
        held = held[int(key)] if isinstance(held, list) else held[key]
    last = int(last) if isinstance(held, list) else last
    if "without" in case:
        del held[last]
    else:
        held[last] = case["value"]
    return description


def good_descriptions() -> Iterator[tuple[str, Any]]:
    """Each description that the schema has to accept, with what to call it."""
    whole = read(WHOLE)
    for case in read(HERE / "accepted.json"):
        yield case["why"], changed(whole, case)
    for name, path in data_files():
        yield name, read(path)


def data_files() -> Iterator[tuple[str, pathlib.Path]]:
    """The descriptions of the table of rows."""
    for path in sorted(DATA.glob("*/*/description.json")):
        yield f"{path.parent.parent.name}/{path.parent.name}", path


def parts(schema: Any, name: str = "the schema") -> Iterator[tuple[str, dict]]:
    """Each part of the schema that is itself a schema, with its way."""
    if not isinstance(schema, dict):
        return
    yield name, schema
    for key in ("properties", "$defs"):
        for below, part in schema.get(key, {}).items():
            yield from parts(part, f"{name}/{key}/{below}")
    for key in ("items", "if", "then", "else"):
        yield from parts(schema.get(key), f"{name}/{key}")
    for key in ("prefixItems", "allOf"):
        for number, part in enumerate(schema.get(key, [])):
            yield from parts(part, f"{name}/{key}/{number}")


def wrong_samples(schema: dict, messages: Messages) -> Iterator[str]:
    """What the schema gives as an example or a default and does not ask for."""
    for name, part in parts(schema):
        samples = part.get("examples", []) + ([part["default"]] if "default" in part else [])
        for sample in samples:
            for message in messages(sample, part):
                yield f"{name} has a sample that it refuses: {message}"


def missing_defaults(schema: dict) -> Iterator[str]:
    """The keys that may be missing and have no default."""
    for name, part in parts(schema):
        for key, held in part.get("properties", {}).items():
            if "additionalProperties" not in part or not isinstance(held, dict):
                continue
            if key not in part.get("required", []) and key not in NO_DEFAULT and "default" not in held:
                yield f"{name}: the key {key} may be missing and has no default"


def wrong_cases(messages: Messages, good: list, broken: list, says: bool = False) -> Iterator[str]:
    """What the schema refuses or accepts and should not; with `says` also what is not said of a refused one."""
    whole = read(WHOLE)
    for name, description in good:
        for message in messages(description, None):
            yield f"refuses {name}: {message}"
    for case in broken:
        said = messages(changed(whole, case), None)
        if says and "says" in case:
            if case["says"] not in said:
                yield f"does not say it of {case}"
        elif next(said, None) is None:
            yield f"accepts {case}"


def own_messages(schema: dict) -> Messages:
    shape = Shape(schema)
    return lambda value, part: (fault.message for fault in shape.faults(value, part))


def library_messages(schema: dict) -> Messages | None:
    """The messages of Python's jsonschema, or none where it is not installed."""
    try:
        from jsonschema import Draft202012Validator
    except ImportError:
        return None
    Draft202012Validator.check_schema(schema)
    validator = Draft202012Validator(schema)

    def messages(value: Any, part: Any) -> Iterator[str]:
        judge = validator if part is None else validator.evolve(schema={**part, "$defs": schema["$defs"]})
        return (error.message for error in judge.iter_errors(value))

    return messages


def main() -> int:
    schema = read(HERE / "description.schema.json")
    good, broken = list(good_descriptions()), read(HERE / "broken.json")
    own, library = own_messages(schema), library_messages(schema)
    wrong = list(missing_defaults(schema)) + list(wrong_samples(schema, own)) + list(wrong_cases(own, good, broken))
    if library is None:
        print("skipped: Python's jsonschema is not installed")
    else:
        wrong += list(wrong_samples(schema, library)) + list(wrong_cases(library, good, broken, True))
    for line in wrong:
        print(line)
    print(
        f"{len(good)} descriptions accepted, {len(broken)} broken ones refused" if not wrong else f"{len(wrong)} wrong"
    )
    return 1 if wrong else 0


if __name__ == "__main__":
    sys.exit(main())
