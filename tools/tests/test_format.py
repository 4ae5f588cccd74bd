"""The examples of refusals in docs/FORMAT.md: each is explained, and the program says what the page says."""

import json
import re
import unittest
from dataclasses import dataclass
from typing import Any

from support import DATA, WithFolder, program, run, text_of

from rte_tools.description import described
from rte_tools.explaining import explain
from rte_tools.files import read_schema
from rte_tools.located import read_json
from rte_tools.reference import one_line, read_format, section
from rte_tools.refusal import pointer_of, read_refusal

BULLET = re.compile(r"^- (`(\w+)`(?: as it is.+|, .+(?:\n  .+)*))", re.MULTILINE)
CHANGE = re.compile(r"(put|add) `([^`]+)` (?:at|to) `([^`]+)`|(leave out) `([^`]+)`")
REFUSAL = re.compile(r": `(refused rule \d+ at [^`]+)`$")
CAUSES = re.compile(r"^\| (\d+) \| .+? \| (.+) \| .+? \|$", re.MULTILINE)
FEWEST = 40  # examples that are found, so that a new layout of the page does not hide them


@dataclass(frozen=True)
class Example:
    base: str
    text: str
    says: str

    def description(self) -> Any:
        folder = DATA / ("bases" if self.base == "whole" else "examples") / self.base
        held = json.loads(text_of(folder / "description.json"))
        for verb, value, place, without, left_out in CHANGE.findall(self.text):
            change(held, verb or without, place or left_out, value)
        return held


def change(description: Any, verb: str, place: str, value: str) -> None:
    """One change: 'put V at P', 'add V to P' or 'leave out P'."""
    *way, last = place.split("/")[1:]
    held = description
    for key in way:
        held = held[int(key)] if isinstance(held, list) else held[key]
    key = int(last) if isinstance(held, list) else last
    if verb == "put":
        held[key] = json.loads(value)
    elif verb == "add":
        (held[key] if isinstance(held, list) else held.setdefault(key, [])).append(json.loads(value))
    else:
        del held[key]


def examples() -> list[Example]:
    found = []
    for text, base in BULLET.findall(section(read_format(), "The rules")):
        says = REFUSAL.search(one_line(text))
        if says:
            found.append(Example(base, one_line(text), says.group(1)))
    return found


class Refusals(WithFolder):
    def test_they_are_found(self) -> None:
        self.assertGreaterEqual(len(examples()), FEWEST)

    def test_each_place_is_there(self) -> None:
        shape = read_schema()
        for example in examples():
            value = example.description()
            place = read_refusal(example.says).place
            if not place.startswith("/"):
                self.assertTrue(shape.accepts(value), example.text)
                place = pointer_of(described(value), place)
                self.assertNotEqual(place, "/", example.text)
            self.assertIsNotNone(read_json(json.dumps(value)).find(place), example.text)

    def test_each_is_explained(self) -> None:
        script = self.write("script.txt", "")
        for example in examples():
            path = self.write("description.json", json.dumps(example.description()))
            lines = explain(read_refusal(example.says), path, script)
            self.assertIn("  Mend: ", "\n".join(lines), example.text)

    @unittest.skipUnless(program(), "the program is not built")
    def test_the_program_says_so(self) -> None:
        script = self.write("script.txt", "")
        for example in examples():
            path = self.write("description.json", json.dumps(example.description()))
            said = run([program(), "run", path, script]).stdout.decode()
            with self.subTest(example.text):
                self.assertEqual(said, example.says + "\n")


class ScriptLines(WithFolder):
    """The lines of the table of causes, each tried over door_control. Those with a dagger are of another plan."""

    def lines(self) -> list[tuple[str, str]]:
        found = CAUSES.findall(section(read_format(), "The script"))
        return [
            (line, cause)
            for cause, cell in found
            if cause != "4"
            for line, is_other in re.findall("`([^`]+)`( †)?", cell)
            if not is_other
        ]

    def test_each_is_explained(self) -> None:
        description = str(DATA / "examples" / "door_control" / "description.json")
        self.assertGreaterEqual(len(self.lines()), 20)
        for line, cause in self.lines():
            script = self.write("script.txt", f"run\n{line}\n")
            refusal = read_refusal(f"script refused line 2 cause {cause}")
            self.assertIn(f"{script}:2:", explain(refusal, description, script)[0])

    @unittest.skipUnless(program(), "the program is not built")
    def test_the_program_says_so(self) -> None:
        description = str(DATA / "examples" / "door_control" / "description.json")
        for line, cause in self.lines():
            script = self.write("script.txt", f"run\n{line}\n")
            with self.subTest(line):
                said = run([program(), "run", description, script]).stdout.decode()
                self.assertEqual(said, f"script refused line 2 cause {cause}\n")


if __name__ == "__main__":
    unittest.main()
