"""Runs made by turns over the bus: they are the expected texts of examples and rows, and what rows on one core show."""

from __future__ import annotations

import json
import re
import unittest
from pathlib import Path
from typing import Iterator

from support import DATA, EXAMPLES, edited, text_of

from rte_tools.turns import taken

REFUSED = ("refused", "script")
LEFT_OUT = ("two_start_each_other_for_ever", "wrong_expectation", "version_one")  # cut short, wrong on purpose, in version 1
ON_ONE_CORE = re.compile(r'^\$ change (\S+) (.*=> "cores": ?1( ;; .*)?)$')
CHANGE = re.compile(r"^\$ change (\S+) (.*)$")
LISTS, NEXT = "# ---- Coherent lists", "# ---- Checks"  # between these all changes that run are on one core


def made(folder: Path, edits: list[tuple[str, str]]) -> str:
    description = edited(text_of(folder / "description.json"), edits)
    return taken(json.loads(description), text_of(folder / "script.txt"))


def read_edits(text: str) -> list[tuple[str, str]]:
    """The edits of a row: `FROM => TO ;; ..`, with `\\n` for a newline; TO may be empty."""
    sides = [f"{edit} ".replace("\\n", "\n").split(" => ") for edit in text.split(" ;; ")]
    return [(old.removesuffix(" =>"), "".join(new).removesuffix(" ")) for old, *new in sides]


def rows_on_one_core() -> Iterator[tuple[str, list[tuple[str, str]], str]]:
    """The folder, the edits and what is shown of each row whose description is put onto one core and runs, and of those of lists."""
    lines = iter((DATA.parent / "stdout").read_text(encoding="utf-8", errors="surrogateescape").split("\n"))
    wanted = ON_ONE_CORE
    for line in lines:
        wanted = {LISTS: CHANGE, NEXT: ON_ONE_CORE}.get(line, wanted)
        if row := wanted.match(line):
            shown = []
            for said in lines:
                if said.startswith("status "):
                    break
                shown.append(f"{said}\n")
            if said == "status 0":
                yield row[1], read_edits(row[2]), "".join(shown)


class Turns(unittest.TestCase):
    def test_expected_texts(self) -> None:
        folders = [path.parent for path in sorted(DATA.glob("*/*/expected.txt"))]
        for folder in folders:
            expected = text_of(folder / "expected.txt")
            if expected.split(" ")[0] not in REFUSED and folder.name not in LEFT_OUT:
                with self.subTest(folder.name):
                    self.assertEqual(made(folder, []), expected)

    def test_rows_on_one_core(self) -> None:
        rows = list(rows_on_one_core())
        self.assertGreater(len(rows), len(EXAMPLES))
        for folder, edits, shown in rows:
            with self.subTest(folder, edits=edits):
                self.assertEqual(made(DATA / folder, edits), shown)


if __name__ == "__main__":
    unittest.main()
