"""docs/SECOND_NODE.md, followed step by step: what it prints is what comes, and what is built in the end is the example.

The page's blocks are taken in their order. Each run is made by turns, apart from the program; of a node with several cores that is
one order, so the lines that the environment reads are compared.
"""

from __future__ import annotations

import json
import re
import unittest
from typing import Any

from support import DATA, TOP, WithFolder, edited, program, run, run_tool, text_of

from rte_tools.turns import taken

PAGE = TOP / "docs" / "SECOND_NODE.md"
GREENHOUSE = DATA / "examples" / "greenhouse"
BLOCK = re.compile(r"^```(json)?\n(.*?)^```$", re.MULTILINE | re.DOTALL)
READ = ("env mode ", "env read ", "env result ")


class Page:
    """The blocks of JSON, and those of commands, scripts and outputs, in the order of the page."""

    def __init__(self) -> None:
        found = BLOCK.findall(text_of(PAGE))
        self.json = [text for kind, text in found if kind]
        self.plain = [text for kind, text in found if not kind]
        types, mean, first_top, control, vent, top, started_by_data, connector = self.json
        self.first = types + mean + first_top
        self.by_clock = types + mean + control + vent + top
        connectors = '   "connectors":[\n'
        self.by_data = types + mean + "  ,\n" + started_by_data + vent + edited(top, [(connectors, connectors + connector)])

    def after(self, beginning: str, count: int = 1) -> str:
        """The block that comes so many blocks behind the first one that begins so."""
        at = next(number for number, text in enumerate(self.plain) if text.startswith(beginning))
        return self.plain[at + count]

    def script(self, beginning: str) -> str:
        return next(text for text in self.plain if text.startswith(beginning))

    def morning(self) -> str:
        return self.script("# four samples of the morning")

    def day(self) -> str:
        return self.morning() + self.script("# the sun comes out")


def reads(trace: str) -> str:
    return "".join(f"{line}\n" for line in trace.splitlines() if line.startswith(READ))


def made(description: str, script: str) -> str:
    return taken(json.loads(description), script)


class SecondNode(WithFolder):
    def setUp(self) -> None:
        super().setUp()
        self.page = Page()

    def test_the_first_run(self) -> None:
        script = self.page.script("send air.sample 22,26\nsend air.sample 20,24")
        self.assertEqual(made(self.page.first, script), self.page.script("rte-trace 2\n"))

    def test_the_morning(self) -> None:
        shown = self.page.script("env mode state.now Normal\nenv read flap.percent 0 20\n")
        for description in (self.page.by_clock, self.page.by_data):
            self.assertEqual(reads(made(description, self.page.morning())), shown)

    def test_the_whole_day(self) -> None:
        at = self.page.plain.index(self.page.script("# the sun comes out"))
        self.assertEqual(reads(made(self.page.by_data, self.page.day())), self.page.plain[at + 2])

    def test_it_is_the_example(self) -> None:
        self.assertEqual(json.loads(self.page.by_data), json.loads(text_of(GREENHOUSE / "description.json")))
        self.assertEqual(self.page.day(), text_of(GREENHOUSE / "script.txt"))

    def test_a_misspelt_variable_is_found(self) -> None:
        text = edited(self.page.by_data, [('["lt","limit","m"]', '["lt","limti","m"]')])
        path = self.write("description.json", text)
        said = run_tool("lint.py", path).stdout.decode().replace(path, "greenhouse/description.json").splitlines()
        warnings = [line for line in said if line.startswith("greenhouse/")]
        self.assertTrue(any("`limti` is read and never set" in line for line in warnings), said)
        for line in warnings:
            self.assertIn(f"{line}\n", self.page.after("tools/lint.py"))

    def test_a_type_that_is_too_narrow(self) -> None:
        trace = made(edited(self.page.by_data, [('"upper":25500', '"upper":50')]), self.page.morning())
        self.assertIn(self.page.script("mean:Collect read sum 0 48"), trace)
        self.assertEqual(reads(trace), "env mode state.now Normal\nenv read flap.percent 0 0\n")

    @unittest.skipUnless(program(), "the program is not built")
    def test_what_the_program_says(self) -> None:
        self.assertEqual(self.said("run", self.page.first, "send air.sample 22,26\nrun\n")[:12], "rte-trace 2\n")
        circle = edited(self.page.by_data, [('"task":"Serve","position":0', '"task":"Control","position":1')])
        self.assertEqual(self.said("run", circle, self.page.day()), "refused rule 29 at /mapping\n")
        self.assertEqual(reads(self.said("run", self.page.by_data, self.page.day())), reads(made(self.page.by_data, self.page.day())))

    def said(self, verb: str, description: Any, script: str) -> str:
        words = [program(), verb, self.write("description.json", description), self.write("script.txt", script)]
        return run(words).stdout.decode()


if __name__ == "__main__":
    unittest.main()
