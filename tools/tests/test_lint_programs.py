"""Warnings of what programs, tasks and scripts do: each of what is wrong, and none of what is nearly so."""

from __future__ import annotations

import json
import random
import sys
import unittest

from support import DATA, EXAMPLES, TOP, WithFolder, edited, program, run, run_tool, text_of

from lint import lint
from rte_tools.activation import computed
from rte_tools.intervals import value_of
from rte_tools.linting_programs import is_slip
from rte_tools.linting_script import script_findings
from rte_tools.source import Source

WRITE = '["write","o","v",[7],"s"]'
RANGE = '["set","km",["div",["mul",100,"litres"],"mean"]]'
FAILS = '[["set","error",1]]'
DISABLED = '"disabledInModes":{"port":"power","modes":["Parked"]}'
PRESS_EVENT = '{"kind":"TimingEvent","shortName":"Each10","runnable":"Handle","period":10}'
ON_PRESS = '{"kind":"DataReceivedEvent","shortName":"Each10","runnable":"Handle","port":"presses","element":"press"}'
RECEIVE = '["receive","presses","press",["button"],"s"],'

# Of an example: its name, edits, and what the one warning holds; or none, where there is none.
CASES: dict[str, tuple[str, list[tuple[str, str]], str]] = {
    "a variable that nothing reads": (
        "one_writer",
        [(WRITE, f'["set","tmp",3],{WRITE}')],
        "the variable `tmp` is set and never read: correct it, or take it out",
    ),
    "a slip in what a call takes": (
        "door_control",
        [('["read","lock","locked",["locked"],"s"]', '["read","lock","locked",["lockde"],"s"]')],
        "",  # two: the other one is read and never set
    ),
    "an `out` argument that is never set": (
        "trip_computer",
        [(RANGE, '["set","mean",1]')],
        "`Range` never sets `km`, an `out` argument of `range`, so 0 is returned",
    ),
    "a code that the operation does not declare": (
        "trip_computer",
        [(FAILS, '[["set","error",2]]')],
        "`error` is 2, a code that `range` does not declare, so 0 is returned: its codes are 1 (NoMean)",
    ),
    "no code": ("trip_computer", [(FAILS, '[["set","error",0]]')], "none"),
    "a code that may be declared": ("trip_computer", [(FAILS, '[["set","error",["add",1,["eq","litres",9]]]]')], "none"),
    "a value that is clamped": (
        "one_writer",
        [(WRITE, '["write","o","v",[1001],"s"]')],
        "the value for `o`.`v` is 1001, outside of its type, which goes from 0 to 1000, so it is clamped to 1000",
    ),
    "a value that is clamped whatever was read": (
        "trip_computer",
        [('["write","panel","km",["km"],"s"]', '["write","panel","km",[["add",2001,"litres"]],"s"]')],
        "the value for `panel`.`km` is from 2001 to 2081, outside of its type, which goes from 0 to 2000",
    ),
    "a value that may be clamped": (
        "trip_computer",
        [('["write","panel","km",["km"],"s"]', '["write","panel","km",[["add",2000,"litres"]],"s"]')],
        "none",
    ),
    "an argument that is clamped": (
        "trip_computer",
        [('["call","trips","range",["litres"],["km"],"s"]', '["call","trips","range",[["sub",-1,"litres"]],["km"],"s"]')],
        "the value for `trips`.`range` is from -81 to -1",
    ),
    "a result that is clamped": (
        "trip_computer",
        [(RANGE, '["set","km",["add","litres",3000]]'), (FAILS, '[["set","km",4000],["set","error",1]]')],
        "what `Range` returns as `km` is from 3000 to 4000",
    ),
    "an event that is disabled in every mode": (
        "power_modes",
        [(DISABLED, DISABLED.replace('"Parked"', '"Driving","Parked"'))],
        "the event `Each10` is disabled in every mode of `Power`, so it never lets `Warm` run",
    ),
    "one value at each start": (
        "lost_value",
        [(PRESS_EVENT, ON_PRESS)],
        "`Handle` takes one value at each start from the queue of `presses`.`press`, which holds 2",
    ),
    "all values at each start": (
        "lost_value",
        [(PRESS_EVENT, ON_PRESS), (RECEIVE, f'["repeat",2,[{RECEIVE[:-1]}]],')],
        "none",
    ),
    "one value, and a timing event": (
        "lost_value",
        [
            (PRESS_EVENT, f'{ON_PRESS},{PRESS_EVENT.replace("Each10", "Also")}'),
            ('"task":"Task","position":0}', '"task":"Task","position":0},{"instance":"panel","event":"Also","task":"Task","position":1}'),
        ],
        "none",
    ),
}

# Two runnables that count in one inter-runnable variable, in two tasks.
COUNTER = {
    "dataTypes": [{"shortName": "N", "baseType": "uint8", "lower": 0, "upper": 200, "words": 1}],
    "components": [
        {
            "shortName": "C",
            "behavior": {
                "exclusiveAreas": ["a"],
                "variables": [{"shortName": "n", "type": "N"}],
                "runnables": [],
                "events": [
                    {"kind": "TimingEvent", "shortName": "E", "runnable": "Up", "period": 1},
                    {"kind": "TimingEvent", "shortName": "F", "runnable": "Down", "period": 1},
                ],
            },
        }
    ],
    "compositions": [{"shortName": "Top", "prototypes": [{"shortName": "c", "type": "C"}]}],
    "root": "Top",
    "mapping": {
        "cores": 1,
        "tasks": [{"shortName": "T", "core": 0}, {"shortName": "U", "core": 0}],
        "events": [
            {"instance": "c", "event": "E", "task": "T", "position": 0},
            {"instance": "c", "event": "F", "task": "U", "position": 0},
        ],
    },
}
ACCESSES = [["irvRead", "n"], ["irvWrite", "n"], ["enter", "a"]]
READ, ADD = ["irvRead", "n", ["x"]], ["irvWrite", "n", [["add", "x", 1]]]
SET = ["irvWrite", "n", [5]]


def counter(up: list, down: list, task: str = "U") -> list[str]:
    """The warnings of a lost write where `Up` and `Down` have these programs, and `Down` runs in this task."""
    held = json.loads(json.dumps(COUNTER))
    held["components"][0]["behavior"]["runnables"] = [
        {"shortName": name, "accesses": [*ACCESSES, ["irvIRead", "n"], ["irvIWrite", "n"]], "program": statements}
        for name, statements in (("Up", up), ("Down", down))
    ]
    held["mapping"]["events"][1] |= {"task": task, "position": 1}
    found, _ = lint(Source.of("d", json.dumps(held)))
    return [line for line in found if "may be lost" in line]


class Programs(WithFolder):
    def test_each_warning(self) -> None:
        for name, (example, edits, wanted) in CASES.items():
            text = edited(text_of(DATA / "examples" / example / "description.json"), edits)
            found, status = lint(Source.of("d", text))
            with self.subTest(name):
                if wanted == "none":
                    self.assertEqual((found, status), ([], 0))
                elif wanted:
                    self.assertEqual((len(found), status), (1, 1), found)
                    self.assertIn(wanted, found[0])

    def test_a_slip_is_told_at_both_ends(self) -> None:
        example, edits, _ = CASES["a slip in what a call takes"]
        found, _ = lint(Source.of("d", edited(text_of(DATA / "examples" / example / "description.json"), edits)))
        self.assertIn("the variable `lockde` takes a value and is never read; the nearest one is `locked`", found[0])
        self.assertIn("the variable `locked` is read and never set, so it is 0; the nearest one is `lockde`", found[1])

    def test_slips(self) -> None:
        for one, other in (("temp", "tmep"), ("temp", "tempp"), ("temp", "tem"), ("temp", "tenp")):
            self.assertTrue(is_slip(one, other), (one, other))
        for one, other in (("x1", "x2"), ("left1", "left2"), ("ab", "ac"), ("temp", "temp"), ("temp", "pmet"), ("tmp", "temps")):
            self.assertFalse(is_slip(one, other), (one, other))

    def test_what_is_made_for_measurements(self) -> None:
        run([sys.executable, str(TOP / "bench" / "make_soak.py"), "4", str(self.folder)])
        self.assertEqual(lint(Source.of("d", text_of(self.folder / "description.json"))), ([], 0))


class SharedVariables(unittest.TestCase):
    def test_a_write_that_may_be_lost(self) -> None:
        found = counter([READ, ADD], [READ, ADD])
        self.assertEqual(len(found), 1)
        text = "`Up` reads and writes the variable `n`, and `Down` writes it in another task (`T`, `U`), outside of a common area"
        self.assertIn(text, found[0])

    def test_others(self) -> None:
        area = ["area", "a", [READ, ADD]]
        for up, down, task, count in (
            ([READ, ADD], [READ, ADD], "T", 0),  # one task
            ([area], [area], "U", 0),
            ([area], [["area", "a", [SET]]], "U", 0),
            ([area], [SET], "U", 1),
            ([["area", "a", [READ]], ["area", "a", [ADD]]], [area], "U", 1),  # the area is left between
            ([READ], [SET], "U", 0),  # one reads, one writes
            ([SET], [SET], "U", 0),
            ([["irvIRead", "n", ["x"]], ["irvIWrite", "n", ["x"]]], [area], "U", 1),  # fetched before any area
        ):
            self.assertEqual(len(counter(up, down, task)), count, (up, down, task))


class Intervals(unittest.TestCase):
    def test_no_value_lies_outside(self) -> None:
        """Random expressions over random values within random intervals."""
        draw = random.Random(7)
        ends = [0, 1, -1, 2, 7, -7, 100, 2**31, -(2**63), 2**63 - 1]
        for _ in range(3000):
            state = {name: tuple(sorted(draw.choices(ends, k=2))) for name in "xyz"}
            expression = made(draw, 3)
            low, high = value_of(expression, state)
            for _ in range(4):
                value = computed(expression, {name: draw.randint(*held) for name, held in state.items()})
                self.assertTrue(low <= value <= high, (expression, state, value, low, high))


def made(draw: random.Random, depth: int):
    """A random expression."""
    if depth == 0 or draw.random() < 0.2:
        return draw.choice(["x", "y", "z", 0, 3, -2])
    return [draw.choice(["add", "sub", "mul", "div", "eq", "ne", "lt", "le"]), made(draw, depth - 1), made(draw, depth - 1)]


class Scripts(WithFolder):
    def said(self, text: str) -> list[str]:
        return [said for _, said in script_findings(Source.of("s", text))]

    def test_scripts_of_the_examples(self) -> None:
        for folder in EXAMPLES:
            self.assertEqual(self.said(text_of(folder / "script.txt")), [], folder.name)

    def test_scripts(self) -> None:
        self.assertIn("the trace is empty", self.said("# nothing\n\n")[0])
        self.assertIn("no line `run`", self.said("tick 10\n")[0])
        self.assertIn("comes after `write a.b 1`", self.said("run\nwrite a.b 1\nread c.d\n")[0])
        self.assertEqual(self.said("write a.b 1\nrun\nread c.d\n"), [])

    def test_the_tool(self) -> None:
        example = DATA / "examples" / "one_writer"
        description = str(example / "description.json")
        empty = self.write("s.txt", "")
        for words, status, said in (
            ((description, str(example / "script.txt")), 0, b""),
            ((description, empty), 1, b"s.txt:1:1: the script has no line that does something"),
            ((description, description), 2, b"is no script but a description"),
            ((str(self.folder),), 2, b"this is a folder"),
            ((str(self.folder / "none"),), 2, b"there is no such file"),
        ):
            ended = run_tool("lint.py", *words)
            self.assertEqual((ended.returncode, ended.stderr), (status, b""))
            self.assertIn(said, ended.stdout)

    @unittest.skipUnless(program(), "the program is not built")
    def test_the_closing_sentence(self) -> None:
        base = text_of(DATA / "examples" / "one_writer" / "description.json")
        accepted = self.write("a.json", edited(base, [(WRITE, '["write","o","v",[1001],"s"]')]))
        unmapped = ',\n   {"instance":"r","event":"E","task":"T","position":1}'
        refused = self.write("r.json", edited(base, [(WRITE, '["write","o","v",[1001],"s"]'), (unmapped, "")]))
        self.assertEqual(run_tool("lint.py", accepted).stdout.count(b"\n"), 1)
        self.assertIn(b"\nThe program refuses this description.", run_tool("lint.py", refused).stdout)


if __name__ == "__main__":
    unittest.main()
