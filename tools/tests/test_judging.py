"""The rules that are looked at without the program: the examples of docs/FORMAT.md and the rows of refusals have their rule and place."""

from __future__ import annotations

import json
import re
import unittest
from typing import Iterator

from support import DATA, edited, program, run, text_of
from test_format import examples
from test_turns import read_edits

from rte_tools.bus_plan import plan_of
from rte_tools.description import described
from rte_tools.files import read_schema
from rte_tools.joins import End, Joins
from rte_tools.judging import RULES, first_of_shape, judge
from rte_tools.refusal import Refusal, read_refusal
from rte_tools.reference import read_format, section
from rte_tools.script_check import first_bad_line

CHANGE = re.compile(r"^\$ change (\S+) (.*)$")
REPEATED = re.compile(r"«(\d+) ([^«»]*)»")
LONGEST = 20_000  # bytes of a description that is tried
FEWEST = 700
CAUSES = re.compile(r"^\| (\d+) \| .+? \| (.+) \| .+? \|$", re.MULTILINE)


def spread(text: str) -> str:
    """A part of an edit with what it repeats; `#` is the number of the time."""
    return REPEATED.sub(lambda found: "".join(found[2].replace("#", str(time)) for time in range(int(found[1]))), text)


def rows() -> Iterator[tuple[str, str, str]]:
    """The changes of descriptions in the table of rows: what is changed, the description, and the first line that is shown."""
    lines = (DATA.parent / "stdout").read_text(encoding="utf-8", errors="surrogateescape").split("\n")
    for line, shown in zip(lines, lines[1:]):
        row = CHANGE.match(line)
        if row and shown.startswith(("refused", "rte-trace")):
            text = text_of(DATA / row[1] / "description.json")
            for old, new in read_edits(row[2]):
                text = text.replace(spread(old), spread(new), 1)
            yield line, text, shown


class Rules(unittest.TestCase):
    def test_the_examples_of_the_format(self) -> None:
        shape = read_schema()
        for example in examples():
            with self.subTest(example.text):
                value = example.description()
                self.assertEqual(first_of_shape(shape.faults(value)) or judge(value), read_refusal(example.says))

    def test_the_rows(self) -> None:
        looked_at = 0
        for line, text, shown in rows():
            refusal = read_refusal(shown)
            if len(text) > LONGEST or (refusal and (refusal.kind != "rule" or refusal.number not in RULES)):
                continue
            looked_at += 1
            if judge(json.loads(text)) != refusal:
                self.fail(f"{line}: {judge(json.loads(text))}, and not {shown}")
        self.assertGreater(looked_at, FEWEST)

    def test_what_runs_breaks_no_rule(self) -> None:
        for path in DATA.glob("*/*/expected.txt"):
            if not text_of(path).startswith("refused"):
                with self.subTest(path.parent.name):
                    self.assertIsNone(judge(json.loads(text_of(path.parent / "description.json"))))


class Joined(unittest.TestCase):
    """Two ports that are delegated to one outer port, which nothing outside is joined to, are not joined with each other."""

    def test_providers_below_one_outer_port(self) -> None:
        writer = {"shortName": "W", "ports": [{"kind": "PPortPrototype", "shortName": "o", "interface": "I"}], "behavior": {}}
        reader = {"shortName": "R", "ports": [{"kind": "RPortPrototype", "shortName": "i", "interface": "I"}], "behavior": {}}
        below = [{"shortName": name, "type": name[0].upper()} for name in ("w1", "w2", "r")]
        ways = [{"kind": "DelegationSwConnector", "inner": [name, "o"], "outer": "o"} for name in ("w1", "w2")]
        ways.append({"kind": "AssemblySwConnector", "provider": ["w2", "o"], "requester": ["r", "i"]})
        inner = {"shortName": "In", "ports": writer["ports"], "prototypes": below, "connectors": ways}
        element = {"shortName": "v", "type": "T", "swImplPolicy": "standard"}
        value = {
            "dataTypes": [{"shortName": "T", "baseType": "uint8", "lower": 0, "upper": 9, "words": 1}],
            "interfaces": [{"kind": "SenderReceiverInterface", "shortName": "I", "dataElements": [element]}],
            "components": [writer, reader],
            "compositions": [inner, {"shortName": "Top", "prototypes": [{"shortName": "in", "type": "In"}]}],
            "root": "Top",
            "mapping": {"cores": 1},
        }
        self.assertIsNone(judge(value))
        group = Joins(described(value)).group(End("in/r", "i", "v"))
        self.assertEqual(group.provided, [End("in/w2", "o", "v")])

    @unittest.skipUnless(program(), "the program is not built")
    def test_the_plan_of_the_program(self) -> None:
        for folder in ("bases/whole", "bases/kinds", "bases/nested", "examples/door_control"):
            path = DATA / folder / "description.json"
            shown = run([program(), "plan", str(path)]).stdout.decode()
            pairs = Joins(described(json.loads(text_of(path)))).pairs
            self.assertEqual(pairs, shown.count("\njoin "), folder)

    def test_mode_elements_are_joined_whatever_their_names(self) -> None:
        text = text_of(DATA / "bases" / "kinds" / "description.json")
        value = json.loads(edited(text, [('"shortName":"p","interface":"Mode"', '"shortName":"p","interface":"ModeOtherName"')]))
        self.assertEqual(plan_of(value).mode_ports["u", "p.h"], ("m", "m.g"))


class Scripts(unittest.TestCase):
    def test_the_lines_of_the_table_of_causes(self) -> None:
        plan = plan_of(json.loads(text_of(DATA / "examples" / "door_control" / "description.json")))
        looked_at = 0
        for cause, cell in CAUSES.findall(section(read_format(), "The script")):
            for line, is_other in re.findall("`([^`]+)`( †)?", cell):
                if cause != "4" and not is_other:
                    looked_at += 1
                    with self.subTest(line):
                        self.assertEqual(first_bad_line(f"run\n{line}\n", plan), Refusal("script", int(cause), line=2))
        self.assertGreaterEqual(looked_at, 20)

    def test_too_much(self) -> None:
        plan = plan_of(json.loads(text_of(DATA / "examples" / "door_control" / "description.json")))
        for script, line in (("run\n" * 1_001, 1_001), ("tick 100000\n" * 10 + "tick 1\n", 11), ("\n" * 100_000 + "# end", 100_001)):
            self.assertEqual(first_bad_line(script, plan), Refusal("script", 4, line=line))
            self.assertIsNone(first_bad_line("\n".join(script.split("\n")[: line - 1]) + "\n", plan))


if __name__ == "__main__":
    unittest.main()
