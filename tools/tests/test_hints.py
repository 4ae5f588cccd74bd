"""Hints to the rules: what is said of cases that the table of mistakes does not have, and that each refused row has a sentence."""

from __future__ import annotations

import json
import unittest
from typing import Any

from mistakes import folder_of
from support import WithFolder, edited, text_of
from test_format import examples
from worked_rows import rows

from rte_tools.explaining import explain
from rte_tools.hints import CHANGED, HINTS
from rte_tools.refusal import read_refusal

FEW = 25  # every so many rows are tried
LARGE = 100_000  # bytes of a description that is passed over
RANGE_OUT = '{"shortName":"km","type":"Distance","direction":"out"}'
ERRORS = '"errors":[{"shortName":"NoMean","code":1}]'
TYPE = '{"shortName":"T","baseType":"uint16","lower":0,"upper":1000,"words":1}'
OTHER_TYPE = '{"shortName":"U","baseType":"uint8","lower":0,"upper":9,"words":1}'
INTERFACE = '"swImplPolicy":"standard"}]}'
OTHER_INTERFACE = (
    '{"kind":"SenderReceiverInterface","shortName":"J","dataElements":[{"shortName":"v","type":"U","swImplPolicy":"queued"}]}'
)
ASSEMBLY = '{"kind":"AssemblySwConnector","provider":["pump","out"],"requester":["gauge","in"]}'
COHERENT = '"coherent":[[["way","km"],["way","m"]]],\n      "program":[["irvRead"'
LIST = "/components/0/behavior/runnables/0/coherent/0"


def other_list(pairs: str) -> list[tuple[str, str]]:
    """The edit that gives the wheel of `odometer` another list."""
    return [(COHERENT, COHERENT.replace('[["way","km"],["way","m"]]', pairs))]


# Of an example: the refusal, edits, and what is said.
SAID: list[tuple[str, str, list[tuple[str, str]], tuple[str, ...]]] = [
    (
        "one_writer",
        "6 at /dataTypes/0",
        [('"lower":0', '"lower":2000')],
        ("`lower` is 2000, more than `upper`, which is 1000.", "Mend: exchange the limits"),
    ),
    (
        "trip_computer",
        "7 at /interfaces/2/operations/0",
        [(RANGE_OUT, RANGE_OUT.replace("km", "error"))],
        ("An argument has the name `error`", "Mend: rename the argument."),
    ),
    (
        "trip_computer",
        "7 at /interfaces/2/operations/0",
        [(ERRORS, ERRORS[:-1] + ',{"shortName":"Other","code":1}]')],
        ("The errors `NoMean` and `Other` both have the code 1.", "Mend: give each error a code of its own"),
    ),
    (
        "two_cores",
        "11 at /compositions/0/connectors/1",
        [(ASSEMBLY, f"{ASSEMBLY},{ASSEMBLY}")],
        ("It joins what the connector at line 17", "Mend: drop it."),
    ),
    (
        "one_writer",
        "12 at /compositions/0/connectors/0",
        [
            (TYPE, f"{TYPE},{OTHER_TYPE}"),
            (INTERFACE, f"{INTERFACE},{OTHER_INTERFACE}"),
            ('"shortName":"i","interface":"I"', '"shortName":"i","interface":"J"'),
        ],
        (
            "`v` is provided as `standard` and required as `queued`.",
            "`v` is provided with the type `T` (uint16, 0 to 1000, 1 words) and required with `U` (uint8, 0 to 9, 1 words).",
        ),
    ),
    (
        "trip_computer",
        "23 at /components/1/behavior/runnables/0/accesses/1",
        [('"accesses":[["irvRead","mean"]]', '"accesses":[["irvRead","mean"],["result","trips","range"]]')],
        ("No runnable of `Computer` calls `trips`.`range` by `acall`.", "Mend: call it by `acall`, or take this out."),
    ),
    (
        "power_modes",
        "24 at /components/1/behavior/events/0",
        [('"disabledInModes":{"port":"power"', '"disabledInModes":{"port":"heat"')],
        ("`heat` is a P-port with the unqueued element `level`.", "Mend: name an R-port with modes."),
    ),
    (
        "trip_computer",
        "28 at computer.OnRange",
        [(',\n   {"instance":"computer","event":"OnRange","task":"Trip","position":1}', "")],
        ("`Range` has no `canBeInvokedConcurrently`.", "Mend: map the event to a task, or let the runnable be invoked concurrently."),
    ),
    ("odometer", f"31 at {LIST}", other_list('[["way","m"]]'), ("It has one element; a list has 2 to 16.", "Mend: leave out a list")),
    ("odometer", f"31 at {LIST}", other_list('[["way","m"],["way","m"]]'), ("more than once: `way.m`.", "Mend: keep each element in one")),
    (
        "odometer",
        f"31 at {LIST}",
        [('["iwrite","way","m"]]', '["write","way","m"]]')],
        ("`Count` has no implicit access to `way.m`.", "Mend: declare the `iread` or `iwrite` access"),
    ),
    (
        "odometer",
        f"31 at {LIST}",
        [('"upper":65535,"words":1', '"upper":65535,"words":16')],
        ("Its elements have 17 words together, and at most 16 may be in a list.", "Mend: leave elements out"),
    ),
    (
        "odometer",
        f"31 at {LIST}",
        [
            ('[{"kind":"PPortPrototype","shortName":"way"', '[{"kind":"RPortPrototype","shortName":"back","interface":"Way"},{"kind":"PPortPrototype","shortName":"way"'),
            ('["iwrite","way","m"]]', '["iwrite","way","m"],["iread","back","m"]]'),
            *other_list('[["way","km"],["back","m"]]'),
        ],
        ("Of reads there are `back.m`, of writes `way.km`.", "Mend: make two lists"),
    ),
    (
        "odometer",
        f"5 at {LIST}/1/1",
        other_list('[["way","km"],["way","mm"]]'),
        ("There is no item of the port `mm`; the nearest one is `m`.", "Mend: "),
    ),
    ("odometer", f"5 at {LIST}/0/0", other_list('[["wy","km"],["way","m"]]'), ("There is no port `wy`; the nearest one is `way`.",)),
    ("odometer", f"2 at {LIST}/0", other_list('[["way"],["way","m"]]'), ("2 have to be there",)),
]


def said(refusal: str, path: str) -> str:
    return " ".join(" ".join(explain(read_refusal(f"refused rule {refusal}"), path, "")).split())


class Hints(WithFolder):
    def test_each_rule_has_a_hint(self) -> None:
        self.assertEqual(sorted({1, 2, 3, *HINTS}), list(range(1, 32)))

    def test_each_example_of_the_page_has_a_sentence(self) -> None:
        for example in examples():
            path = self.write("description.json", json.dumps(example.description()))
            self.assert_sentence(explain(read_refusal(example.says), path, ""), example.text)

    def test_refused_rows_have_a_sentence(self) -> None:
        tried = 0
        for number, row in enumerate(rows()):
            if number % FEW == 0 and len(row.description) < LARGE:
                path = self.write("description.json", row.description)
                self.assert_sentence(explain(read_refusal(row.says), path, ""), f"line {row.line}: {row.says}")
                tried += 1
        self.assertGreater(tried, 30)

    def assert_sentence(self, lines: list[str], name: str) -> None:
        told = [line for line in lines if line.startswith("  ") and " | " not in line]
        with self.subTest(name):
            self.assertFalse(told[0].startswith("  Mend: "), lines)
            self.assertNotIn(CHANGED.split(":")[0], " ".join(told))

    def test_what_is_said(self) -> None:
        for example, refusal, edits, wanted in SAID:
            text = edited(text_of(folder_of(example) / "description.json"), edits)
            printed = said(refusal, self.write("description.json", text))
            with self.subTest(refusal):
                for part in wanted:
                    self.assertIn(part, printed)

    def large(self, **keys: Any) -> str:
        """A description of many instances of one component."""
        component = {"shortName": "C", "behavior": keys.get("behavior", {})}
        top = {"shortName": "Top", "prototypes": [{"shortName": f"c{n}", "type": "C"} for n in range(keys["count"])]}
        whole = {"components": [component], "compositions": [top], "root": "Top", "mapping": {"cores": 1}}
        return self.write("description.json", json.dumps(whole))

    def test_what_is_too_large(self) -> None:
        self.assertIn("There are 1,025 instances of components", said("10 at /root", self.large(count=1025)))
        events = [{"kind": "InitEvent", "shortName": f"E{n}", "runnable": "R"} for n in range(17)]
        path = self.large(count=1000, behavior={"runnables": [{"shortName": "R"}], "events": events})
        printed = said("30 at /mapping", path)
        self.assertIn("There are 17,000 events of instances, and at most 16,384 may be there.", printed)
        self.assertIn("`C` has 17 of them, 1,000 times.", printed)

    def test_a_path_that_is_too_long(self) -> None:
        chain = [
            {"shortName": f"K{n}", "prototypes": [{"shortName": f"p{n}", "type": f"K{n + 1}" if n < 8 else "C"}]} for n in range(9)
        ]
        whole = {"components": [{"shortName": "C", "behavior": {}}], "compositions": chain, "root": "K0", "mapping": {"cores": 1}}
        printed = said("10 at /root", self.write("description.json", json.dumps(whole)))
        self.assertIn("The path `p0/p1/p2/p3/p4/p5/p6/p7/p8` has 9 prototypes, and at most 8 may be there.", printed)


if __name__ == "__main__":
    unittest.main()
