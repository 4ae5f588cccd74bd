"""Coherent lists: their rules, what they connect, and what a runnable asks for."""

from __future__ import annotations

import copy
import json
import unittest
from typing import Any

from support import DATA, replay_of, text_of, trace_of

from rte_tools.bus_plan import plan_of
from rte_tools.differing import difference
from rte_tools.files import read_schema
from rte_tools.judging import first_of_shape, judge
from rte_tools.refusal import Refusal
from rte_tools.summing import sums_of
from rte_tools.trace import read_trace

PAIR = json.loads(text_of(DATA / "rows" / "pair_published_together" / "description.json"))
RUNNABLE = "/components/1/behavior/runnables/0"
A, B = ["i", "a"], ["i", "b"]
# By the lists of the reader of the pair: the rule that is broken, and the place below the runnable.
REFUSED: list[tuple[Any, int, str]] = [
    ({}, 2, "/coherent"),
    ([A], 2, "/coherent/0/0"),
    ([[["i", "b", "c"], A]], 2, "/coherent/0/0"),
    ([[A, ["i"]]], 2, "/coherent/0/1"),
    ([[A, ["i", 7]]], 2, "/coherent/0/1/1"),
    ([[["i", "9a"], B]], 3, "/coherent/0/0/1"),
    ([[A, ["i", "zz"]]], 5, "/coherent/0/1/1"),
    ([[A, ["k", "b"]]], 5, "/coherent/0/1/0"),
    ([[]], 31, "/coherent/0"),
    ([[A]], 31, "/coherent/0"),
    ([[A, A]], 31, "/coherent/0"),
    ([[A, B], [B, A]], 31, "/coherent/0"),
]


def changed(**keys: Any) -> dict:
    """The pair with other keys of the reader."""
    value = copy.deepcopy(PAIR)
    value["components"][1]["behavior"]["runnables"][0] |= keys
    return value


def refusal(value: dict) -> Refusal | None:
    return first_of_shape(read_schema().faults(value)) or judge(value)


class Rules(unittest.TestCase):
    def test_what_is_refused(self) -> None:
        for lists, number, place in REFUSED:
            with self.subTest(lists=lists):
                self.assertEqual(refusal(changed(coherent=lists)), Refusal("rule", number, RUNNABLE + place))

    def test_no_list(self) -> None:
        self.assertIsNone(refusal(changed(coherent=[])))

    def test_an_access_that_is_not_implicit(self) -> None:
        accesses = [["iread", "i", "a"], ["read", "i", "b"]]
        self.assertEqual(refusal(changed(accesses=accesses)), Refusal("rule", 31, f"{RUNNABLE}/coherent/0"))

    def test_an_access_of_the_wrong_side_is_named_before(self) -> None:
        accesses = [["iread", "i", "a"], ["iwrite", "i", "b"]]
        self.assertEqual(refusal(changed(accesses=accesses)), Refusal("rule", 16, f"{RUNNABLE}/accesses/1"))

    def test_a_component_that_no_instance_has(self) -> None:
        value = changed()
        unused = copy.deepcopy(value["components"][1]) | {"shortName": "Unused"}
        unused["behavior"]["runnables"][0]["coherent"] = [[A]]
        value["components"].append(unused)
        self.assertEqual(refusal(value), Refusal("rule", 31, "/components/2/behavior/runnables/0/coherent/0"))

    def test_words(self) -> None:
        for words, place in ((8, None), (9, "/components/0/behavior/runnables/0/coherent/0")):
            value = changed()
            value["dataTypes"][0]["words"] = words
            value["components"][0]["behavior"]["runnables"][0]["program"] = []
            self.assertEqual(refusal(value), place and Refusal("rule", 31, place))

    def test_the_size_of_the_plan_is_looked_at_before(self) -> None:
        value = changed(coherent=[[A]])
        reader = {"shortName": "r", "type": "R"}
        value["components"][1]["behavior"]["events"] = []
        value["mapping"]["events"].pop()
        value["interfaces"][0]["dataElements"] += [{"shortName": f"x{n}", "type": "T", "swImplPolicy": "standard"} for n in range(15)]
        value["compositions"][0]["prototypes"] += [reader | {"shortName": f"r{n}"} for n in range(962)]
        self.assertEqual(judge(value), Refusal("rule", 31, f"{RUNNABLE}/coherent/0"))  # 963 times 17 groups, and the clock
        value["compositions"][0]["prototypes"].append(reader | {"shortName": "more"})
        self.assertEqual(judge(value), Refusal("rule", 30, "/mapping"))


def row(name: str) -> dict:
    return json.loads(text_of(DATA / "rows" / name / "description.json"))


class Plans(unittest.TestCase):
    def test_bundles(self) -> None:
        a, b, c = (("w", f"o.{name}") for name in "abc")
        self.assertEqual(plan_of(row("lists_of_three_groups")).bundles, [[a, b, c]])
        self.assertEqual(plan_of(row("list_at_its_first_access")).bundles, [[a, b], [c]])
        one = plan_of(row("two_elements_of_one_group"))
        self.assertEqual((one.bundles, len(one.in_group)), ([[a]], 1))
        self.assertEqual(plan_of(row("lists_both_ways")).bundles, [[a, b], [("m", "o.a"), ("m", "o.b")]])

    def test_a_list_of_a_runnable_without_events_connects(self) -> None:
        value = changed()
        value["components"][0]["behavior"]["runnables"][0]["coherent"] = []
        value["components"][1]["behavior"]["events"] = []
        value["mapping"]["events"].pop()
        self.assertEqual(plan_of(value).bundles, [[("w", "o.a"), ("w", "o.b")]])

    def test_no_list_connects_nothing(self) -> None:
        value = changed(coherent=[])
        value["components"][0]["behavior"]["runnables"][0]["coherent"] = []
        self.assertEqual(plan_of(value).bundles, [[("w", "o.a")], [("w", "o.b")]])


class Traces(unittest.TestCase):
    """What a list changes is shown element by element."""

    def test_values_and_what_they_start(self) -> None:
        shown = replay_of(DATA / "rows" / "events_of_two_groups")
        values = {name: [(held.moment, held.text) for held in changes] for name, changes in shown.values.items()}
        self.assertEqual(values, {"w.o.a": [(14, "3")], "w.o.b": [(14, "4")]})
        self.assertEqual([(arrow.kind, arrow.first, arrow.last) for arrow in shown.arrows], [("data", 14, 16), ("data", 14, 19)])
        self.assertEqual([mark.verb for mark in shown.marks], ["publishAll", "fetchAll", "fetchAll"])

    def test_values_of_several_words(self) -> None:
        shown = replay_of(DATA / "rows" / "lists_both_ways")
        self.assertEqual([held.text for held in shown.values["m.o.a"]], ["3,2,1"])

    def test_what_is_clamped(self) -> None:
        value = changed()
        value["components"][0]["behavior"]["runnables"][0]["program"] = [["iwrite", "o", "b", [1800]]]
        text = text_of(DATA / "rows" / "pair_published_together" / "expected.txt").replace("11 3,4", "01 1000").replace("3,4", "0,1000")
        sums = sums_of(read_trace(text.splitlines()), plan_of(value))
        self.assertEqual(list(sums.clamped), [("w:Step", "publishAll o.b", 1, 1000)])

    def test_the_order_of_two_publications_matters(self) -> None:
        folder = DATA / "rows" / "two_writers_of_a_pair"
        plan = plan_of(json.loads(text_of(folder / "description.json")))
        lines = text_of(folder / "expected.txt").splitlines()
        lines[15], lines[16] = lines[16], lines[15]
        lines[17] = lines[17].replace("5,6", "3,4")
        self.assertEqual(difference(trace_of(folder), read_trace(lines), plan).where, "r:Look")
        one, other = (
            read_trace([line for line in held if not line.startswith("r:")])
            for held in (text_of(folder / "expected.txt").splitlines(), lines)
        )
        found = difference(one, other, plan)
        self.assertEqual((found.is_order, found.where), (True, "`w.o.a`"))


if __name__ == "__main__":
    unittest.main()
