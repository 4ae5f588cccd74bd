"""Differences of traces: orders of one run, altered traces, and traces of another description."""

from __future__ import annotations

import json
import random
import unittest

from calling import call_tool
from support import DATA, EXAMPLES, WithFolder, edited, run_tool, text_of

from difference import compared
from rte_tools.bus_plan import plan_of
from rte_tools.cases import CORPUS, all_cases
from rte_tools.prepared import read_own_trace
from rte_tools.shuffling import ShuffledNode
from rte_tools.stepping import first_fault
from rte_tools.trace import NotATrace, read_trace
from rte_tools.turns import Layout

EXAMPLE = DATA / "examples"
SAME, ORDER = "the traces are the same\n", "only the order of the cores differs\n"
MANY = 10_000  # lines of a trace that is too long to go through here
CLAUSES = ("D6", "D7", "D8", "D9", "D10", "D11", "D12", "D13")  # of which a line is refused whatever the script is


class Differences(WithFolder):
    def said(self, folder, one: str, other: str) -> tuple[int, str]:
        plan = plan_of(json.loads(text_of(folder / "description.json")))
        lines, status = compared(read_own_trace(one, plan), read_own_trace(other, plan), plan, (one, other))
        return status, "".join(f"{line}\n" for line in lines)

    def order(self, folder, seed: int) -> str:
        layout = Layout(json.loads(text_of(folder / "description.json")))
        return self.write(f"order{seed}.txt", ShuffledNode(layout, random.Random(seed)).whole(text_of(folder / "script.txt")))

    def test_the_tool(self) -> None:
        description, expected = (str(EXAMPLE / "two_cores" / name) for name in ("description.json", "expected.txt"))
        ended = run_tool("difference.py", description, expected, expected)
        self.assertEqual((ended.returncode, ended.stdout.decode(), ended.stderr), (0, SAME, b""))
        ended = call_tool("difference", description, expected, str(CORPUS / "two_cores_left_out.txt"))
        self.assertEqual((ended.status, ended.out.count("\n"), ended.err), (1, 3, ""))

    def test_orders_of_cores_that_share_nothing_at_the_same_time(self) -> None:
        for name in ("nested_delegations", "trip_computer"):
            folder = EXAMPLE / name
            texts = {text_of(folder / "expected.txt")}
            for seed in range(4):
                path = self.order(folder, seed)
                texts.add(text_of(self.folder / path))
                self.assertEqual(self.said(folder, str(folder / "expected.txt"), path)[0], 0)
            self.assertGreater(len(texts), 1, name)

    def test_a_value_that_depends_on_the_order(self) -> None:
        folder = EXAMPLE / "two_cores"
        text = edited(
            text_of(folder / "expected.txt"),
            [("pump:Fill write out.level 40 0\ngauge:Look read in.level 0 40\n", "gauge:Look read in.level 0 0\npump:Fill write out.level 40 0\n")],
        )
        path = self.write("trace.txt", text)
        expected = str(folder / "expected.txt")
        status, said = self.said(folder, expected, path)
        self.assertEqual(status, 1)
        self.assertEqual(
            said,
            "the traces differ: first at gauge:Look\n"
            f"{expected}:16: gauge:Look read in.level 0 40\n{path}:15: gauge:Look read in.level 0 0\n",
        )

    def test_altered_traces(self) -> None:
        """What may change places is the order of cores; all else is a difference."""
        verdicts = {case.name: case.verdict for case in all_cases()}
        for folder in EXAMPLES:
            for way in ("exchanged", "left_out", "doubled"):
                name = f"{folder.name}_{way}"
                with self.subTest(name):
                    said = self.said(folder, str(folder / "expected.txt"), str(CORPUS / f"{name}.txt"))
                    self.assertEqual(said == (0, ORDER), verdicts[name] == "legal", said)

    def test_the_order_of_two_senders(self) -> None:
        folder = DATA / "rows" / "two_senders_on_two_cores"
        orders = {}
        for seed in range(20):
            path = self.order(folder, seed)
            sends = [line for line in text_of(self.folder / path).splitlines() if " send " in line]
            orders.setdefault(tuple(sends), path)
        one, other = list(orders.values())[:2]
        self.assertEqual(self.said(folder, one, other)[0], 1)

    def test_a_line_is_missing(self) -> None:
        folder = EXAMPLE / "two_cores"
        lines = text_of(folder / "expected.txt").splitlines(keepends=True)
        path = self.write("cut.txt", "".join(lines[:18]))
        status, said = self.said(folder, path, str(folder / "expected.txt"))
        self.assertEqual(status, 1)
        self.assertIn(f"{path}: it has no more lines\n", said)

    def test_bad_input(self) -> None:
        description, expected = (str(EXAMPLE / "two_cores" / name) for name in ("description.json", "expected.txt"))
        other = str(EXAMPLE / "one_writer" / "expected.txt")
        for words in ([description, expected, other], [description, expected, "none"], [description, description, expected], ["none", expected, other]):
            ended = call_tool("difference", *words)
            self.assertEqual((ended.status, ended.out), (2, ""))
            self.assertEqual(ended.err.count("\n"), 1, ended.err)


class Steps(unittest.TestCase):
    def test_the_corpus(self) -> None:
        """A line is refused where the program refuses it, if that does not depend on the script."""
        looked_at = 0
        for case in all_cases():
            clause = case.verdict.split(" ")[-1]
            if case.verdict != "legal" and clause not in CLAUSES:
                continue
            text = case.trace.read_text(encoding="utf-8", errors="replace")
            try:
                trace = read_trace(text.splitlines())
            except NotATrace:
                continue
            if len(trace.lines) > MANY:
                continue
            looked_at += 1
            found = first_fault(trace, plan_of(json.loads(text_of(case.description))))
            with self.subTest(case.name):
                self.assertEqual(f"illegal {found[0].number} {clause}" if found else "legal", case.verdict)
        self.assertGreater(looked_at, 100)


if __name__ == "__main__":
    unittest.main()
