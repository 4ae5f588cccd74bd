"""Verdicts on traces: what is said of a refused line, and whether the bus that says it gives each line of legal traces."""

from __future__ import annotations

import json
import unittest

from support import WithFolder, run_tool, text_of

from rte_tools.bus_plan import ENVIRONMENT, plan_of
from rte_tools.cases import Case, all_cases
from rte_tools.explaining import explain
from rte_tools.refusal import read_refusal
from rte_tools.trace import read_line, read_trace
from rte_tools.verdicts import read_before, spelled, wish_of

CASES = {case.name: case for case in all_cases()}
MANY = 10_000  # lines of a trace that is too long to go through here

# What the corpus says, and what is said of it: derived by hand from the traces.
SAID = {
    "foreign_value_written": "The line would be `w:Step write o.v 7 0`.",
    "foreign_value_read": "The value was written in line 14.",
    "invalidate_changes_no_value": "It was invalidated in line 15.",
    "fetched_too_late": "The line would be `u:Go fetch i.v 7`.",
    "pair_fetched_at_two_moments": "The value of `i.a` was written in line 14. The value of `i.b` was written in line 14.",
    "unmarked_element_becomes_valid": "It was invalidated in line 14.",
    "pair_fetched_one_by_one": "The line would be `r:Look fetchAll 0 3,4`.",
    "pair_published_one_by_one": "The line would be `w:Step publishAll 0 11 3,4`.",
    "list_at_its_last_access": "The line would be `w:Step publishAll 0 10 4`.",
    "first_of_one_group_stays": "The value was written in line 14.",
    "oldest_overwritten": "The oldest value was sent in line 2.",
    "loss_not_told": "The value of line 4 was lost.",
    "later_request_first": "The oldest request is that of `k0:Go.c.op` with the value `4`.",
    "answer_before_the_return": "`answer c.op` is held back: the server has not returned.",
    "results_crossed": "The line would be `k1:Go answer c.op 0 8`.",
    "direct_start_of_another_point": "The activation serves `k:Go.c.op`.",
    "goes_on_before_the_direct_server_ends": "`k:Go` waits until `v:Serve@k:Go.c.op` has ended.",
    "direct_server_without_a_caller": "A direct server starts right behind the `ask` of its caller.",
    "entered_while_held": "`enter counting` is held back: `gate:Arrive` is in the area.",
    "closes_for_another_mode": "The machine's last phase is `stable`: `phase close On` comes next.",
    "mode_looked_at_too_early": "The line would be `u:Leave mode p.g -`.",
    "admitted_though_disabled": "The line would be `u:F admit no`.",
    "a_start_for_each_period": "The period is 10, and 30 ticks have passed; a start clears what is pending.",
    "server_without_a_request": "No request waits.",
    "idle_too_early": "Something may still step: the event `E` of `r` may start `Look`.",
    "unsettled_too_early": "The run line has made 6 entries, and `unsettled` holds from 100,000 on.",
    "ends_within_a_run_line": "The trace ends within a run line.",
    "empty": "The script goes on with line 1, `tick 10`, of which 0 ticks are done.",
    "tick_left_out": "The script goes on with line 1, `tick 10`, of which 9 ticks are done.",
    "another_version": "The first line is `rte-trace 1` or `rte-trace 2`.",
    "cut_within_a_line": "The line has no newline at its end",
    "unknown_instance": "Nothing that acts is named `x:Step`; the nearest one is `w:Step`.",
    "leading_zero": "`07` is no value",
    "code_above_255": "`256` is no code",
    "no_such_list": "There is no list `1`: `r:Look` has the coherent lists 0 to 0.",
    "lists_counted_by_kind": "List 0 is one of writes: `o.a`, `o.b`.",
    "marks_past_the_list": "`110` has not one digit, 0 or 1, for each of `o.a`, `o.b`.",
    "pair_published_short": "The value has not as many words as the marked elements have together.",
    "environment_fetches_a_list": "There is no list `0`: `env` has no coherent list.",
}


def explained(case: Case) -> list[str]:
    return explain(read_refusal(case.verdict), str(case.description), str(case.script), str(case.trace))


class Verdicts(WithFolder):
    def test_each_refused_trace_is_explained(self) -> None:
        for case in CASES.values():
            if case.status == 6:
                with self.subTest(case.name):
                    line = case.verdict.removeprefix("bad line ").removeprefix("illegal ").split(" ")[0]
                    said = explained(case)
                    self.assertTrue(said[0].startswith(f"{case.trace}:{line}:"), said[0])
                    self.assertTrue(any(sentence.startswith("  ") for sentence in said[1:]))

    def test_what_is_said(self) -> None:
        for name, sentence in SAID.items():
            with self.subTest(name):
                self.assertIn(sentence, " ".join(line.strip() for line in explained(CASES[name])))

    def test_the_bus_gives_each_line_of_a_legal_trace(self) -> None:
        for case in CASES.values():
            text = text_of(case.trace) if case.status == 0 else ""
            if 0 < text.count("\n") < MANY:
                with self.subTest(case.name):
                    self.assert_expected(case, text)

    def assert_expected(self, case: Case, text: str) -> None:
        trace = read_trace(text.splitlines())
        bus = read_before(plan_of(json.loads(text_of(case.description))), trace.version, []).bus
        for line in trace.lines:
            if line.verb == "phase":
                instance, _, name = line.actor.partition(".")
                self.assertEqual(f"{line.actor} phase {bus.phase((instance, name))}", line.text)
            elif line.actor and line.verb not in ("start", "tick"):
                wish = wish_of(line, bus) if line.actor == ENVIRONMENT else bus.running[line.actor].next
                self.assertEqual(spelled(bus, line.actor, wish, bus.answer(line.actor, wish)), line.text)
            elif line.verb == "idle":
                self.assertEqual(bus.may_step(), "")
            bus.note(read_line(line.number, line.text))

    def test_a_trace_of_another_description(self) -> None:
        case, other = CASES["foreign_value_read"], CASES["two_cores"]
        lines = explain(read_refusal("bad line 13"), str(case.description), str(case.script), str(other.trace))
        self.assertIn("This is perhaps the trace of another description: this one does not have `pump:Fill`, `gauge:Look`.", " ".join(lines))
        self.assertNotIn("another description", " ".join(explained(case)))

    def test_the_tool_explains_a_verdict(self) -> None:
        case = CASES["foreign_value_read"]
        said = self.write("said", f"{case.verdict}\n")
        words = ["--trace", str(case.trace), "--said", said, str(case.description), str(case.script)]
        ended = run_tool("explain.py", *words)
        self.assertEqual(ended.returncode, 6)
        self.assertIn(b"illegal 17 D7\n", ended.stdout)
        self.assertIn(b"    17 | r:Look read i.v 0 6\n", ended.stdout)
        self.assertIn(b"The line would be `r:Look read i.v 0 7`.", ended.stdout)


if __name__ == "__main__":
    unittest.main()
