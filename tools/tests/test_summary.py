"""What is counted of a trace. The numbers of a soak are those that the program prints of it."""

from __future__ import annotations

import csv
import io
import json
import sys
import unittest

from calling import call_tool
from support import DATA, TOP, WithFolder, edited, program, run, run_tool, text_of

from rte_tools.bus_plan import plan_of
from rte_tools.cases import all_cases
from rte_tools.prepared import read_own_trace
from rte_tools.files import Unfit
from rte_tools.summing import Unfitting, rows, sums_of
from rte_tools.trace import read_trace

EXAMPLE, ROWS = DATA / "examples", DATA / "rows"
SOAK = 3
LONGEST = 200_000  # bytes of a trace that is gone through
TOTALS = ("instances", "runs", "idle", "sends", "taken", "limits", "asks", "answers")  # as the program prints them


def counted(folder, trace: str = "") -> list[tuple[str, str, str, int, str]]:
    plan = plan_of(json.loads(text_of(folder / "description.json")))
    found = rows(sums_of(read_trace((trace or text_of(folder / "expected.txt")).splitlines()), plan), 0)
    return [(row.table, row.where, row.what, row.count, row.note) for row in found]


class Summaries(WithFolder):
    def test_modes(self) -> None:
        found = counted(EXAMPLE / "power_modes")
        for row in (
            ("starts", "heater:Warm", "Each10", 4, ""),
            ("not admitted", "heater:Warm", "Each10", 2, ""),
            ("greatest fill of queues", "manager.power.state", "", 1, "of 1"),
            ("totals", "", "ticks", 40, ""),
        ):
            self.assertIn(row, found)

    def test_queues(self) -> None:
        found = counted(EXAMPLE / "lost_value")
        for row in (
            ("values lost", "panel.presses.press", "", 1, ""),
            ("greatest fill of queues", "panel.presses.press", "", 2, "of 2"),
            ("greatest fill of queues", "env.log.entry", "", 3, "of 8"),
            ("codes that are not 0", "env", "send buttons.press", 1, "130 RTE_E_LIMIT"),
            ("codes that are not 0", "panel:Handle", "receive presses.press", 1, "64 RTE_E_LOST_DATA"),
        ):
            self.assertIn(row, found)

    def test_reads_of_nothing(self) -> None:
        found = counted(EXAMPLE / "door_control")
        self.assertIn(("reads of nothing", "speed:Mean", "read wheels.speeds", 1, "133 RTE_E_NEVER_RECEIVED"), found)
        self.assertIn(("codes that are not 0", "central:Decide", "read vehicle.speed", 1, "1 RTE_E_INVALID"), found)
        self.assertIn("134 RTE_E_UNCONNECTED", {row[4] for row in counted(ROWS / "unconnected") if row[0] == "reads of nothing"})

    def test_errors_of_operations(self) -> None:
        notes = {row[4] for row in counted(EXAMPLE / "trip_computer") if row[0] == "codes that are not 0"}
        text = text_of(EXAMPLE / "trip_computer" / "description.json")
        name = text[text.index('"errors":[{"shortName":"') :].split('"')[5]
        self.assertIn(f"1 {name}", notes)

    def test_clamped_values(self) -> None:
        self.assertIn(("clamped values", "dome:Dim", "write light.level", 2, "120 -> 100, first in line 65"), counted(EXAMPLE / "door_control"))
        self.assertIn(("clamped values", "w:Step", "write o.v", 1, "1800 -> 1000, first in line 14"), counted(ROWS / "sum_clamped_to_the_limit"))

    def test_clamped_implicit_writes(self) -> None:
        text = edited(
            text_of(EXAMPLE / "one_writer" / "description.json"),
            [('["write","o","v"]]', '["iwrite","o","v"]]'), ('["write","o","v",[7],"s"]', '["iwrite","o","v",[["sub",0,7]]]')],
        )
        description, script = self.write("description.json", text), str(EXAMPLE / "one_writer" / "script.txt")
        trace = self.write("trace.txt", call_tool("dry_run", description, script).out)
        said = call_tool("summary", description, trace).out
        self.assertIn("w:Step publish o.v  1  -7 -> 0, first in line", said)

    def test_clamped_arguments_and_returns(self) -> None:
        folder = ROWS / "direct_call"
        value = json.loads(text_of(folder / "description.json"))
        for component in value["components"]:
            for runnable in component["behavior"]["runnables"]:
                if runnable["shortName"] == "Go":
                    runnable["program"] = [["call", "c", "op", [["sub", 0, 4]], ["y"], "s"]]
                else:
                    runnable["program"] = [["set", "b", 5000]]
        text = json.dumps(value)
        description = self.write("description.json", text)
        trace = self.write("trace.txt", call_tool("dry_run", description, str(folder / "script.txt")).out)
        said = call_tool("summary", description, trace).out
        self.assertIn("k:Go ask c.op   1  -4 -> 0, first in line 14\n", said)
        self.assertIn("v:Serve return  1  5000 -> 1000, first in line 16\n", said)

    def test_the_numbers_of_a_soak(self) -> None:
        run([sys.executable, str(TOP / "bench" / "make_soak.py"), str(SOAK), str(self.folder)])
        description, script = str(self.folder / "description.json"), str(self.folder / "script.txt")
        trace = self.write("trace.txt", call_tool("dry_run", description, script).out)
        said = list(csv.DictReader(io.StringIO(call_tool("summary", "--csv", description, trace).out)))
        found = {row["what"]: int(row["count"]) for row in said if row["table"] == "totals"}
        wanted = dict(zip(TOTALS, (2 * SOAK + 1, 20, 20, 80 * SOAK, 80 * SOAK, 0, 20 * SOAK, 20 * SOAK)))
        self.assertEqual({name: found[name] for name in TOTALS}, wanted)
        if program():
            shown = run([program(), "soak", str(SOAK)]).stdout.decode()
            self.assertEqual(shown, f"soak {SOAK}\n" + "".join(f"{name} {found[name]}\n" for name in TOTALS))

    def test_all_legal_traces_are_counted(self) -> None:
        for case in all_cases():
            if case.status == 0 and case.trace.stat().st_size < LONGEST:
                with self.subTest(case.name):
                    plan = plan_of(json.loads(text_of(case.description)))
                    sums = sums_of(read_own_trace(str(case.trace), plan), plan)
                    self.assertEqual(sums.totals["starts"], sum(sums.starts.values()))

    def test_altered_traces_are_counted_or_refused(self) -> None:
        for case in all_cases():
            if case.status == 6:
                plan = plan_of(json.loads(text_of(case.description)))
                try:
                    list(rows(sums_of(read_own_trace(str(case.trace), plan), plan), 1))
                except (Unfit, Unfitting) as error:
                    self.assertNotIn("\n", str(error))

    def test_a_trace_that_is_cut_or_has_no_ticks(self) -> None:
        lines = text_of(EXAMPLE / "two_cores" / "expected.txt").splitlines(keepends=True)
        for text in ("".join(lines[:16]), "".join(line for line in lines if line != "env tick\n")):
            self.assertIn(("starts", "pump:Fill", "Each10", 1, ""), counted(EXAMPLE / "two_cores", text))

    def test_bad_input(self) -> None:
        description, expected = (str(EXAMPLE / "two_cores" / name) for name in ("description.json", "expected.txt"))
        altered = self.write("altered.txt", edited(text_of(EXAMPLE / "two_cores" / "expected.txt"), [("write out.level 40 0", "write out.level 41 0")]))
        other = str(EXAMPLE / "one_writer" / "expected.txt")
        for words, part in (
            ([description, other], "the trace is of another description: Nothing that acts is named `w:Step`"),
            ([description, altered], "may not come here: its program asks for `write out.level 40`"),
            ([description, description], "is not a trace"),
            ([expected, expected], "is not JSON"),
            ([description, str(self.folder)], "this is a folder"),
        ):
            ended = call_tool("summary", *words)
            self.assertEqual((ended.status, ended.out), (2, ""))
            self.assertIn(part, ended.err)
            self.assertEqual(ended.err.count("\n"), 1, ended.err)

    def test_the_tool(self) -> None:
        folder = EXAMPLE / "two_cores"
        ended = run_tool("summary.py", str(folder / "description.json"), str(folder / "expected.txt"))
        self.assertEqual((ended.returncode, ended.stderr), (0, b""))
        self.assertIn(b"\nclamped values\n  none\n", ended.stdout)


if __name__ == "__main__":
    unittest.main()
