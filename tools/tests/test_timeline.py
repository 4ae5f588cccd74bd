"""Traces that are drawn and exported."""

import json
import re
import unittest
from pathlib import Path
import xml.etree.ElementTree as xml

from support import DATA, EXAMPLES, WithFolder, description_of, replay_of, run_tool, trace_of

from rte_tools.chart import Chart, columns
from rte_tools.btf import btf
from rte_tools.foreign import foreign
from rte_tools.lanes import lanes_of
from rte_tools.overview import Overview
from rte_tools.page import page
from rte_tools.perfetto import perfetto
from rte_tools.replay import Change, replay
from rte_tools.report import detail_rows, report
from rte_tools.trace import NotATrace, read_trace
from rte_tools.vcd import vcd

TWO_CORES = DATA / "examples" / "two_cores"
TEXT = re.compile(r'<text class="([^"]*)" x="([^"]*)"[^>]*>([^<]+)<')


def drawn_page(folder: Path) -> str:
    return page(folder.name, "2", description_of(folder), replay_of(folder))


class Replays(unittest.TestCase):
    def test_two_cores(self) -> None:
        shown = replay_of(TWO_CORES)
        self.assertEqual(
            [(bar.lane, bar.key, bar.first, bar.last) for bar in shown.bars],
            [("Pumping", "pump:Fill", 13, 19), ("Showing", "gauge:Look", 14, 20)],
        )
        self.assertEqual(
            [(mark.moment, mark.verb) for mark in shown.marks],
            [(15, "write"), (16, "read"), (17, "write"), (18, "read")],
        )
        self.assertEqual(shown.values, {"pump.out.level": [Change(15, "40"), Change(17, "80")]})
        self.assertEqual(
            [(run.first, run.last, run.milliseconds, run.closing) for run in shown.runs],
            [(12, 21, 10, "idle"), (31, 32, 19, "idle")],
        )

    def test_a_window_keeps_what_began_before(self) -> None:
        shown = replay_of(TWO_CORES).window(16, 18)
        self.assertEqual([bar.first for bar in shown.bars], [13, 14])
        self.assertEqual(shown.values, {"pump.out.level": [Change(16, "40"), Change(17, "80")]})
        self.assertEqual([mark.moment for mark in shown.marks], [16, 17, 18])

    def test_invalid_values(self) -> None:
        shown = replay_of(DATA / "rows" / "invalidate_and_is_updated")
        self.assertEqual([change.state for change in shown.values["w.o.v"]], ["set", "invalid"])

    def test_a_direct_server_is_within_its_caller(self) -> None:
        shown = replay_of(DATA / "rows" / "direct_call")
        self.assertEqual([(bar.lane, bar.depth) for bar in shown.bars], [("T", 0), ("T", 1)])

    def test_modes_of_both_versions(self) -> None:
        for folder, machine in (
            ("bases/version_one", "env.m.g"),
            ("rows/mode_switch_on_three_cores", "env.m.g"),
            ("rows/mode_switch_that_waits", "b.m.g"),
        ):
            changes = replay_of(DATA / folder).modes[machine]
            self.assertEqual(
                [(change.text, change.state) for change in changes],
                [("Off", "moving"), ("Off", "set"), ("On", "moving"), ("On", "set")],
            )

    def test_a_call_on_two_cores(self) -> None:
        shown = replay_of(DATA / "examples" / "trip_computer")
        self.assertEqual(
            [(bar.lane, bar.depth, bar.key, bar.event) for bar in shown.bars],
            [
                ("Front", 0, "display:Show", "Each10"),
                ("Trip", 0, "computer:Range", "OnRange"),
                ("Trip", 0, "computer:SetMean", "OnSetMean"),
                ("Front", 0, "display:Show", "Each10"),
                ("Trip", 0, "computer:Range", "OnRange"),
            ],
        )
        verbs = ("ask", "answer", "return", "result")
        calls = [(mark.lane, mark.verb, mark.code) for mark in shown.marks if mark.verb in verbs]
        self.assertEqual(
            calls[:6],
            [
                ("Front", "ask", "0"),
                ("Trip", "return", "1"),
                ("Front", "answer", "1"),
                ("env", "ask", "0"),
                ("env", "result", "131"),
                ("Trip", "return", "0"),
            ],
        )

    def test_direct_servers_of_two_callers(self) -> None:
        shown = replay_of(DATA / "rows" / "direct_server_on_two_cores")
        self.assertEqual([(bar.lane, bar.depth) for bar in shown.bars], [("TK", 0), ("TJ", 0), ("TK", 1), ("TJ", 1)])

    def test_phases_of_two_machines(self) -> None:
        shown = replay_of(DATA / "rows" / "two_machines_at_once")
        self.assertEqual(sorted(shown.modes), ["env.m.g", "env.n.g"])
        for machine in shown.modes:
            steps = [mark.text.split()[2:] for mark in shown.marks if mark.lane == machine]
            self.assertEqual(steps, [["stable"], ["close", "On"], ["exit"], ["transition"], ["entry"], ["stable"]])

    def test_modes_of_an_instance(self) -> None:
        changes = replay_of(DATA / "examples" / "power_modes").modes["manager.power.state"]
        self.assertEqual(
            [(change.text, change.state) for change in changes],
            [
                ("Parked", "moving"),
                ("Parked", "set"),
                ("Driving", "moving"),
                ("Driving", "set"),
                ("Parked", "moving"),
                ("Parked", "set"),
            ],
        )

    def test_a_refused_admission_ends_the_activation(self) -> None:
        bars = replay_of(DATA / "rows" / "mode_switch_on_three_cores").bars
        self.assertEqual([bar.last for bar in bars if bar.key == "u:F"], [19])

    def test_unknown_verbs_are_plain_marks(self) -> None:
        trace = read_trace(["rte-trace 2", "run", "pump:Fill start Each10", "pump:Fill dance a b", "x:Y sing", "odd"])
        shown = replay(description_of(TWO_CORES), trace)
        self.assertEqual(
            [(mark.lane, mark.verb) for mark in shown.marks], [("Pumping", "dance"), ("", "sing"), ("", "")]
        )
        self.assertIsNone(shown.bars[0].last)
        xml.fromstring(page("t", "2", description_of(TWO_CORES), shown).partition("\n")[2])

    def test_what_is_not_a_trace(self) -> None:
        for lines in ([], ["refused rule 1 at /"]):
            with self.assertRaises(NotATrace):
                read_trace(lines)


class Pages(WithFolder):
    def test_each_example_is_a_well_formed_page(self) -> None:
        for folder in EXAMPLES:
            shown = replay_of(folder)
            drawn = page(folder.name, "2", description_of(folder), shown)
            root = xml.fromstring(drawn.partition("\n")[2])
            self.assertNotIn("<script", drawn)
            self.assertIn("not time", drawn)
            titles = [title.text for title in root.iter("title")]
            for bar in shown.bars:
                since = f"pending since line {bar.due}"
                self.assertIn(f"{bar.key} started by {bar.event}, lines {bar.first} to {bar.last}, {since}", titles)

    def test_ticks_in_a_row_share_a_column(self) -> None:
        found = columns(replay_of(TWO_CORES))
        self.assertEqual((found[2], found[11], found[12], found[22], found[30], found[31]), (0, 0, 1, 11, 11, 12))

    def test_a_long_trace_is_shown_as_a_whole_and_in_parts(self) -> None:
        lines = ["rte-trace 2", "run"]
        for number in range(3000):
            lines += ["pump:Fill start Each10", f"pump:Fill write out.level {number % 100} 0", "pump:Fill end"]
        shown = replay(description_of(TWO_CORES), read_trace([*lines, "unsettled"]))
        drawn = page("long", "2", description_of(TWO_CORES), shown)
        xml.fromstring(drawn.partition("\n")[2])
        self.assertIn("The end: lines 8,904 to 9,003", drawn)
        self.assertLess(len(drawn), 500_000)

    def test_an_overview_leads_to_the_run_lines(self) -> None:
        """From 300 columns on; each run line has its number, and a place to which its link leads."""
        description = description_of(TWO_CORES)
        for runs, expected in ((40, False), (80, True)):
            lines = ["rte-trace 2"]
            for _ in range(runs):
                lines += ["env tick", "run", "pump:Fill start Each10", "pump:Fill end", "idle"]
            drawn = page("t", "2", description, replay(description, read_trace(lines)))
            root = xml.fromstring(drawn.partition("\n")[2])
            self.assertEqual("The whole" in drawn, expected)
            links = [link.get("href") for link in root.iter() if link.tag.endswith("a") and link.get("href")]
            places = {f"#{link.get('id')}" for link in root.iter("a") if link.get("id")}
            self.assertEqual(set(links), {f"#run-{number + 1}" for number in range(runs)} if expected else set())
            self.assertEqual(len(links), 2 * runs * expected)  # in the overview, and below it by number
            self.assertTrue(set(links) <= places)

    def test_numbers_of_run_lines_do_not_overlap(self) -> None:
        description = description_of(TWO_CORES)
        for runs in (3, 30, 150, 1000):
            shown = replay(description, read_trace(["rte-trace 2", *["run", "idle"] * runs]))
            overview = Overview(shown, lanes_of(description, shown, is_low=True))
            texts = [text for text in map(TEXT.search, overview.draw()) if text and "run" in text[3] + "run"]
            numbers = [text for text in texts if text[1].endswith("inside")]
            ends = 0.0
            for text in numbers:
                self.assertGreaterEqual(float(text[2]), ends, (runs, text[0]))
                ends = float(text[2]) + len(text[3]) * 5.5
            self.assertLessEqual(ends, overview.width + 1)
            self.assertTrue(numbers)

    def test_the_legend_says_what_letters_and_arrows_mean(self) -> None:
        drawn = drawn_page(DATA / "examples" / "power_modes")
        for said in ("switch: Rte_Switch", "admit: whether a mode disables the event", "not admitted"):
            self.assertIn(f"{said}</li>", drawn)
        self.assertNotIn("receive: Rte_Receive", drawn)
        self.assertIn("a caller waits for the answer</li>", drawn_page(DATA / "examples" / "trip_computer"))

    def test_what_is_not_admitted_has_an_outline(self) -> None:
        drawn = drawn_page(DATA / "examples" / "power_modes")
        marks = re.findall(r'class="(mark state[^"]*)"[^>]*><title>line \d+: \S+ admit (\w+)', drawn)
        self.assertEqual(set(marks), {("mark state", "yes"), ("mark state bad", "no")})
        self.assertEqual(drawn.count(" dropped"), 2 + 1)  # two activations, and the legend

    def test_a_queue_has_a_lane_and_no_value(self) -> None:
        shown = replay_of(DATA / "examples" / "lost_value")
        lanes = lanes_of(description_of(DATA / "examples" / "lost_value"), shown)
        kinds = [(lane.kind, lane.name) for lane in lanes if lane.kind in ("queue", "value")]
        self.assertEqual(kinds, [("queue", "panel.presses.press"), ("queue", "env.log.entry")])
        self.assertIn("the queue is full, and what comes is lost", drawn_page(DATA / "examples" / "lost_value"))

    def test_arrows_and_waits_of_all_examples(self) -> None:
        for folder in EXAMPLES:
            shown, drawn = replay_of(folder), drawn_page(folder)
            legend = {arrow.kind for arrow in shown.arrows}
            self.assertEqual(drawn.count('<g class="arrow '), len(shown.arrows) + len(legend))
            self.assertEqual(drawn.count('<rect class="wait"'), len(shown.waits) + bool(shown.waits))

    def test_the_tool(self) -> None:
        files = str(TWO_CORES / "description.json"), str(TWO_CORES / "expected.txt")
        drawn = run_tool("timeline.py", *files, "--lines", "12-21")
        self.assertEqual((drawn.stderr, drawn.returncode), (b"", 0))
        self.assertIn(b"Lines 12 to 21 of a trace", drawn.stdout)
        self.assertEqual(self.refused(*files, "--lines", "40-50"), "--lines 40-50: the trace has the lines 2 to 32")
        refused = self.write("refused.txt", "refused rule 1 at /\n")
        self.assertEqual(run_tool("timeline.py", files[0], refused).returncode, 2)

    def refused(self, *words: str) -> str:
        """What the tool says, which is one line."""
        made = run_tool("timeline.py", *words)
        said = made.stderr.decode()
        self.assertEqual((made.returncode, made.stdout, said.count("\n")), (2, b"", 1), said)
        return said.removeprefix("timeline.py: ").strip()

    def test_words_that_do_not_fit(self) -> None:
        files = str(TWO_CORES / "description.json"), str(TWO_CORES / "expected.txt")
        form = "it is written as A-B with two numbers, for instance"
        self.assertEqual(self.refused(*files, "--lines", "10"), f"--lines 10: {form} --lines 10-40")
        self.assertEqual(self.refused(*files, "--runs", "x"), f"--runs x: {form} --runs 10-40")
        self.assertEqual(self.refused(*files, "--runs", "3"), "--runs 3: the trace has the run lines 1 to 2")
        self.assertEqual(self.refused(str(self.folder), files[1]), f"cannot read {self.folder}: this is a folder")
        self.assertEqual(self.refused(files[0], "none.txt"), "cannot read none.txt: there is no such file")

    def test_run_lines_are_chosen(self) -> None:
        files = str(TWO_CORES / "description.json"), str(TWO_CORES / "expected.txt")
        self.assertIn(b"Lines 12 to 21 of a trace", run_tool("timeline.py", *files, "--runs", "1").stdout)
        self.assertIn(b"Lines 12 to 32 of a trace", run_tool("timeline.py", *files, "--runs", "1-2").stdout)

    def test_a_trace_of_another_description(self) -> None:
        other = str(DATA / "examples" / "power_modes" / "expected.txt")
        files, missing = (str(TWO_CORES / "description.json"), other), "which the description does not have"
        self.assertEqual(
            self.refused(*files),
            f"{other} is not a trace of {files[0]}: line 2 names `power.state` of `env`, {missing}",
        )
        lines = {
            "pmup:Fill start Each10": f"the instance `pmup`, {missing}; the nearest one is `pump`",
            "pump:Flil start Each10": f"the runnable `pump:Flil`, {missing}",
            "pump:Fill start Each20": f"the event `Each20` of `pump`, {missing}",
            "pump:Fill write out.lvel 4 0": f"`out.lvel` of `pump`, {missing}",
            "pump.m.g phase stable": f"`m.g` of `pump`, {missing}",
        }
        for line, said in lines.items():
            found = foreign(description_of(TWO_CORES), read_trace(["rte-trace 2", line]))
            self.assertEqual(found, f"line 2 names {said}")

    def test_each_trace_is_of_its_own_description(self) -> None:
        for path in [*DATA.glob("rows/*/expected.txt"), *DATA.glob("bases/*/expected.txt")]:
            try:
                self.assertEqual(foreign(description_of(path.parent), trace_of(path.parent)), "", path)
            except NotATrace:
                continue


class Reports(WithFolder):
    """Pictures that stand alone."""

    def drawn(self, *words: str) -> str:
        made = run_tool("timeline.py", *words, "--to", "svg")
        self.assertEqual((made.returncode, made.stderr), (0, b""))
        return made.stdout.decode()

    def test_each_example_stands_alone(self) -> None:
        for folder in EXAMPLES:
            drawn = report(folder.name, "2", description_of(folder), replay_of(folder))
            root = xml.fromstring(drawn)
            self.assertEqual(root.tag, "{http://www.w3.org/2000/svg}svg")
            for foreign_part in ("var(", "--", "@media", "href", "<script", "hover"):
                self.assertNotIn(foreign_part, drawn)
            self.assertLess(float(root.get("width")), 1400)

    def test_each_class_has_a_style(self) -> None:
        folder = DATA / "examples" / "lost_value"
        drawn = report("t", "2", description_of(folder), replay_of(folder))
        used = {name for names in re.findall(r'class="([^"]+)"', drawn) for name in names.split()}
        styles = drawn[drawn.index("<style>") : drawn.index("</style>")]
        plain = {"idle", "label", "inside", "task", "bar", "mark"}
        self.assertEqual({name for name in used - plain if not re.search(rf"\.{name}\b", styles)}, set())

    def test_rows(self) -> None:
        """Each call is in one row, and a row has the lanes in which something is."""
        shown = replay_of(DATA / "examples" / "door_control")
        rows = detail_rows(description_of(DATA / "examples" / "door_control"), shown)
        texts = ["".join(row.parts) for row in rows]
        self.assertEqual(sum(text.count('<rect class="mark') for text in texts), len(shown.marks))
        self.assertEqual(len({row.width for row in rows[:-1]}), 1)
        self.assertEqual([">core 0<" in text for text in texts], [True, True, False])

    def test_an_arrow_from_a_lane_that_is_not_shown(self) -> None:
        """The end of a call from another row: its arrow comes from nearby."""
        folder = DATA / "examples" / "power_modes"
        shown = replay_of(folder).window(84, 86)  # the environment wrote in line 72
        lanes = [lane for lane in lanes_of(description_of(folder), shown) if lane.kind != "events"]
        drawn = "".join(Chart(shown, lanes, {bar.key: 0 for bar in shown.bars}).draw())
        self.assertEqual(drawn.count('<g class="arrow data"><title>manager:Decide starts at line 84, since line 72'), 1)

    def test_a_long_one_is_shown_at_a_glance(self) -> None:
        lines = ["rte-trace 2", *["env tick", "run", "pump:Fill start Each10", "pump:Fill end", "idle"] * 80]
        path = self.write("long.txt", "\n".join(lines) + "\n")
        drawn = self.drawn(str(TWO_CORES / "description.json"), path)
        self.assertNotIn('class="letter', drawn)
        self.assertLess(float(xml.fromstring(drawn).get("height")), 500)
        part = self.drawn(str(TWO_CORES / "description.json"), path, "--runs", "3-4")
        self.assertIn("pump:Fill", part)


class Exports(WithFolder):
    def test_btf_of_a_call_that_waits(self) -> None:
        folder = DATA / "examples" / "trip_computer"
        lines = btf(description_of(folder), replay_of(folder)).splitlines()
        self.assertEqual(
            [line for line in lines if re.match(r"(16|20),.*(wait|suspend|release|resume),", line)],
            [
                "16,Front,0,R,display:Show,0,suspend,",
                "16,Core_0,0,T,Front,0,wait,",
                "20,Core_0,0,T,Front,0,release,",
                "20,Core_0,0,T,Front,0,resume,",
                "20,Front,0,R,display:Show,0,resume,",
            ],
        )
        direct = DATA / "rows" / "direct_call"  # runs in its caller's task, which does not wait
        self.assertNotIn(",wait,", btf(description_of(direct), replay_of(direct)))

    def test_btf_activates_when_an_event_became_due(self) -> None:
        folder = DATA / "examples" / "power_modes"
        lines = btf(description_of(folder), replay_of(folder)).splitlines()
        self.assertIn("19,manager.OnKey,1,T,Manage,1,activate,", lines)
        self.assertIn("31,Core_0,0,T,Manage,1,start,", lines)
        self.assertIn("44,env,0,SIG,manager.power.state,0,write,Driving", lines)

    def test_btf_of_a_task_is_in_order(self) -> None:
        """Each job is activated, started, perhaps waits, and terminated, in this order."""
        form = re.compile("activate start( wait release resume)*( terminate)?")
        for path in DATA.glob("*/*/expected.txt"):
            try:
                lines = btf(description_of(path.parent), replay_of(path.parent)).splitlines()
            except NotATrace:
                continue
            jobs: dict[tuple[str, str], list[str]] = {}
            for line in lines:
                fields = line.split(",")
                if len(fields) > 3 and fields[3] == "T":
                    jobs.setdefault((fields[4], fields[5]), []).append(fields[6])
            for job, steps in jobs.items():
                self.assertTrue(form.fullmatch(" ".join(steps)), (path.parent.name, job, steps))

    def test_btf(self) -> None:
        lines = btf(description_of(TWO_CORES), replay_of(TWO_CORES)).splitlines()
        events = [line.split(",") for line in lines if not line.startswith("#")]
        self.assertTrue(all(len(event) in (7, 8) for event in events))
        self.assertEqual([int(event[0]) for event in events], sorted(int(event[0]) for event in events))
        self.assertIn("13,Core_0,0,T,Pumping,0,start,", lines)
        self.assertIn("14,Showing,1,R,gauge:Look,1,start,", lines)
        self.assertIn("20,Core_1,0,T,Showing,1,terminate,", lines)
        self.assertIn("17,Pumping,0,SIG,pump.out.level,0,write,80", lines)

    def test_btf_of_a_direct_server(self) -> None:
        folder = DATA / "rows" / "direct_call"
        lines = btf(description_of(folder), replay_of(folder)).splitlines()
        self.assertIn("15,T,0,R,v:Serve,1,start,", lines)
        self.assertNotIn("15,Core_0,0,T,T,1,start,", lines)

    def test_btf_of_the_environment(self) -> None:
        folder = DATA / "examples" / "nested_delegations"
        self.assertIn("2,env,0,SIG,env.x.n,0,write,3", btf(description_of(folder), replay_of(folder)).splitlines())

    def test_vcd(self) -> None:
        text = vcd(description_of(TWO_CORES), replay_of(TWO_CORES))
        identifiers = dict(
            (name, identifier) for identifier, name in re.findall(r"\$var \w+ \d+ (\S+) (\S+) \$end", text)
        )
        level, fill = identifiers["pump_out_level"], identifiers["pump_Fill"]
        self.assertIn(f"\n#13\n1{fill}\n", text)
        self.assertIn(f"b101000 {level}\n", text)  # 40
        self.assertIn(f"b1010000 {level}\n", text)  # 80
        self.assertEqual(text.count("$scope"), text.count("$upscope"))

    def test_vcd_of_a_negative_word(self) -> None:
        folder = DATA / "examples" / "nested_delegations"
        self.assertIn(f"b{2**64 - 70:b} ", vcd(description_of(folder), replay_of(folder)))

    def test_vcd_of_modes_and_queues(self) -> None:
        folder = DATA / "examples" / "power_modes"
        text = vcd(description_of(folder), replay_of(folder))
        identifier = re.search(r"\$var string 1 (\S+) manager_power_state \$end", text)[1]
        states = re.findall(rf"^s(\S+) {re.escape(identifier)}$", text, re.MULTILINE)
        self.assertEqual(states, ["to_Parked", "Parked", "to_Driving", "Driving", "to_Parked", "Parked"])
        folder = DATA / "rows" / "queue_of_two_loses_the_third"
        text = vcd(description_of(folder), replay_of(folder))
        identifier = re.search(r"\$var wire 1 (\S+) c_q_v_lost \$end", text)[1]
        self.assertIn(f"\n1{identifier}\n", text[text.index("#4\n") : text.index("#5\n")])

    def test_a_save_file_stands_beside_a_dump(self) -> None:
        """It names each signal of the dump, in its scope."""
        folder, dump = DATA / "examples" / "trip_computer", self.folder / "trip.vcd"
        files = str(folder / "description.json"), str(folder / "expected.txt")
        self.assertEqual(run_tool("timeline.py", *files, "--to", "vcd", "--output", str(dump)).returncode, 0)
        saved = (self.folder / "trip.gtkw").read_text(encoding="utf-8").splitlines()
        self.assertIn('[dumpfile] "trip.vcd"', saved)
        scopes: list[str] = []
        signals = []
        for line in dump.read_text(encoding="utf-8").splitlines():
            if line.startswith("$scope"):
                scopes.append(line.split()[2])
            elif line.startswith("$upscope"):
                scopes.pop()
            elif line.startswith("$var"):
                signals.append(".".join([*scopes, line.split()[4]]))
        self.assertEqual([line for line in saved if re.fullmatch(r"[a-z]\w*(\.\w+)+", line)], signals)

    def test_perfetto_flows_lead_from_calls_to_servers(self) -> None:
        """Both ends of a flow are within a slice of their thread."""
        for folder in EXAMPLES:
            events = json.loads(perfetto(description_of(folder), replay_of(folder)))["traceEvents"]
            slices = [(e["pid"], e["tid"], e["ts"], e["ts"] + e["dur"]) for e in events if e["ph"] == "X"]
            open_slices: dict[tuple[int, int, str], int] = {}
            for e in events:
                if e["ph"] == "B":
                    open_slices[e["pid"], e["tid"], e["name"]] = e["ts"]
                elif e["ph"] == "E":
                    slices.append((e["pid"], e["tid"], open_slices[e["pid"], e["tid"], e["name"]], e["ts"]))
            flows = [e for e in events if e["ph"] in "sf"]
            self.assertEqual(len(flows), 2 * len(replay_of(folder).arrows))
            for e in flows:
                held = any(s[:2] == (e["pid"], e["tid"]) and s[2] <= e["ts"] <= s[3] for s in slices)
                self.assertTrue(held, (folder.name, e))

    def test_perfetto_calls_group(self) -> None:
        events = json.loads(perfetto(description_of(TWO_CORES), replay_of(TWO_CORES)))["traceEvents"]
        calls = [(e["name"], e["args"]) for e in events if e["ph"] == "X" and e["name"].startswith("write")]
        self.assertEqual([name for name, _ in calls], ["write out.level"] * 2)
        self.assertEqual(calls[1][1], {"line": 17, "value": "80", "code": "0"})
        folder = DATA / "examples" / "power_modes"
        events = json.loads(perfetto(description_of(folder), replay_of(folder)))["traceEvents"]
        self.assertIn("to Driving", [e["name"] for e in events if e["ph"] == "X"])

    def test_perfetto(self) -> None:
        for folder in EXAMPLES:
            events = json.loads(perfetto(description_of(folder), replay_of(folder)))["traceEvents"]
            begins = sum(event["ph"] == "B" for event in events)
            self.assertEqual(begins, sum(event["ph"] == "E" for event in events))
            self.assertEqual(begins, len(replay_of(folder).bars))
        held = json.loads(perfetto(description_of(TWO_CORES), replay_of(TWO_CORES)))["traceEvents"]
        self.assertIn({"ph": "E", "ts": 19, "name": "pump:Fill", "pid": 0, "tid": 1}, held)

    def test_all_rows_are_exported(self) -> None:
        for path in DATA.glob("rows/*/expected.txt"):
            try:
                trace_of(path.parent)
            except NotATrace:
                continue
            for export in (btf, vcd, perfetto):
                self.assertTrue(export(description_of(path.parent), replay_of(path.parent)))


if __name__ == "__main__":
    unittest.main()
