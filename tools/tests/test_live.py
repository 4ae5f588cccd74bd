"""Live nodes: which stimuli are refused, which texts are legal, and what is shown of them."""

from __future__ import annotations

import json
import os
import random
import re
import shutil
import subprocess
import sys
import unittest
from pathlib import Path

from calling import call_tool
from support import DATA, TOOLS, WithFolder, edited, program, run_tool, text_of

from rte_tools.live import checked_live
from rte_tools.live_turns import LiveNode, one_after_the_other
from rte_tools.reference import read_format, section
from rte_tools.stimuli import feeds_of, first_bad_stimulus
from rte_tools.turns import Layout

EXAMPLES = DATA / "examples"
CAR_PARK = EXAMPLES / "car_park"
DESCRIPTION, STIMULI, TEXT = (str(CAR_PARK / name) for name in ("description.json", "stimuli.txt", "live.txt"))
ORDERS = 40
# What is served in many orders: examples with calls of each kind.
SERVED = {
    "car_park": text_of(CAR_PARK / "stimuli.txt"),
    "door_control": "0 tick 30\n1 write lever_fl.pulled 1\n1 tick 20\n2 write key.locked 1\n2 read lock.locked\n3 write wheels.speeds 1,2,3,4\nstop\n",
    "trip_computer": "0 tick 40\n1 ask service.setMean 8\n1 tick 3\n1 result service.setMean\n1 result service.setMean\nstop\n",
    "power_modes": "0 tick 30\n1 write key.turned 1\n1 mode power.state\n2 tick 20\n2 write key.turned 0\n2 read lamp.on\nstop\n",
    "odometer": "0 tick 40\n3 tick 40\nstop\n",
}


def layout_of(folder: Path) -> Layout:
    return Layout(json.loads(text_of(folder / "description.json")))


# A text of one order, which the tests change.
DRY = LiveNode(layout_of(CAR_PARK)).served(SERVED["car_park"], one_after_the_other())


class Stimuli(WithFolder):
    def test_the_first_bad_line(self) -> None:
        plan = layout_of(CAR_PARK).plan
        for text, line, cause in (
            ("", 1, 1),
            ("0 tick 1\n", 2, 1),
            ("0 tick 1", 2, 1),
            ("stop\n\n", 2, 1),
            ("stop\n# behind\n", 2, 1),
            ("# before\n\n0 run\nstop\n", 3, 1),
            ("0 # said\nstop\n", 1, 1),
            ("0 \nstop\n", 1, 1),
            ("0\nstop\n", 1, 1),
            ("4 tick 1\nstop\n", 1, 1),
            ("00 tick 1\nstop\n", 1, 1),
            ("0  tick 1\nstop\n", 1, 1),
            (" 0 tick 1\nstop\n", 1, 1),
            ("tick 1\nstop\n", 1, 1),
            ("0 stop\nstop\n", 1, 1),
            ("stop \n", 1, 1),
            ("0 tick 100001\nstop\n", 1, 1),
            ("0 send east.car 1\nstop\n", 1, 2),
            ("0 read free.car\nstop\n", 1, 2),
            ("0 send north.car 2\nstop\n", 1, 3),
            ("0 tick 70000\nstop\n", 1, 4),
            ("0 tick 65535\n1 read free.cars\n2 tick 1\nstop\n", 3, 4),
            ("\n" * 100_000 + "stop\n", 100_001, 4),
            ("0 tick 65537\n0 run\nstop\n", 1, 4),
        ):
            refusal = first_bad_stimulus(text, plan)
            self.assertEqual(refusal and (refusal.line, refusal.number), (line, cause), text[:40])
        for text in ("stop", "stop\n", "# said\n\nstop\n", "0 tick 65536\nstop\n", "3 tick 65535\n0 read free.cars\nstop\n"):
            self.assertIsNone(first_bad_stimulus(text, plan), text)

    def test_the_lines_of_the_page(self) -> None:
        """Each line that docs/FORMAT.md shows for a cause has it."""
        plan = layout_of(CAR_PARK).plan
        rows = re.findall(r"^\| (\d) \| .+ \| (.+) \|$", section(read_format(), "A live node"), re.MULTILINE)
        self.assertEqual([cause for cause, _ in rows], ["1", "4"])
        for cause, cell in rows:
            for line in re.findall("`([^`]+)`", cell):
                refusal = first_bad_stimulus(f"{line}\nstop\n", plan)
                self.assertEqual(str(refusal), f"script refused line 1 cause {cause}", line)

    def test_what_is_said(self) -> None:
        for text, *parts in (
            ("0 tick 1\n", "stimuli.txt:2: cause 1: the line has none of the forms", "No line is `stop`.", "Mend: end the stimuli with a line `stop`."),
            ("0 run\nstop\n", "stimuli.txt:1:3: cause 1", "There are no run lines here"),
            ("tick 1\nstop\n", "A line begins with the number of a feed, from 0 to 3, and one space: `0 tick 10`."),
            ("5 tick 1\nstop\n", "`5` is no feed."),
            ("stop\n0 tick 1\n", "It stands behind `stop`, which is the last line"),
            ("0 # said\nstop\n", "An empty line and a comment stand without a feed."),
            ("0 tick 1x\nstop\n", "stimuli.txt:1:8: cause 1", "A tick is a millisecond"),
            ("1 send noth.car 1\nstop\n", "stimuli.txt:1:8: cause 2", "the nearest one is `north.car`"),
            ("1 send north.car 2\nstop\n", "stimuli.txt:1:18: cause 3", "`Way` from -1 to 1. 2 is more than that."),
            ("0 tick 65537\nstop\n", "cause 4: the line is the one that passes 100,000 lines, or 65,536 wishes", "the feeds have 65,537 wishes"),
            ('{"root":"Top"}', "This is a description, and stimuli are wanted here.", "`live` takes DESCRIPTION, and stimuli on standard input."),
        ):
            stimuli = self.write("stimuli.txt", text)
            for tool in ("dry_run", "dry_check"):
                words = ["--live", DESCRIPTION, *([TEXT] if tool == "dry_check" else []), stimuli]
                ended = call_tool(tool, *words)
                self.assertEqual(ended.status, 5, text)
                for part in parts:
                    self.assertIn(part, " ".join(ended.err.split()), text)

    def test_too_many_cores(self) -> None:
        crowded = self.write("crowded.json", edited(text_of(CAR_PARK / "description.json"), [('"cores":2', '"cores":8')]))
        ended = call_tool("dry_run", "--live", crowded, STIMULI)
        self.assertEqual((ended.out, ended.status), ("too many cores\n", 11))
        self.assertIn("a live node has at most 7", ended.err)
        self.assertIn('"cores":8', ended.err)

    def test_stimuli_are_no_script(self) -> None:
        ended = call_tool("dry_run", DESCRIPTION, STIMULI)
        self.assertEqual(ended.status, 5)
        self.assertIn("These are stimuli, and a script is wanted here.", ended.err)


class Texts(WithFolder):
    def test_each_order_is_legal(self) -> None:
        for name, stimuli in SERVED.items():
            layout, feeds = layout_of(EXAMPLES / name), feeds_of(stimuli)
            self.assertIsNone(first_bad_stimulus(stimuli, layout.plan), name)
            for number in range(ORDERS):
                text = LiveNode(layout).served(stimuli, random.Random(number).randrange)
                self.assertIsNone(checked_live(layout.plan, text, feeds), f"{name}, order {number}")

    def test_what_is_the_same_in_each_order(self) -> None:
        layout, stimuli = layout_of(CAR_PARK), text_of(CAR_PARK / "stimuli.txt")
        seen = set()
        for number in range(ORDERS):
            lines = LiveNode(layout).served(stimuli, random.Random(number).randrange).splitlines()
            feeds = [[line for line in lines if line.startswith(feed)] for feed in "01"]
            seen.add((*map(tuple, feeds), [line for line in lines if " write free.cars " in line][-1]))
        self.assertEqual({last for *_, last in seen}, {"board:Show write free.cars 17 0"})
        self.assertEqual(len(seen), 1)

    def test_the_example(self) -> None:
        self.assertEqual(call_tool("dry_check", "--live", DESCRIPTION, TEXT, STIMULI).out, "legal\n")

    def refused(self, verdict: str, said: str, *edits: tuple[str, str]) -> None:
        text = self.write("text.txt", edited(DRY, list(edits)))
        ended = call_tool("dry_check", "--live", DESCRIPTION, text, STIMULI)
        self.assertEqual((ended.out, ended.status), (f"{verdict}\n", 6), edits)
        self.assertIn(said, " ".join(ended.err.split()))

    def test_texts_that_are_refused(self) -> None:
        first, second = "0 env send north.car 1 0\n1 env send south.car 1 0\n", "1 env send south.car -1 0\n"
        self.refused("bad line 1", "The first line is `rte-live 1`.", ("rte-live 1", "rte-trace 2"))
        self.refused("bad line 2", "stands the number of its feed", (f"rte-live 1\n{first}", f"rte-live 1\n{first[2:]}"))
        start = "north_gate:Count start OnCar\n0 env"
        self.refused("bad line 4", "calls of the environment alone", (start, f"0 {start}"))
        # A wish that is left out, made twice, of the other feed, with another value; feeds that are exchanged.
        self.refused("illegal 9 D16", "Feed 1 goes on with line 6 of the stimuli, `1 send south.car -1`.", (second, ""))
        self.refused("illegal 9 D16", "Feed 0 is done. Feed 1 is done.", (second, second * 2))
        exchanged = f"rte-live 1\n0 env send south.car 1 0\n{first[25:]}"
        self.refused("illegal 2 D16", "Feed 0 goes on with line 2 of the stimuli", (f"rte-live 1\n{first}", exchanged))
        # What the bus answers, a start that is not pending, marks that are missing or come too early, a text that is cut.
        full = f"rte-live 1\n{first.replace('car 1 0', 'car 1 130', 1)}"
        self.refused("illegal 2 D8", "The line would be `env send north.car 1 0`.", (f"rte-live 1\n{first}", full))
        self.refused("illegal 2 D13", "What makes it pending has not come", ("rte-live 1\n", "rte-live 1\nboard:Show start OnNorth\n"))
        self.refused("illegal 10 D16", "stands nothing", ("stopped\nrun\n", "run\n"))
        self.refused("illegal 11 D16", "stands nothing", ("stopped\nrun\n", "stopped\n"))
        self.refused("illegal 12 D15", "Something may still step", ("stopped\nrun\n", "stopped\nrun\nidle\n"))

    def test_texts_that_are_cut(self) -> None:
        whole = DRY
        plan, feeds = layout_of(CAR_PARK).plan, feeds_of(text_of(CAR_PARK / "stimuli.txt"))
        lines = whole.splitlines(keepends=True)
        for count in range(len(lines)):
            refusal = checked_live(plan, "".join(lines[:count]), feeds)
            self.assertEqual((refusal.line, refusal.kind), (count + 1, "illegal" if count else "bad"))
            self.assertIsNotNone(checked_live(plan, "".join(lines[:count]) + lines[count][:-1], feeds))
        self.assertIsNotNone(checked_live(plan, whole + "idle\n", feeds))
        self.assertIsNotNone(checked_live(plan, whole + "0 env tick\n", feeds))

    @unittest.skipUnless(program(), "the program is not built")
    def test_the_program(self) -> None:
        for name, stimuli in SERVED.items():
            folder = EXAMPLES / name
            words = [program(), "live", str(folder / "description.json")]
            ended = subprocess.run(words, input=stimuli.encode(), capture_output=True, check=False)
            self.assertEqual(ended.returncode, 0, name)
            self.assertIsNone(checked_live(layout_of(folder).plan, ended.stdout.decode(), feeds_of(stimuli)), name)


class Shown(WithFolder):
    def test_each_feed_has_a_lane(self) -> None:
        stimuli = self.write("stimuli.txt", SERVED["door_control"])
        description = str(EXAMPLES / "door_control" / "description.json")
        text = self.write("text.txt", call_tool("dry_run", "--live", description, stimuli).out)
        drawn = call_tool("timeline", description, text).out
        for lane in ("feed 0", "feed 1", "feed 2", "feed 3"):
            self.assertIn(f">{lane}<", drawn)
        self.assertNotIn(">env<", drawn)
        self.assertIn("the text of a live node", drawn)
        self.assertIn("live: lines 2 to ", drawn)
        for form in ("svg", "btf", "vcd", "perfetto"):
            self.assertEqual(call_tool("timeline", "--to", form, description, text).status, 0, form)

    def test_a_long_text_has_an_overview(self) -> None:
        stimuli = self.write("stimuli.txt", "".join(f"0 tick 3\n1 send north.car {number % 2}\n" for number in range(300)) + "stop\n")
        text = self.write("text.txt", call_tool("dry_run", "--live", DESCRIPTION, stimuli).out)
        drawn = call_tool("timeline", DESCRIPTION, text).out
        self.assertIn("<h2>The whole</h2>", drawn)
        self.assertGreaterEqual(drawn.count(">feed 0<"), 2)
        for words in (("--runs", "1"), ("--lines", "2-40")):
            self.assertEqual(call_tool("timeline", *words, DESCRIPTION, text).status, 0)

    def test_other_tools_read_it(self) -> None:
        self.assertIn("starts", call_tool("summary", DESCRIPTION, TEXT).out)
        self.assertEqual(call_tool("difference", DESCRIPTION, TEXT, TEXT).out, "the traces are the same\n")

    def test_feeds_may_come_in_any_order(self) -> None:
        first = "rte-live 1\n0 env send north.car 1 0\n1 env send south.car 1 0\n"
        other = "rte-live 1\n1 env send south.car 1 0\n0 env send north.car 1 0\n"
        text = self.write("text.txt", edited(DRY, [(first, other)]))
        dry = self.write("dry.txt", DRY)
        self.assertEqual(call_tool("difference", DESCRIPTION, dry, text).out, "only the order of the cores and feeds differs\n")
        text = self.write("text.txt", edited(DRY, [(first, first.replace("1 env", "2 env"))]))
        self.assertIn("first at feed 1", call_tool("difference", DESCRIPTION, dry, text).out)

    def test_explain_runs_the_program(self) -> None:
        stimuli = self.write("stimuli.txt", "0 tick 1\n")
        said = "echo 'script refused line 2 cause 1'"
        stand_in = self.write("stand_in", f"#!/bin/sh\nread first\n{said}\n[ \"$1 $first\" = 'live 0 tick 1' ] && exit 5\n")
        Path(stand_in).chmod(0o755)
        ended = run_tool("explain.py", "--live", "--program", stand_in, DESCRIPTION, stimuli)
        self.assertEqual(ended.returncode, 5)
        self.assertIn(b"No line is `stop`.", ended.stdout)
        self.assertEqual(run_tool("explain.py", "--live", DESCRIPTION).returncode, 2)
        self.assertEqual(run_tool("explain.py", "--live", "--trace", TEXT, DESCRIPTION, stimuli).returncode, 2)


@unittest.skipUnless(shutil.which("sh"), "there is no sh")
class ManyRuns(WithFolder):
    """What the script says of programs that are legal, that hang, and that print something else."""

    def tried(self, program_text: str, *words: str) -> tuple[int, str]:
        stand_in = Path(self.write("stand_in", f"#!/bin/sh\n{program_text}\n"))
        stand_in.chmod(0o755)
        environment = {**os.environ, "RTE": str(stand_in), "TMPDIR": str(self.folder)}
        command = [sys.executable, str(TOOLS / "dev" / "live_runs.py"), "--wishes", "40", "--readers", "1", *words]
        ended = subprocess.run(command, env=environment, capture_output=True, check=False)
        return ended.returncode, ended.stdout.decode()

    def test_legal_texts(self) -> None:
        status, said = self.tried(f'exec "{sys.executable}" "{TOOLS}/dry_run.py" --live "$2" /dev/stdin 2>/dev/null', "--runs", "2")
        self.assertEqual(status, 0, said)
        self.assertIn("2 runs of 40 wishes", said)
        self.assertRegex(said, r"(?m)^    2      1 .*[1-9]")

    def test_a_run_that_hangs(self) -> None:
        status, said = self.tried("exec sleep 60", "--runs", "1", "--seconds", "0.2")
        self.assertEqual(status, 1)
        self.assertIn("run 0, 1 cores: it hangs: it has not ended after 0.2 seconds", said)

    def test_another_text_and_status(self) -> None:
        status, said = self.tried("echo rte-live 1; echo stopped", "--runs", "1")
        self.assertEqual(status, 1)
        self.assertIn("its text is refused: illegal 2 D16", said)
        self.assertIn("it ended with status 7", self.tried("exit 7", "--runs", "1")[1])


if __name__ == "__main__":
    unittest.main()
