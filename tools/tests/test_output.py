"""What the program does with its output: a file, a device that is full, a pipe that nobody reads, a terminal.

The cores of a node take their turns in any order, so the trace of an example on several cores is compared by what `check` says of it.
"""

from __future__ import annotations

import os
import pty
import subprocess
import unittest
from pathlib import Path

from support import DATA, EXAMPLES, WithFolder, cores_of, program, read_of

FULL = "/dev/full"
CLASHES = DATA / "rows" / "header_clashes" / "description.json"
NOTHING = '{"compositions":[{"shortName":"Top"}],"root":"Top","mapping":{"cores":1}}'
TICKS = 10_000
LONG = b"rte-trace 2\n" + b"env tick\n" * TICKS + b"run\nidle\n"


@unittest.skipUnless(program(), "the program is not built")
class Output(WithFolder):
    """The status says whether all output was written."""

    def words(self, example: Path) -> list[str]:
        return [program(), "run", str(example / "description.json"), str(example / "script.txt")]

    def verdict(self, example: Path, trace: bytes) -> bytes:
        description, script = self.words(example)[2:]
        words = [program(), "check", description, self.write("trace.txt", trace), script]
        return subprocess.run(words, capture_output=True, check=False).stdout

    def test_a_file_has_all_of_it(self) -> None:
        for example in EXAMPLES:
            with self.subTest(example.name):
                ended = subprocess.run(self.words(example), capture_output=True, check=False)
                self.assertEqual(ended.returncode, 0)
                if cores_of(example) == 1:
                    self.assertEqual(ended.stdout, (example / "expected.txt").read_bytes())
                else:
                    self.assertEqual(self.verdict(example, ended.stdout), b"legal\n")

    @unittest.skipUnless(os.path.exists(FULL), "there is no device that is always full")
    def test_a_full_device_is_status_4(self) -> None:
        with open(FULL, "wb") as full:
            ended = subprocess.run(self.words(EXAMPLES[0]), stdout=full, check=False)
        self.assertEqual(ended.returncode, 4)

    @unittest.skipUnless(os.path.exists(FULL), "there is no device that is always full")
    def test_a_refusal_that_is_not_written_is_status_4(self) -> None:
        with open(FULL, "wb") as full:
            ended = subprocess.run([program(), "walk"], stdout=full, check=False)
        self.assertEqual(ended.returncode, 4)

    def test_a_pipe_that_nobody_reads_is_status_4(self) -> None:
        reading, writing = os.pipe()
        os.close(reading)
        ended = subprocess.run(self.words(EXAMPLES[0]), stdout=writing, check=False)
        os.close(writing)
        self.assertEqual(ended.returncode, 4)

    def long_words(self) -> list[str]:
        """The words of a run that tells more than is gathered at once, which is 64 KiB."""
        description = self.write("description.json", NOTHING)
        return [program(), "run", description, self.write("script.txt", f"tick {TICKS}\nrun\n")]

    def test_a_long_trace_is_whole(self) -> None:
        ended = subprocess.run(self.long_words(), capture_output=True, check=False)
        self.assertEqual((ended.returncode, ended.stdout), (0, LONG))

    @unittest.skipUnless(os.path.exists(FULL), "there is no device that is always full")
    def test_a_long_trace_on_a_full_device_is_status_4(self) -> None:
        with open(FULL, "wb") as full:
            ended = subprocess.run(self.long_words(), stdout=full, check=False)
        self.assertEqual(ended.returncode, 4)

    def test_a_pipe_that_closes_has_the_beginning(self) -> None:
        child = subprocess.Popen(self.long_words(), stdout=subprocess.PIPE)
        first = child.stdout.read(20)
        child.stdout.close()
        self.assertEqual((child.wait(), first), (4, LONG[:20]))

    def test_each_refusal_has_its_status(self) -> None:
        whole = self.write("whole.json", NOTHING)
        broken = self.write("broken.json", "{")
        crowded = self.write("crowded.json", NOTHING.replace('"cores":1', '"cores":8'))
        script = self.write("script.txt", "tick 1\nrun\n")
        wrong = self.write("wrong.txt", "walk\n")
        trace = self.write("trace.txt", "rte-trace 2\nenv tick\nrun\nidle\n")
        early = self.write("early.txt", "rte-trace 2\nidle\n")
        absent = str(self.folder / "absent")
        cases = [
            (["check", whole, trace, script], 0, b"legal\n"),
            (["run", broken, script], 1, b"refused rule 1 at /\n"),
            ([], 2, b"words refused\n"),
            (["run", whole], 2, b"words refused\n"),
            # Words that are no text are no command.
            ([b"run", b"\xff", script], 2, b"words refused\n"),
            (["run", absent, script], 3, b"not read 1\n"),
            (["run", whole, absent], 3, b"not read 2\n"),
            (["check", whole, trace, absent], 3, b"not read 3\n"),
            (["run", whole, wrong], 5, b"script refused line 1 cause 1\n"),
            (["check", whole, script, script], 6, b"bad line 1\n"),
            (["check", whole, early, script], 6, b"illegal 2 D15\n"),
            (["header", whole, "Absent"], 8, b"no component\n"),
            (["header", whole, ""], 8, b"no component\n"),
            (["header", str(CLASHES), "Ports"], 9, b"clash Rte_Write_a_b_c\n"),
            (["pair", whole, whole, script], 10, b"no link\n"),
            (["pair", whole, broken, script], 1, b"refused rule 1 at / of 2\n"),
            (["pair", whole, whole, absent], 3, b"not read 3\n"),
            (["live", absent], 3, b"not read 1\n"),
            (["live", broken], 1, b"refused rule 1 at /\n"),
            (["live", crowded], 11, b"too many cores\n"),
            (["live", whole], 5, b"script refused line 1 cause 1\n"),
            (["live", whole, script], 2, b"words refused\n"),
        ]
        for words, status, told in cases:
            with self.subTest(words=words):
                ended = subprocess.run([program(), *words], stdin=subprocess.DEVNULL, capture_output=True, check=False)
                self.assertEqual((ended.returncode, ended.stdout), (status, told))

    def test_stimuli_come_by_a_pipe(self) -> None:
        words = [program(), "live", self.write("whole.json", NOTHING)]
        ended = subprocess.run(words, input=b"0 tick 2\nstop\n", capture_output=True, check=False)
        wanted = b"rte-live 1\n0 env tick\n0 env tick\nstopped\nrun\nidle\n"
        self.assertEqual((ended.returncode, ended.stdout), (0, wanted))

    def test_a_terminal_has_all_of_it(self) -> None:
        ours, theirs = pty.openpty()
        child = subprocess.Popen(self.words(EXAMPLES[0]), stdout=theirs)
        os.close(theirs)
        shown = b""
        while piece := read_of(ours):
            shown += piece
        os.close(ours)
        self.assertEqual(child.wait(), 0)
        self.assertEqual(shown.replace(b"\r\n", b"\n"), (EXAMPLES[0] / "expected.txt").read_bytes())


if __name__ == "__main__":
    unittest.main()
