"""What the launcher says after the program: how to see where a refusal is, which file was not read, that output failed.

The program is a stand-in that prints a line and ends with a status.
"""

from __future__ import annotations

import os
import pty
import shutil
import subprocess
import unittest
from pathlib import Path

from support import TOP, WithFolder, read_of

STAND_IN = "#!/bin/sh\nprintf '%s\\n' \"$SAYS\"\nexit \"$STATUS\"\n"
READABLE = '{"root":"Top"}'


class Launcher(WithFolder):
    def setUp(self) -> None:
        super().setUp()
        self.program = self.folder / "crates" / "rte" / "out" / "rte"
        self.program.parent.mkdir(parents=True)
        self.launcher = Path(shutil.copy(TOP / "rte", self.folder))
        (self.folder / "crates.txt").write_text("rte:\n")
        self.program.write_text(STAND_IN)
        self.program.chmod(0o755)
        self.description = self.write("d.json", READABLE)
        self.script = self.write("s.txt", "run\n")

    def run_words(self, says: str, status: int, *words: str, terminal: bool = False) -> str:
        """What the launcher says after a program that says so; at a terminal with what the program printed."""
        environment = {**os.environ, "SAYS": says, "STATUS": str(status), "RTE": str(self.program)}
        command = [str(self.launcher), *words]
        if not terminal:
            ended = subprocess.run(command, env=environment, capture_output=True, check=False)
            self.assertEqual((ended.stdout, ended.returncode), (f"{says}\n".encode(), status), ended.stderr)
            return ended.stderr.decode()
        ours, theirs = pty.openpty()
        child = subprocess.Popen(command, env=environment, stdout=theirs, stderr=theirs)
        os.close(theirs)
        shown = b""
        while piece := read_of(ours):
            shown += piece
        os.close(ours)
        self.assertEqual(child.wait(), status)
        return shown.decode()

    def test_a_refusal_at_a_terminal(self) -> None:
        tool = f"{self.folder}/tools/explain.py"
        d, s = self.description, self.script
        for words, status, wanted in (
            (("run", d, s), 1, f"{tool} {d} {s}"),
            (("run", d, s), 5, f"{tool} {d} {s}"),
            (("plan", d), 1, f"{tool} {d}"),
            (("check", d, "t t.txt", s), 6, f"{tool} --trace t\\ t.txt {d} {s}"),
            (("check", d, "t.txt", s), 5, f"{tool} --trace t.txt {d} {s}"),
            (("live", d), 1, f"{tool} {d}"),
            (("live", d), 5, f"{tool} --live {d} STIMULI"),
            (("live", d), 11, f"{tool} --live {d} STIMULI"),
        ):
            with self.subTest(words):
                self.assertIn(f"how to mend it: {wanted}", self.run_words("refused", status, *words, terminal=True))
                self.assertEqual(self.run_words("refused", status, *words), "")

    def test_what_is_not_refused(self) -> None:
        self.assertEqual(self.run_words("legal", 0, "plan", self.description, terminal=True), "legal\r\n")

    def test_a_file_that_is_not_read(self) -> None:
        long = self.write("long.txt", b" " * 8_388_609)
        none = str(self.folder / "none")
        for path, why in (
            (none, "there is no such file"),
            (str(self.folder), "this is a folder"),
            (long, "it has more than 8,388,608 bytes"),
        ):
            with self.subTest(why):
                said = self.run_words("not read 2", 3, "run", self.description, path)
                self.assertEqual(said, f"rte: cannot read {path}: {why}.\n")
        said = self.run_words("not read 1", 3, "check", none, long, self.script)
        self.assertEqual(said, f"rte: cannot read {none}: there is no such file.\n")
        said = self.run_words("not read 2", 3, "live", self.description)
        self.assertIn("cannot read the stimuli: standard input", said)

    @unittest.skipIf(os.geteuid() == 0, "root may read everything")
    def test_a_file_that_may_not_be_read(self) -> None:
        closed = Path(self.write("closed.json", READABLE))
        closed.chmod(0)
        said = self.run_words("not read 1", 3, "plan", str(closed))
        self.assertIn("it may not be read by this user", said)

    def test_words_that_are_refused(self) -> None:
        for words in ((), ("walk",), ("run", self.description), ("soak", "0"), ("soak", "65"), ("live",), ("live", "d", "s")):
            said = self.run_words("words refused", 2, *words)
            self.assertIn("usage: ./rte run DESCRIPTION SCRIPT", said)
            self.assertIn("./rte soak N                    runs N pairs of its own making, 1 to 64", said)

    def test_output_that_failed(self) -> None:
        said = self.run_words("cut", 4, "plan", self.description)
        self.assertEqual(said, "rte: the output could not be written to its end.\n")


if __name__ == "__main__":
    unittest.main()
