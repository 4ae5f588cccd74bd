"""Runs without the program: the trace of each example, and what is said of what is refused."""

from __future__ import annotations

import os
import subprocess
import sys
import unittest

from calling import call_tool
from support import DATA, EXAMPLES, TOOLS, WithFolder, edited, program, run, run_tool, text_of

from rte_tools.refusal import read_refusal

TWO_CORES = DATA / "examples" / "two_cores"
DESCRIPTION, SCRIPT = str(TWO_CORES / "description.json"), str(TWO_CORES / "script.txt")
SAID = "dry_run.py: not proved, one order of the cores\n"


class DryRuns(WithFolder):
    def test_the_examples(self) -> None:
        for folder in EXAMPLES:
            with self.subTest(folder.name):
                ended = call_tool("dry_run", str(folder / "description.json"), str(folder / "script.txt"))
                self.assertEqual((ended.status, ended.err), (0, SAID))
                self.assertEqual(ended.out, text_of(folder / "expected.txt"))

    def refused(self, description: str, script: str, says: str, *holds: str) -> None:
        """The line and the status are the program's, and what is told of it holds these parts."""
        ended = call_tool("dry_run", description, script)
        self.assertEqual((ended.status, ended.out), (read_refusal(says).status, f"{says}\n"), ended.err)
        for part in holds:
            self.assertIn(part, ended.err)

    def changed(self, *edits: tuple[str, str]) -> str:
        return self.write("description.json", edited(text_of(TWO_CORES / "description.json"), list(edits)))

    def test_what_is_no_description(self) -> None:
        self.refused(self.write("bad", "{,}"), SCRIPT, "refused rule 1 at /", "rule 1: The bytes are JSON", "Mend: ")
        self.refused(self.write("bad", "{}"), SCRIPT, "refused rule 2 at /", "Each value has its shape", "The key `root` is missing.")
        self.refused(self.changed(('"root":"', '"root":"1')), SCRIPT, "refused rule 3 at /root", "Each name has the form of a name")
        place = "/compositions/0/connectors/0/provider/0"
        path = self.changed(('"provider":["pump",', '"provider":["pmup",'))
        self.refused(path, SCRIPT, f"refused rule 5 at {place}", "the nearest one is `pump`")

    def test_what_is_no_script(self) -> None:
        self.refused(DESCRIPTION, self.write("script", "run\ntick 0\n"), "script refused line 2 cause 1", "script:2:6: cause 1", "Mend: ")
        self.refused(DESCRIPTION, self.write("script", "read no.level\n"), "script refused line 1 cause 2", "script:1:6: cause 2", "There is no `no.level`")

    def test_what_is_not_read(self) -> None:
        self.refused(str(self.folder), SCRIPT, "not read 1", "this is a folder")
        self.refused(DESCRIPTION, str(self.folder / "none"), "not read 2", "there is no such file")

    def test_output(self) -> None:
        words = [sys.executable, str(TOOLS / "dry_run.py"), DESCRIPTION, SCRIPT]
        reading, writing = os.pipe()
        os.close(reading)
        ended = subprocess.run(words, stdout=writing, stderr=subprocess.PIPE, check=False)
        os.close(writing)
        self.assertEqual((ended.returncode, ended.stderr.decode()), (4, SAID))

    @unittest.skipUnless(program(), "the program is not built")
    def test_the_program_calls_it_legal(self) -> None:
        for folder in (TWO_CORES, DATA / "rows" / "mode_switch_on_three_cores"):
            description, script = str(folder / "description.json"), str(folder / "script.txt")
            trace = self.write("trace.txt", run_tool("dry_run.py", description, script).stdout)
            self.assertEqual(run([program(), "check", description, trace, script]).stdout, b"legal\n", folder.name)


if __name__ == "__main__":
    unittest.main()
