"""What bench/shared_programs.py measures: its descriptions, and its table."""

from __future__ import annotations

import json
import os
import shutil
import sys
import unittest

from support import TOP, WithFolder, run

sys.path.insert(0, str(TOP / "bench"))

from shared_programs import CASES, described  # noqa: E402
from rte_tools.judging import judge  # noqa: E402

SCRIPT = str(TOP / "bench" / "shared_programs.py")
SAYS_LEGAL = "#!/bin/sh\necho legal\n"
HAS_NO_MEMORY = '#!/bin/sh\n[ "$1" = plan ] || exit 7\n'


class Descriptions(unittest.TestCase):
    def test_sizes(self) -> None:
        self.assertEqual([len(described(*held)) for held in CASES.values()], [132_778, 930_778, 1_141_515])

    def test_a_small_one_breaks_no_rule(self) -> None:
        self.assertIsNone(judge(json.loads(described(3, 5))))

    def test_the_program_of_one_mebibyte(self) -> None:
        sets, _ = CASES["1 MiB"]
        self.assertGreater(len(json.dumps([["set", "x", 1]] * sets, separators=(",", ":"))), 1024 * 1024)


@unittest.skipUnless(shutil.which("time"), "there is no GNU time")
class Table(WithFolder):
    def program(self, name: str, text: str) -> str:
        path = self.write(name, text)
        os.chmod(path, 0o755)
        return path

    def test_a_row_for_each_command(self) -> None:
        program = self.program("program", SAYS_LEGAL)
        ended = run([sys.executable, SCRIPT, "--program", program, "--beside", program, "--times", "1", "133 kB"])
        rows = ended.stdout.decode().splitlines()
        self.assertEqual((ended.returncode, len(rows)), (0, 5))
        for row, command in zip(rows[2:], ("plan", "run", "check")):
            self.assertRegex(row, rf"^\| 133 kB \| `{command}` \| 0\.\d\d s, \d+\.\d MiB \| 0\.\d\d s, \d+\.\d MiB \| \d+\.\d \|$")

    def test_a_run_without_memory(self) -> None:
        ended = run([sys.executable, SCRIPT, "--program", self.program("program", HAS_NO_MEMORY), "--times", "1", "133 kB"])
        rows = ended.stdout.decode().splitlines()
        self.assertEqual(ended.returncode, 1)
        self.assertIn("MiB, status 7 |", rows[3])
        self.assertEqual(rows[4], "| 133 kB | `check` | no trace |")

    def test_no_program_is_status_2(self) -> None:
        self.assertEqual(run([sys.executable, SCRIPT, "--program", "/nothing"]).returncode, 2)


if __name__ == "__main__":
    unittest.main()
