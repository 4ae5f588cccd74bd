"""What a user calls by its name is executable, and says with `--help` what it takes."""

from __future__ import annotations

import os
import subprocess
import unittest
from pathlib import Path

from support import TOP

FOLDERS = (".ci", "bench", "schema", "tools", "tools/dev")
TOOLS = [path for folder in ("tools", "tools/dev") for path in sorted((TOP / folder).iterdir()) if path.suffix in (".py", ".sh")]


def begins_as_a_program(path: Path) -> bool:
    with path.open("rb") as file:
        return file.read(2) == b"#!"


class Modes(unittest.TestCase):
    def test_what_begins_as_a_program_is_executable(self) -> None:
        found = [path for folder in FOLDERS for path in sorted((TOP / folder).iterdir()) if path.is_file()]
        programs = [path for path in [TOP / "rte", *found] if path.suffix != ".txt" and begins_as_a_program(path)]
        self.assertGreater(len(programs), len(TOOLS))
        for path in programs:
            self.assertTrue(os.access(path, os.X_OK), f"{path.relative_to(TOP)} is not executable: chmod +x")

    def test_each_tool_has_help(self) -> None:
        for path in TOOLS:
            with self.subTest(path.name):
                self.assertTrue(begins_as_a_program(path))
                ended = subprocess.run([path, "--help"], capture_output=True, check=False)
                self.assertEqual((ended.returncode, ended.stderr), (0, b""))
                self.assertRegex(ended.stdout.decode().lower(), "status")


if __name__ == "__main__":
    unittest.main()
