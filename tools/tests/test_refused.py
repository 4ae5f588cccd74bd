"""Refused memory, reading, writing and threads: what the tool says of the program, and of programs that lose or break something."""

from __future__ import annotations

import os
import shutil
import subprocess
import unittest

from support import WithFolder, program, run_tool

TOOL = "dev/refused_memory.py"
COMPILER = os.environ.get("CC", "cc")

# It uses memory that it did not get.
CRASHES = r"""
#include <stdlib.h>
#include <unistd.h>
int main(void) { char *held = malloc(4); held[0] = 'a'; return write(1, held, 1) != 1; }
"""

# It says that it is out of memory, behind what no run prints.
SAYS_ANOTHER = r"""
#include <stdlib.h>
#include <unistd.h>
int main(void) { return malloc(4) ? write(1, "ab", 2) != 2 : write(1, "b", 1) != 1 ? 4 : 7; }
"""

# It passes over what was not written.
PASSES_OVER = r"""
#include <unistd.h>
int main(void) { return write(1, "ab", 2) == 0; }
"""


@unittest.skipUnless(shutil.which(COMPILER), "there is no C compiler")
class Refused(WithFolder):
    """The table and the status."""

    def compiled(self, text: str) -> str:
        source, built = self.write("program.c", text), str(self.folder / "program")
        # What the compiler knows of allocations is not to remove them.
        subprocess.run([COMPILER, "-O0", "-fno-builtin", "-o", built, source], check=True)
        return built

    def tried(self, built: str, call: str) -> tuple[int, str]:
        ended = run_tool(TOOL, "--program", built, "--run", "a first path", "--call", call, "--most", "30")
        return ended.returncode, ended.stdout.decode()

    @unittest.skipUnless(program(), "the program is not built")
    def test_the_program_loses_nothing(self) -> None:
        for call, cell in (("allocation", "30 with 7"), ("open", "2 with 3"), ("write", "1 with 4"), ("short_write", "1 with 0")):
            with self.subTest(call):
                status, text = self.tried(program(), call)
                self.assertEqual((status, text.splitlines()[2:]), (0, [f"| a first path | {cell} |"]))

    @unittest.skipUnless(program(), "the program is not built")
    def test_cores_without_a_thread_lose_nothing(self) -> None:
        ended = run_tool(TOOL, "--program", program(), "--run", "two cores at once", "--call", "thread")
        self.assertEqual(ended.returncode, 0)
        self.assertRegex(ended.stdout.decode().splitlines()[2], r"^\| two cores at once \| [1-9]\d* with 0 \|$")

    @unittest.skipUnless(program(), "the program is not built")
    def test_a_live_node_without_a_thread_loses_nothing(self) -> None:
        ended = run_tool(TOOL, "--program", program(), "--run", "a live node", "--call", "thread")
        self.assertEqual(ended.returncode, 0, ended.stdout)
        self.assertRegex(ended.stdout.decode().splitlines()[2], r"^\| a live node \| [1-9]\d* with 0 \|$")

    def test_a_crash_is_found(self) -> None:
        status, text = self.tried(self.compiled(CRASHES), "allocation")
        self.assertEqual(status, 1)
        self.assertIn("a first path, allocation 1: it was stopped, or did not end\n", text)

    def test_another_text_is_found(self) -> None:
        status, text = self.tried(self.compiled(SAYS_ANOTHER), "allocation")
        self.assertEqual(status, 1)
        self.assertIn("a first path, allocation 1: what was printed is no beginning of the text\n", text)

    def test_what_was_not_written_is_found(self) -> None:
        status, text = self.tried(self.compiled(PASSES_OVER), "write")
        self.assertEqual(status, 1)
        self.assertIn("a first path, write 1: the text is another one\n", text)

    def test_a_program_that_is_not_there_is_status_2(self) -> None:
        status, _ = self.tried(str(self.folder / "nothing"), "open")
        self.assertEqual(status, 2)


if __name__ == "__main__":
    unittest.main()
