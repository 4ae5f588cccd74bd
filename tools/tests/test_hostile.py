"""Files that are hard for the program: what bench/hostile.py says of the program, and of one that takes too long."""

from __future__ import annotations

import os
import sys
import unittest

from support import TOP, WithFolder, program, run

HOSTILE = str(TOP / "bench" / "hostile.py")
SLOW = "#!/bin/sh\nexec {python} -c 'import time\nwhile time.process_time() < 0.3: pass'\n"

# It takes 60 seconds for 8 MiB, a quarter of that for 4, and so on.
SQUARE = """#!/bin/sh
exec {python} -c 'import os, sys, time
while time.process_time() < 60 * (os.path.getsize(sys.argv[3]) / 8388608) ** 2: pass' "$@"
"""


def tried(*words: str) -> tuple[int, list[str]]:
    ended = run([sys.executable, HOSTILE, *words])
    return ended.returncode, ended.stdout.decode().splitlines()


class Hostile(WithFolder):
    """The lines and the status."""

    def slow(self, text: str = SLOW) -> str:
        path = self.write("slow", text.format(python=sys.executable))
        os.chmod(path, 0o755)
        return path

    @unittest.skipUnless(program(), "the program is not built")
    def test_the_program_takes_what_it_may(self) -> None:
        status, lines = tried("--program", program(), "--mebibytes", "0.0625", "names", "one_value", "empty_lines")
        self.assertEqual((status, len(lines)), (0, 5))
        self.assertIn("status 6: bad line 1", lines[3])
        self.assertEqual(lines[4], "3 cases, 0 not as they should be")

    @unittest.skipUnless(program(), "the program is not built")
    def test_traces_of_eight_mebibytes_are_refused_at_once(self) -> None:
        answers = {"one_line": "bad line 1", "one_entry": "bad line 2", "empty_lines": "bad line 1", "empty_lines_behind": "bad line 2"}
        status, lines = tried("--program", program(), *answers)
        self.assertEqual((status, len(lines)), (0, 6))
        for line, (case, answer) in zip(lines[1:], answers.items()):
            self.assertRegex(line, rf"^{case} +8\.00 MiB .* status 6: {answer}$")

    def test_the_machine_is_named(self) -> None:
        _, lines = tried("--program", self.slow(), "--mebibytes", "0.0625", "empty_lines")
        self.assertRegex(lines[0], r"^\d+ processors \(.+\), \d+ GiB of memory, load ")

    def test_what_takes_too_long_is_told(self) -> None:
        status, lines = tried("--program", self.slow(), "--mebibytes", "0.0625", "empty_lines")
        self.assertEqual(status, 1)
        self.assertIn("TOO MUCH", lines[1])
        self.assertEqual(lines[-1], "1 cases, 1 not as they should be: empty_lines")

    def test_a_quadratic_walk_is_seen_in_small_files(self) -> None:
        status, lines = tried("--program", self.slow(SQUARE), "--mebibytes", "0.25", "empty_lines")
        self.assertEqual(status, 1)
        # The last file that is tried: the second one, or on a busy machine perhaps the first.
        self.assertIn("TOO MUCH", lines[-2])

    def test_what_is_known_is_said(self) -> None:
        status, lines = tried("--program", self.slow(), "--mebibytes", "0.0625", "objects")
        self.assertEqual(status, 0)
        self.assertIn("  known to take too much with 8 MiB: ", lines[1])

    def test_what_is_known_fails_with_eight_mebibytes(self) -> None:
        for text, remark in (("#!/bin/sh\nexit 7\n", "  TOO MUCH, as is known: "), ("#!/bin/sh\n", "  NO LONGER TO BE CALLED KNOWN")):
            with self.subTest(text):
                status, lines = tried("--program", self.slow(text), "objects")
                self.assertEqual(status, 1)
                self.assertIn(remark, lines[1])
                self.assertEqual(lines[-1], "1 cases, 1 not as they should be: objects")

    def test_no_program_no_case_and_no_size_are_status_2(self) -> None:
        for words in (["--program", str(self.folder / "nothing")], ["nothing"], ["--mebibytes", "9"], ["--mebibytes", "0"]):
            with self.subTest(words):
                self.assertEqual(tried(*words)[0], 2)


if __name__ == "__main__":
    unittest.main()
