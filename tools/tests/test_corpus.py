"""The corpus: each case has its files, and no trace is left over or there twice."""

from __future__ import annotations

import unittest

from support import DATA, EXAMPLES, run_tool

from rte_tools.cases import CORPUS, all_cases


class Corpus(unittest.TestCase):
    def test_each_case_has_its_files(self) -> None:
        for case in all_cases():
            with self.subTest(case.name):
                for path in (case.description, case.trace, case.script):
                    self.assertTrue(path.is_file(), path)
                self.assertIn(case.status, (0, 1, 5, 6))

    def test_each_trace_is_one_case(self) -> None:
        written = sorted(path.name for path in CORPUS.glob("*.txt"))
        named = sorted(case.trace.name for case in all_cases() if case.trace.parent == CORPUS.resolve())
        self.assertEqual(written, named)

    def test_no_trace_stands_twice(self) -> None:
        seen: dict[bytes, str] = {}
        for path in [*sorted(DATA.glob("*/*/expected.txt")), *sorted(CORPUS.glob("*.txt"))]:
            text = path.read_bytes()
            if path.parent == CORPUS:
                self.assertFalse(text in seen, f"{path.name} has the bytes of {seen.get(text)}")
            seen[text] = path.name

    def test_each_example_is_changed_in_three_ways(self) -> None:
        names = {case.name for case in all_cases()}
        for example in EXAMPLES:
            for way in ("exchanged", "left_out", "doubled"):
                self.assertIn(f"{example.name}_{way}", names)

    def test_a_tool_that_says_nothing_differs(self) -> None:
        tried = run_tool("corpus.py", "true")
        self.assertEqual(tried.returncode, 1)
        self.assertIn(b"empty: ``, status 0, in place of `illegal 1 D16`, status 6", tried.stdout)


if __name__ == "__main__":
    unittest.main()
