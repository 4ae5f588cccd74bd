"""Verdicts that are found apart from the program: each case of the corpus has its own."""

from __future__ import annotations

import unittest

from calling import call_tool
from support import DATA, WithFolder, text_of

from rte_tools.cases import all_cases

ONE_WRITER = DATA / "examples" / "one_writer"


class Verdicts(WithFolder):
    def test_the_corpus(self) -> None:
        for case in all_cases():
            with self.subTest(case.name):
                ended = call_tool("dry_check", str(case.description), str(case.trace), str(case.script))
                self.assertEqual((ended.out, ended.status), (f"{case.verdict}\n", case.status))
                self.assertEqual(ended.err == "", case.status == 0)

    def test_what_is_not_read(self) -> None:
        description, trace, script = (str(ONE_WRITER / name) for name in ("description.json", "expected.txt", "script.txt"))
        nothing = str(self.folder / "none")
        for words, number in (([nothing, trace, script], 1), ([description, nothing, script], 2), ([description, trace, nothing], 3)):
            ended = call_tool("dry_check", *words)
            self.assertEqual((ended.out, ended.status), (f"not read {number}\n", 3))
            self.assertIn("there is no such file", ended.err)

    def test_what_is_said(self) -> None:
        text = text_of(ONE_WRITER / "expected.txt").replace("write o.v 7 0", "write o.v 8 0")
        paths = [str(ONE_WRITER / "description.json"), self.write("trace.txt", text), str(ONE_WRITER / "script.txt")]
        ended = call_tool("dry_check", *paths)
        self.assertEqual((ended.out, ended.status), ("illegal 14 D6\n", 6))
        self.assertIn("The line would be `w:Step write o.v 7 0`.", ended.err)


if __name__ == "__main__":
    unittest.main()
