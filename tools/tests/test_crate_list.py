"""The list of crates, the tables that documents have of it, and where words stand in crates: over a tree that is made for the test."""

import subprocess
import unittest

from support import TOP, WithFolder

from rte_tools.crate_list import BEGIN, COSTS, END, HOMES, LIST, fresh, misfits

CRATES = "one: std\ntwo: one\n"
RECORDS = """# The crates.
[one]
layer: Ground
what: files: each by its name
claim: a file is what it is
function: `File::read`
clause: `held`

[two]
layer: Above
what: more
"""
SECONDS = "crate,lines,proof,tests,edits\none,1000,20,,5\ntwo,500,,7,\nthree,10,1,,\n"
LAYERS = """### Ground

| Crate | What it is |
|---|---|
| `one` | files: each by its name |

### Above

| Crate | What it is |
|---|---|
| `two` | more |"""
CLAIMS = """| Crate | Claim | Function | Clause |
|---|---|---|---|
| `one` | a file is what it is | `File::read` | `held` |"""
COST_ROWS = """| `one` | 1,000 | 20 | | 5 | 25 | `three` | 10 | 1 | | | 100 |
| `two` | 500 | | 7 | | 14 | | | | | | |"""


class CrateList(WithFolder):
    def setUp(self) -> None:
        super().setUp()
        (self.folder / "docs").mkdir()
        self.write("crates.txt", CRATES)
        self.write(LIST, RECORDS)
        self.write(COSTS, SECONDS)
        for name, home in HOMES.items():
            self.write(home, f"before\n\n{BEGIN.format(name)}\nold\n{END}\n\nbehind\n")

    def made(self, name: str) -> str:
        return fresh(self.folder)[self.folder / HOMES[name]]

    def test_tables_stand_between_their_marks(self) -> None:
        self.assertEqual(self.made("layers"), f"before\n\n{BEGIN.format('layers')}\n\n{LAYERS}\n\n{END}\n\nbehind\n")
        self.assertIn(CLAIMS, self.made("claims"))
        self.assertIn(COST_ROWS, self.made("costs"))

    def test_what_is_written_is_fresh(self) -> None:
        for path, text in fresh(self.folder).items():
            path.write_text(text, encoding="utf-8")
        for path, text in fresh(self.folder).items():
            self.assertEqual(path.read_text(encoding="utf-8"), text)

    def test_a_document_without_a_place_is_told(self) -> None:
        self.write(HOMES["claims"], "no marks\n")
        with self.assertRaisesRegex(ValueError, "no place for the table `claims`"):
            fresh(self.folder)

    def test_the_list_has_each_crate(self) -> None:
        self.assertEqual(misfits(self.folder), [])
        self.write("crates.txt", "one: std\nthree: one\n")
        self.assertEqual(misfits(self.folder), [f"{LIST} lacks `three`", f"{LIST} has `two`, which crates.txt has not"])

    def test_where_words_stand(self) -> None:
        said = subprocess.run([TOP / "tools/dev/where.py", "--crates", "IsSound"], capture_output=True, text=True)
        self.assertEqual(said.returncode, 0, said.stderr)
        self.assertRegex(said.stdout, r"(?m)^ +\d+ bus_semantics$")
        self.assertRegex(said.stdout.splitlines()[-1], r"^\d+ files of \d+ crates, ")


if __name__ == "__main__":
    unittest.main()
