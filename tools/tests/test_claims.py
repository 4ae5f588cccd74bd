"""What documents say is proved, over a crate that is made for the test."""

import unittest

from support import WithFolder

from rte_tools.claims import Document
from rte_tools.contracts import crates_in

SOURCE = """
/// A shelf.
pub trait Shelf {
    fn fetch(&mut self) -> u8
        ensures held { true }
        ensures counted { true };
}

impl Shelf for MemoryShelf<u8> {
    fn fetch(&mut self) -> u8
        ensures answer { true }
    { 0 }
}

// fn not_there() ensures never { true }
pub fn check<T>(a: T) -> bool
    ensures { true }
{ true }

pub struct Plain { a: u8 }
"""

GOOD = """
`one_crate`: some words.

| Claim | Function | Clauses |
|---|---|---|
| a | `Shelf::fetch` in `src/lib.rt` | `held`, `counted` (`IsHeld`) |
| b | `MemoryShelf::fetch` | `answer` |
| c | `check` in `one_crate/src/lib.rt` | its one clause |
| d | `Plain` | the traits' clauses |

Clause `held` of `Shelf::fetch` says so, and so does `check` of `one_crate`. Your own `mine/a.json` is yours.
"""

# A row or sentence in the place of the good ones, and what is said of it.
WRONG = {
    "| a | `Shelf::fetsh` | `held` |": "there is no function `Shelf::fetsh`",
    "| a | `Shelf::fetch` | `hold` |": "there is no clause `hold` in `fetch`",
    "| a | `MemoryShelf::fetch` | `held` |": "there is no clause `held` in `fetch`",
    "| a | `not_there` | one each |": "there is no function `not_there`",
    "| a | `Shelf::fetch` | one each |": "`fetch` has 2 clauses, and the row says one",
    "| a | `check` in `src/other.rt` | its one clause |": "there is no file `src/other.rt`",
    "| a | `check` | its one clause (`IsGone`) |": "there is no definition `IsGone`",
    "| a | `Hidden` | |": "there is no function `Hidden`",
}


class Claims(WithFolder):
    def setUp(self) -> None:
        super().setUp()
        crate = self.folder / "crates" / "one_crate"
        (crate / "src").mkdir(parents=True)
        (crate / "specs").mkdir()
        (crate / "src" / "lib.rt").write_text(SOURCE, encoding="utf-8")
        (crate / "specs" / "Held.antt").write_text("abbrev pub IsHeld : Type 0\nIsHeld = ℕ\n", encoding="utf-8")

    def findings(self, text: str) -> list[str]:
        return [message for _, message in Document(self.folder, crates_in(self.folder / "crates"), text).check()]

    def test_what_exists(self) -> None:
        self.assertEqual(self.findings(GOOD), [])

    def test_what_does_not(self) -> None:
        head = "## `one_crate`\n\n| Claim | Function | Clauses |\n|---|---|---|\n"
        for row, said in WRONG.items():
            self.assertIn(said, " ".join(self.findings(head + row + "\n")), row)

    def test_tables_by_crate_and_by_heading(self) -> None:
        by_crate = "| Crate | Function | Clause |\n|---|---|---|\n| `one_crate` | `check` | `x` |\n"
        self.assertEqual(self.findings(by_crate), ["there is no clause `x` in `check`"])
        by_heading = "### Of `Shelf::fetch`\n\n| Clause | What |\n|---|---|\n| `held` | a |\n| `y` | b |\n"
        self.assertEqual(self.findings(by_heading), ["there is no clause `y` in `fetch`"])

    def test_sentences(self) -> None:
        self.assertEqual(len(self.findings("Clause `z` of `check` says it.")), 1)
        self.assertEqual(len(self.findings("That `chek` of `one_crate` answers.")), 1)
        self.assertEqual(len(self.findings("See `crates/one_crate/src/gone.rt`.")), 1)
        self.assertEqual(
            self.findings("`gone_crate`: words.\n\n| Function | Clauses |\n|---|---|\n"),
            ["there is no crate `gone_crate`"],
        )


if __name__ == "__main__":
    unittest.main()
