"""The page of what functions promise, over a crate that is made for the test."""

import unittest

from support import WithFolder

from rte_tools.claim_page import page_of
from rte_tools.contracts import crates_in

SOURCE = """//! Shelves, and what
//! they hold.
#![tactic(auto)]

/// A shelf.
pub trait Shelf {
    /// Fetches.
    ///
    /// And counts.
    fn fetch(&mut self) -> u8
        ensures held { true }
        ensures { true };
}

impl Shelf for MemoryShelf<u8> {
    fn fetch(&mut self) -> u8
        ensures answer { true }
    { 0 }
}

/// Whether it is so.
#[inline]
pub fn check<T>(a: T) -> bool
    ensures { true }
{ true }

/// Of nobody.
fn hidden() -> bool
    ensures { true }
{ true }

/// Promises nothing.
pub fn plain() {}
"""

PAGE = """# What each function promises

## `one_crate`

Shelves, and what
they hold.

- `Shelf::fetch` in `src/lib.rt`: Fetches. And counts. Clause `held`, and 1 without a name.
- `MemoryShelf::fetch` in `src/lib.rt`: Clause `answer`.
- `check` in `src/lib.rt`: Whether it is so. Its one clause.
"""


class Page(WithFolder):
    def test_public_functions_with_their_clauses(self) -> None:
        crate = self.folder / "crates" / "one_crate"
        (crate / "src").mkdir(parents=True)
        (crate / "src" / "lib.rt").write_text(SOURCE, encoding="utf-8")
        self.assertEqual(page_of(list(crates_in(self.folder / "crates").values())), PAGE)


if __name__ == "__main__":
    unittest.main()
