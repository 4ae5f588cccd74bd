"""The counts of the house, over crates that are made for the test."""

import unittest

from support import WithFolder

from rte_tools.house import Count, counts, functions, kept_figures, worse

LONG = "    " + "x();\n    " * 41
SOURCE = f"""//! One crate.
ghost use Rattle.one.specs.Terms.{{term, {", ".join(f"word_{n}" for n in range(30))}}};

/// Long.
pub fn long(a: u8) -> u8
    ensures {{ result ≡ term }}
{{
{LONG}
}}

impl Thing {{
    /// Of seven.
    pub fn crowded(
        &mut self,
        a: Map<u8, u8>,
        b: &[(u8, u8)],
        c: impl Fn(u8, u8) -> u8,
        d: u8,
        e: u8,
        f: u8,
    ) -> u8
        requires so {{ a.now ≡ {"b.now ∙ " * 20} }}
    {{
        0
    }}

    pub fn plain(&self) -> bool {{
        true
    }}
}}

pub trait Other {{
    fn told(&self) -> u8
        ensures {{ true }};
}}
"""
TERMS = "-- A term.\nterm : ℕ\nterm = 1\n"
LEMMAS = """use Rattle.one.specs.Terms.{term}

-- cited by the answers below
kept : (n : ℕ) → n ≡ n
kept n = refl

-- cited by `lost` alone
below : (m : ℕ) → m + 0 ≡ m
below m = zero m

-- named nowhere
lost : (n : ℕ) → n ≡ n
lost n = below n

-- a kind of things, as others are
abbrev Like : ℕ → Type 0
Like n = n ≡ n
"""
ANSWERS = "use Rattle.one.proofs.Lemmas.{kept}\n\ngoal = kept 1\n"
AGAIN = "again : (k : ℕ) → k + 0 ≡ k\nagain k = zero k\n\nabbrev Kind : ℕ → Type 0\nKind n = n ≡ n\n"


class House(WithFolder):
    def setUp(self) -> None:
        super().setUp()
        for crate, files in {
            "one": {"src/lib.rt": SOURCE, "specs/Terms.antt": TERMS, "proofs/Lemmas.antt": LEMMAS, "proofs/long/Answers.antt": ANSWERS},
            "two": {"src/lib.rt": "//! Two.\n", "proofs/Again.antt": AGAIN},
        }.items():
            for name, text in files.items():
                path = self.folder / "crates" / crate / name
                path.parent.mkdir(parents=True, exist_ok=True)
                path.write_text(text, encoding="utf-8")
        self.write("crates.txt", "one: std\ntwo: one\n")
        self.found = counts(self.folder)

    def places(self, name: str) -> list[str]:
        return self.found[name].places

    def test_sizes(self) -> None:
        lines = sum(len(text.splitlines()) for text in (SOURCE, TERMS, LEMMAS, ANSWERS, AGAIN)) + 1
        self.assertEqual([self.found[name].number for name in ("crates", "files", "lines")], [2, 6, lines])

    def test_functions(self) -> None:
        named = {it.name: (it.parameters, it.length) for it in functions(SOURCE.splitlines())}
        self.assertEqual(named, {"long": (1, 42), "crowded": (7, 1), "plain": (1, 1), "told": (1, 0)})
        self.assertEqual(self.places("functions over 40 lines"), ["crates/one/src/lib.rt:5 long 42"])
        self.assertEqual([place.split()[1:] for place in self.places("functions of more than 6 parameters")], [["crowded", "7"]])

    def test_long_lines(self) -> None:
        self.assertEqual(self.places("imports over 200 columns"), ["crates/one/src/lib.rt:2"])
        self.assertEqual(self.found["clauses over 140 columns"].number, 1)

    def test_lemmas(self) -> None:
        self.assertEqual(self.places("statements in several crates"), ["crates/one/proofs/Lemmas.antt below; crates/two/proofs/Again.antt again"])
        named_nowhere = ["crates/one/proofs/Lemmas.antt:12 lost", "crates/one/proofs/Lemmas.antt:16 Like"]
        others = ["crates/two/proofs/Again.antt:1 again", "crates/two/proofs/Again.antt:4 Kind"]
        self.assertEqual(self.places("lemmas that no file names"), named_nowhere + others)
        self.assertEqual(self.places("lemmas that nothing reaches"), ["crates/one/proofs/Lemmas.antt:8 below", *named_nowhere, *others])
        self.assertEqual(self.places("lemma files under 30 lines"), ["crates/one/proofs/Lemmas.antt 17", "crates/two/proofs/Again.antt 5"])


class Figures(unittest.TestCase):
    def test_what_is_worse(self) -> None:
        kept = kept_figures("# A head: 3\ncrates: 1,200\nlong lines: 3\n")
        self.assertEqual(kept, {"crates": 1200, "long lines": 3})
        found = {"crates": Count(1200, []), "long lines": Count(4, []), "new": Count(0, [])}
        self.assertEqual(worse(found, kept), ["long lines", "new"])


if __name__ == "__main__":
    unittest.main()
