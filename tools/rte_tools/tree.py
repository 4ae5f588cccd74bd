"""All sources, definitions and proofs of the crates, read once."""

from __future__ import annotations

from pathlib import Path

PARTS = ("src", "specs", "proofs")
ANSWERS = ("Answers.antt", "Invariants.antt", "Measures.antt", "Measure.antt", "Proof.antt")  # proofs of code, and no lemmas
LISTS = ("Lib.antt",)


class Tree:
    """The texts and lines of the files by their paths below the top."""

    def __init__(self, top: Path):
        paths = (
            path
            for crate in sorted((top / "crates").iterdir())
            for part in PARTS
            for path in sorted((crate / part).rglob("*.*t"))
            if path.suffix in (".rt", ".antt")
        )
        self.texts = {str(path.relative_to(top)): path.read_text(encoding="utf-8") for path in paths}
        self.lines = {path: text.splitlines() for path, text in self.texts.items()}
        self.edits = {str(path.relative_to(top)): path.read_text(encoding="utf-8") for path in sorted((top / "crates").glob("*/must-fail/*"))}

    def sources(self) -> list[str]:
        return [path for path in self.texts if path.endswith(".rt")]

    def lemma_files(self) -> list[str]:
        """The files of proofs that have lemmas."""
        return [path for path in self.texts if path.split("/")[2] == "proofs" and path.endswith(".antt") and name_of(path) not in ANSWERS + LISTS]


def name_of(path: str) -> str:
    return path.rsplit("/", 1)[-1]


def crate_of(path: str) -> str:
    return path.split("/")[1]
