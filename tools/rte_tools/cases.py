"""The cases of the corpus: a description, a script and a trace, with the verdict. Its page has them as rows of tables."""

from __future__ import annotations

import re
from dataclasses import dataclass
from pathlib import Path

CORPUS = Path(__file__).resolve().parents[2] / "corpus"
PAGE = "README.md"
ROW = re.compile(r"^\| `([^`]+)` \| `([^`]+\.txt)` \| `([^`]+)` \| (.+) \|$", re.MULTILINE)
STATUSES = {"legal": 0, "refused": 1, "script": 5, "bad": 6, "illegal": 6}  # by the first word of a verdict


@dataclass(frozen=True)
class Case:
    """The files of a case, what a check of the trace prints, and with which status it ends."""

    description: Path
    trace: Path
    script: Path
    verdict: str
    shows: str

    @property
    def status(self) -> int:
        return STATUSES[self.verdict.split(" ")[0]]

    @property
    def name(self) -> str:
        return self.trace.parent.name if self.trace.name == "expected.txt" else self.trace.stem


def read_cases(page: str) -> list[Case]:
    """The cases in the order of the page. Folders and traces are named from the folder above the corpus."""
    top = CORPUS.resolve().parent
    return [
        Case(top / folder / "description.json", top / trace, top / folder / "script.txt", verdict, shows)
        for folder, trace, verdict, shows in ROW.findall(page)
    ]


def all_cases() -> list[Case]:
    return read_cases((CORPUS / PAGE).read_text(encoding="utf-8"))
