"""What a mistake is: changes of an example, what the program says of them, and what the one tool says that leads to the mend."""

from __future__ import annotations

from dataclasses import dataclass
from pathlib import Path

from support import DATA

Edits = tuple[tuple[str, str], ...]
RUNS = "tick 10\nrun\n"


@dataclass(frozen=True)
class Mistake:
    """A description and a script, of which one is wrong. What the program says was derived by hand from docs/FORMAT.md."""

    says: str  # what the program prints; empty where it accepts the files
    at: str  # a part of the line that is pointed to; empty for the first line
    holds: tuple[str, ...]  # parts of what the tool says
    edits: Edits = ()
    example: str = "one_writer"
    script: str | bytes = RUNS
    before: bytes = b""  # bytes before the description
    content: str | bytes | None = None  # in place of the example's description

    @property
    def in_script(self) -> bool:
        return self.says.startswith("script ")

    @property
    def is_silent(self) -> bool:
        """Whether the program accepts it, so that lint.py has to say it."""
        return not self.says


@dataclass(frozen=True)
class TraceMistake:
    """A trace of an example that is wrong, or words of `check` in a wrong order."""

    says: str
    line: int  # that is pointed to
    holds: tuple[str, ...]
    edits: Edits = ()  # of the example's expected text
    example: str = "one_writer"
    keeps: int | None = None  # how many lines are kept of the text
    without_ticks: bool = False
    order: str = "DTS"  # in which order the files are given: description, trace, script


@dataclass(frozen=True)
class Elsewhere:
    """A mistake that another test tries."""

    module: str
    test: str  # CLASS.METHOD


def folder_of(example: str) -> Path:
    bases = DATA / "bases" / example
    return bases if bases.is_dir() else DATA / "examples" / example


def refused(says: str, at: str, holds: tuple[str, ...], *edits: tuple[str, str], example: str = "one_writer") -> Mistake:
    """A description that the program refuses."""
    return Mistake(f"refused rule {says}", at, holds, edits, example)


def not_json(at: str, holds: tuple[str, ...], *edits: tuple[str, str], **keys) -> Mistake:
    return Mistake("refused rule 1 at /", at, holds, edits, **keys)


def silent(at: str, holds: tuple[str, ...], *edits: tuple[str, str], example: str = "one_writer") -> Mistake:
    """A description that the program accepts, and of which lint.py says what is wrong."""
    return Mistake("", at, holds, edits, example)


def script(line: int, cause: int, text: str | bytes, *holds: str, example: str = "door_control") -> Mistake:
    """A script of which the program refuses a line; the tool points to this line."""
    held = text if isinstance(text, bytes) else text.encode()
    at = held.split(b"\n")[line - 1].decode("utf-8", "surrogateescape") if line > 1 else ""
    return Mistake(f"script refused line {line} cause {cause}", at, holds, example=example, script=text)
