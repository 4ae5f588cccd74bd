"""What docs/FORMAT.md says of rules and script causes.

Its regular form: a rule begins with `**N. Title` up to the closing `**`, and has one item that begins with `- Mend: `.
The causes are the rows of the table with the columns Cause, The line, For instance and Mend.
"""

from __future__ import annotations

import re
from dataclasses import dataclass
from pathlib import Path

FORMAT = Path(__file__).resolve().parents[2] / "docs" / "FORMAT.md"
TITLE = re.compile(r"^\*\*(\d+)\. (.+?)\*\*", re.MULTILINE | re.DOTALL)
MEND = re.compile(r"^- Mend: (.+(?:\n  .+)*)", re.MULTILINE)
CAUSE = re.compile(r"^\| (\d+) \| (.+?) \| .+ \| (.+?) \|$", re.MULTILINE)


@dataclass(frozen=True)
class Entry:
    """A rule or a cause: what it says, and how to mend what breaks it."""

    title: str
    mend: str


def section(text: str, heading: str) -> str:
    """The text below a heading of the second level, up to the next one."""
    begin = text.index(f"\n## {heading}\n")
    end = text.find("\n## ", begin + 1)
    return text[begin:] if end < 0 else text[begin:end]


def one_line(text: str) -> str:
    """A text that was wrapped, on one line, and without the links of the page."""
    return re.sub(r"\[([^\]]*)\]\([^)]*\)", r"\1", " ".join(text.split()))


def rules(text: str) -> dict[int, Entry]:
    """The rules by number, those that have a mend."""
    text = section(text, "The rules")
    begins = [(match.start(), int(match.group(1)), match.group(2)) for match in TITLE.finditer(text)]
    ends = [start for start, _, _ in begins[1:]] + [len(text)]
    found = {}
    for (start, number, title), end in zip(begins, ends):
        mend = MEND.search(text, start, end)
        if mend:
            found[number] = Entry(one_line(title).rstrip("."), one_line(mend.group(1)))
    return found


def causes(text: str) -> dict[int, Entry]:
    """The causes of refused script lines, by number."""
    found = CAUSE.findall(section(text, "The script"))
    return {int(number): Entry(one_line(title), one_line(mend) + ".") for number, title, mend in found}


def read_format() -> str:
    return FORMAT.read_text(encoding="utf-8")
