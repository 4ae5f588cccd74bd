"""A text with its lines, and how a place in it is shown."""

from __future__ import annotations

import bisect
from dataclasses import dataclass

WIDTH = 100  # how much of a long line is shown around a place
VISIBLE = str.maketrans({"\t": "→", "\r": "␍", "\ufeff": "▯"})


@dataclass(frozen=True)
class Source:
    """The text of a file. Lines are ended by a newline alone, so a carriage return belongs to its line."""

    path: str
    text: str
    starts: tuple[int, ...]

    @classmethod
    def of(cls, path: str, text: str) -> Source:
        starts = [0]
        for line in text.split("\n")[:-1]:
            starts.append(starts[-1] + len(line) + 1)
        return cls(path, text, tuple(starts))

    def position(self, offset: int) -> tuple[int, int]:
        """The line and the column of a place, both from 1; a column is a character."""
        line = bisect.bisect_right(self.starts, offset)
        return line, offset - self.starts[line - 1] + 1

    def line(self, number: int) -> str:
        """The text of a line, without its newline."""
        start = self.starts[number - 1]
        end = self.text.find("\n", start)
        return self.text[start:] if end < 0 else self.text[start:end]

    def where(self, offset: int) -> str:
        """`path:line:column` of a place."""
        line, column = self.position(offset)
        return f"{self.path}:{line}:{column}"

    def show(self, start: int, end: int) -> list[str]:
        """The line of a place with a caret under each character of it. A long line is cut on both sides."""
        number, column = self.position(start)
        line = self.line(number)
        first = column - 1
        length = max(1, min(end, self.starts[number - 1] + len(line)) - start)
        left = max(0, first - WIDTH // 3) if len(line) > WIDTH else 0
        shown = line[left : left + WIDTH]
        before = "…" if left else ""
        after = "…" if left + WIDTH < len(line) else ""
        carets = "^" * min(length, max(1, len(shown) - (first - left)))
        gutter = f"{number:>6} | "
        under = " " * 6 + " | " + " " * (len(before) + first - left) + carets
        return [(gutter + before + shown + after).translate(VISIBLE), under]


def read_text(path: str) -> str:
    """The text of a file. Bytes that are no UTF-8 are kept as lone surrogates; a byte order mark stays."""
    with open(path, "rb") as file:
        return file.read().decode("utf-8", errors="surrogateescape")
