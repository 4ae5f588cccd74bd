"""The refused rows of the table of cases: a description with its change, and what the program says of it."""

from __future__ import annotations

import re
from dataclasses import dataclass
from typing import Iterator

from support import DATA

TABLE = DATA.parent / "stdout"
ESCAPE = re.compile(rb"\\(x[0-9A-Fa-f]{2}|[ntr\\])")
REPEATED = re.compile(r"«(\d+) ([^»]*)»")
LETTERS = {b"n": b"\n", b"t": b"\t", b"r": b"\r", b"\\": b"\\"}


@dataclass(frozen=True)
class Row:
    line: int  # of the table
    description: bytes
    says: str


def rows() -> Iterator[Row]:
    """The rows whose description is given by a change or as a text, and refused by a rule."""
    bases: dict[str, bytes] = {}
    lines = TABLE.read_bytes().split(b"\n")
    for number, (line, answer) in enumerate(zip(lines, lines[1:]), 1):
        text = line.decode("utf-8", "surrogateescape")
        if not answer.startswith(b"refused rule"):
            continue
        if text.startswith("$ text "):
            yield Row(number, expanded(text.removeprefix("$ text "), True), answer.decode())
        elif text.startswith("$ change "):
            base, _, edits = text.removeprefix("$ change ").partition(" ")
            held = bases.setdefault(base, (DATA / base / "description.json").read_bytes())
            yield Row(number, changed(held, edits), answer.decode())


def changed(description: bytes, edits: str) -> bytes:
    for edit in edits.split(" ;; "):
        old, arrow, new = edit.partition(" => ")
        old = old if arrow else old.removesuffix(" =>")
        piece = expanded(old, False)
        assert description.count(piece) == 1, edit
        description = description.replace(piece, expanded(new, True))
    return description


def expanded(text: str, numbers: bool) -> bytes:
    """A text of the table: with escapes, and with pieces that stand several times; `#` in these is the number."""
    held = []
    end = 0
    for found in REPEATED.finditer(text):
        held.append(unescaped(text[end : found.start()]))
        end = found.end()
        count, piece = int(found[1]), unescaped(found[2])
        numbered = [piece.replace(b"#", str(number).encode()) for number in range(count)] if numbers and b"#" in piece else []
        held += numbered or [piece * count]
    return b"".join([*held, unescaped(text[end:])])


def unescaped(text: str) -> bytes:
    return ESCAPE.sub(byte, text.encode("utf-8", "surrogateescape"))


def byte(found: re.Match[bytes]) -> bytes:
    """The byte that an escape is."""
    return bytes([int(found[1][1:], 16)]) if found[1].startswith(b"x") else LETTERS[found[1]]
