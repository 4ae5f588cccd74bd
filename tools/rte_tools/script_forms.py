"""Why a line of a script has none of the forms (cause 1): which field is wrong, and what should stand there."""

from __future__ import annotations

import re
from dataclasses import dataclass
from typing import Iterable, Iterator

from rte_tools.names import nearest
from rte_tools.reference import section

FORM = re.compile(r"^\| `([a-z]+)((?: [A-Z][A-Z.]*)*)`", re.MULTILINE)
NAME = re.compile(r"[A-Za-z][A-Za-z0-9_]{0,31}")
WORD = re.compile(r"0|-?[1-9][0-9]*")
MOST_TICKS = 100_000
MEANT = {"call": "ask", "acall": "ask", "set": "write", "get": "read", "wait": "tick", "sleep": "tick"}
UNREADABLE = (
    ("\ufeff", "The script begins with a byte order mark. Save it as UTF-8 without one."),
    (
        "\r",
        "The line ends with a carriage return: the file has the line ends of Windows (CRLF). Save it with newlines "
        "alone, for instance by `sed -i 's/\\r$//' {path}`.",
    ),
    ("\t", "There is a tab. Fields are separated by one space."),
    ("  ", "There are two spaces. Fields are separated by one."),
)


@dataclass(frozen=True)
class Remark:
    """Where in a line, from 0, and what is to be said; the text may be missing."""

    start: int
    end: int
    text: str


def forms(text: str) -> dict[str, tuple[str, ...]]:
    """The fields behind each word with which a script line begins, by docs/FORMAT.md."""
    return {word: tuple(fields.split()) for word, fields in FORM.findall(section(text, "The script"))}


def form_remarks(line: str, path: str, known: dict[str, tuple[str, ...]], outer: Iterable[str]) -> Iterator[Remark]:
    """Why a line has none of the forms. `outer` has what the script may name."""
    yield from unreadable(line, path)
    word, *fields = line.split(" ")
    starts = [len(word) + 1]
    for field in fields:
        starts.append(starts[-1] + len(field) + 1)
    comment = next((at for at, field in enumerate(fields) if field.startswith("#")), None)
    if comment is not None:
        yield Remark(starts[comment], len(line), "A comment stands on a line of its own, which begins with `#`.")
    if word not in known:
        words = ", ".join(f"`{name}`" for name in known)
        meant = f"; what was meant is perhaps `{MEANT[word]}`" if word in MEANT else nearest(word, known)
        yield Remark(0, len(word), f"A line begins with one of {words}, or with `#`{meant}.")
        return
    wanted = known[word]
    form = " ".join((word, *wanted))
    for at, (kind, field) in enumerate(zip(wanted, fields)):
        remark = CHECKS[kind](field, outer)
        if remark:
            yield Remark(starts[at] + remark.start, starts[at] + remark.end, remark.text)
    if len(fields) < len(wanted):
        missing = ", ".join(wanted[len(fields) :])
        yield Remark(len(line) - 1, len(line), f"Its form is `{form}`: there is no {missing}.")
    if len(fields) > len(wanted):
        joined = " Words of a value are joined by commas, without spaces." if wanted and wanted[-1] == "V" else ""
        yield Remark(starts[len(wanted)], len(line), f"Its form is `{form}`, and nothing stands behind that.{joined}")


def unreadable(line: str, path: str) -> Iterator[Remark]:
    """Characters that no line has."""
    for found, text in UNREADABLE:
        if found in line:
            at = line.index(found)
            yield Remark(at, at + len(found), text.format(path=path))
    wrong = re.search("[\udc80-\udcff]", line)
    if wrong:
        text = f"The byte 0x{ord(wrong.group()) - 0xDC00:02X} is no UTF-8. Save the script as UTF-8."
        yield Remark(wrong.start(), wrong.end(), text)
    if line != line.strip(" "):
        at = 0 if line[0] == " " else len(line.rstrip(" "))
        yield Remark(at, at + 1, "There is a space before or after the fields.")


# ---- one field: each gives a remark, whose place is from the beginning of the field, or none


def number(field: str, outer: Iterable[str]) -> Remark | None:
    if WORD.fullmatch(field) and 0 < int(field) <= MOST_TICKS:
        return None
    return Remark(0, len(field), "A tick is a millisecond, and N is a whole number from 1 to 100,000.")


def target(field: str, outer: Iterable[str]) -> Remark | None:
    """`P.E`: a port and what is below it, with one point between them."""
    parts = field.split(".")
    if len(parts) == 2 and all(NAME.fullmatch(part) for part in parts):
        return None
    names = f"The script names outer ports of the root, as PORT.ELEMENT or PORT.OPERATION{nearest(field, outer)}."
    if "/" in field:
        return Remark(0, field.rindex("/") + 1, f"`{field}` is within an instance. {names}")
    if len(parts) != 2:
        points = "is no point" if len(parts) == 1 else f"are {len(parts) - 1} points"
        return Remark(0, len(field), f"There {points} in `{field}`. {names}")
    wrong = next(part for part in parts if not NAME.fullmatch(part))
    at = field.index(".") + 1 if wrong == parts[1] else 0
    said = f"`{wrong}` is no name" if wrong else "A name is missing here"
    return Remark(at, at + max(1, len(wrong)), f"{said}: a letter, then letters, digits and `_`, at most 32. {names}")


def value(field: str, outer: Iterable[str]) -> Remark | None:
    """`V`: words in decimal, joined by commas, or `-`."""
    if field == "-":
        return None
    at = 0
    for word in field.split(","):
        if not WORD.fullmatch(word):
            said = f"`{word}` is no number as a value has it" if word else "A number is missing here"
            text = f"{said}: decimal, no sign but a minus, no zeros before it{in_decimal(word)}."
            return Remark(at, at + max(1, len(word)), text)
        at += len(word) + 1
    return None


def in_decimal(word: str) -> str:
    """How a word that is a number is to be written, or nothing."""
    try:
        return f"; write `{int(word, 0 if re.match('[+-]?0[xXbBoO]', word) else 10)}`"
    except ValueError:
        return ""


def mode(field: str, outer: Iterable[str]) -> Remark | None:
    if NAME.fullmatch(field):
        return None
    return Remark(0, len(field), f"`{field}` is no name of a mode. A mode is named, and not numbered.")


CHECKS = {"N": number, "P.E": target, "P.O": target, "V": value, "MODE": mode}
