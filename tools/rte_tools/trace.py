"""A trace, line by line. Both versions are read, and the text of a live node. A line of an unknown kind is kept as it is."""

from __future__ import annotations

from dataclasses import dataclass
from typing import Callable, Iterable, Iterator, Sequence

HEADER = "rte-trace "
LIVE = "rte-live 1"  # the first line of a live text, whose lines are those of version two
RUN = "run"
STOPPED = "stopped"  # of a live text: all stimuli have come
FEEDS = ("0", "1", "2", "3")  # that the stimuli of a live text have
CLOSINGS = ("idle", "unsettled", "waiting")
OF_LISTS = ("fetchAll", "publishAll")

# What stands behind each verb.
PARTS = {
    "start": ("event",),
    "admit": ("answer",),
    "fetch": ("target", "value"),
    "write": ("target", "value", "code"),
    "read": ("target", "code", "value"),
    "invalidate": ("target", "code"),
    "isUpdated": ("target", "answer"),
    "send": ("target", "value", "code"),
    "receive": ("target", "code", "value"),
    "ask": ("target", "value", "code"),
    "answer": ("target", "code", "value"),
    "result": ("target", "code", "value"),
    "return": ("code", "value"),
    "enter": ("target",),
    "exit": ("target",),
    "switch": ("target", "mode", "code"),
    "mode": ("target", "mode"),
    "phase": ("step", "mode"),
    "publish": ("target", "value"),
    "fetchAll": ("list", "value"),
    "publishAll": ("list", "marks", "value"),
}


class NotATrace(Exception):
    """The text is not a trace."""


@dataclass(frozen=True)
class Line:
    """A line of a trace. A run line and its closing word have no actor; their word is the verb."""

    number: int  # in the file, from 1
    text: str
    actor: str
    verb: str
    fields: tuple[str, ...]
    feed: str = ""  # of a live text: the feed that a call of the environment came from, which is not in the line's own text

    def part(self, name: str) -> str:
        """A part that the verb has, such as its code, or nothing."""
        names = PARTS.get(self.verb, ())
        at = names.index(name) if name in names else len(self.fields)
        return self.fields[at] if at < len(self.fields) else ""

    @property
    def is_tick(self) -> bool:
        return self.verb == "tick" and self.actor == "env"


@dataclass(frozen=True)
class Trace:
    version: str
    lines: list[Line]
    is_live: bool = False


def read_trace(texts: Iterable[str]) -> Trace:
    """The trace that the lines are. Raises NotATrace where the first one is not a header."""
    numbered = enumerate((text.rstrip("\n") for text in texts), 1)
    _, first = next(numbered, (1, ""))
    if first == LIVE:
        return Trace("2", [read_live_line(number, text) for number, text in numbered if text], True)
    if not first.startswith(HEADER):
        raise NotATrace(f"the first line is `{first[:80]}` and not `{HEADER}1` or `{HEADER}2`")
    return Trace(first[len(HEADER) :], [read_line(number, text) for number, text in numbered if text])


def by_element(line: Line, elements: Sequence[str], words_of: Callable[[str], int]) -> Iterator[tuple[str, tuple[str, ...]]]:
    """Those of the elements of a coherent list that a line fetches or publishes, each with its words."""
    value = line.part("value")
    words = [] if value == "-" else value.split(",")
    for element, mark in zip(elements, line.part("marks") or "1" * len(elements)):
        if mark == "1":
            count = words_of(element)
            yield element, tuple(words[:count])
            words = words[count:]


def read_line(number: int, text: str, feed: str = "") -> Line:
    fields = text.split(" ")
    if fields[0] == RUN or fields[0] in CLOSINGS:
        return Line(number, text, "", fields[0], tuple(fields[1:]), feed)
    return Line(number, text, fields[0], fields[1] if len(fields) > 1 else "", tuple(fields[2:]), feed)


def read_live_line(number: int, text: str) -> Line:
    """A line of a live text: before a call of the environment stands its feed."""
    if text == STOPPED:
        return Line(number, text, "", STOPPED, ())
    if text[:1] in FEEDS and text[1:2] == " ":
        return read_line(number, text[2:], text[0])
    return read_line(number, text)
