"""What the tools that stand in for the program share: files that are read, and what is refused."""

from __future__ import annotations

import sys
from typing import Any

from rte_tools.explaining import explain, explain_unread
from rte_tools.files import LONGEST, read_schema
from rte_tools.judging import first_of_shape, judge
from rte_tools.located import NotJson, read_json
from rte_tools.refusal import Refusal
from rte_tools.source import read_text

NOT_READ = 3  # the status


def said_by(tool: str, text: str) -> None:
    print(f"{tool}: {text}", file=sys.stderr)


def read(tool: str, path: str, number: int) -> str | None:
    """The text of a file, the number of whose word is given, or none where it is not read; then it is said why."""
    try:
        text = read_text(path)
    except OSError:
        text = None
    if text is None or len(text.encode("utf-8", "surrogateescape")) > LONGEST:
        print(f"not read {number}", flush=True)
        said_by(tool, explain_unread(path)[0])
        return None
    return text


def read_all(tool: str, paths: list[str]) -> list[str] | None:
    """The texts of files in the order of the words, or none where one of them is not read; then it is said why."""
    texts = []
    for number, path in enumerate(paths, 1):
        text = read(tool, path, number)
        if text is None:
            return None
        texts.append(text)
    return texts


def refused(text: str) -> tuple[Refusal | None, dict[str, Any]]:
    """The rule that a description breaks, if one is known, and its value."""
    try:
        value = read_json(text).plain()
    except NotJson:
        return Refusal("rule", 1, "/"), {}
    return first_of_shape(read_schema().faults(value)) or judge(value), value


def explained(refusal: Refusal, description: str, script: str, trace: str = "", is_live: bool = False) -> int:
    """Says what is refused, with the line and the mend. Gives the status."""
    print(refusal, flush=True)
    for line in explain(refusal, description, script, trace, is_live=is_live):
        print(line, file=sys.stderr)
    return refusal.status
