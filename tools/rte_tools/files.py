"""Reads the files that the tools are given."""

from __future__ import annotations

import json
import os
from pathlib import Path
from typing import Any

from rte_tools.description import Description, described
from rte_tools.located import NotJson, read_json
from rte_tools.shape import Shape
from rte_tools.source import read_text
from rte_tools.trace import FEEDS, HEADER, LIVE, NotATrace, Trace, read_trace

LONGEST = 8_388_608  # bytes of a file that the program reads
BEGINNING = 4096  # characters by which it is seen what a text is
SCRIPT_WORDS = ("tick", "run", "write", "send", "read", "receive", "ask", "result", "switch", "mode")
TOP = Path(__file__).resolve().parents[2]
SCHEMA = TOP / "schema" / "description.schema.json"
BUILT = TOP / "crates" / "rte" / "out" / "rte"


class Unfit(Exception):
    """A file is not what it should be; the message says why."""


def read_schema() -> Shape:
    """The schema of descriptions, ready to look at values."""
    return Shape(json.loads(SCHEMA.read_text(encoding="utf-8")))


def read_description(path: str) -> Description:
    """The description of a file. Raises Unfit where the file is not read, or is not one by rules 1 to 3."""
    return described(read_value(path))


def read_value(path: str) -> dict[str, Any]:
    """The value of a file that is a description by rules 1 to 3. Raises as `read_description` does."""
    try:
        value = read_json(read_file(path)).plain()
    except NotJson as error:
        raise Unfit(f"{path} is not JSON: {error.message}") from error
    if not read_schema().accepts(value):
        raise Unfit(f"{path} is not a description; tools/lint.py says why")
    return value


def why_unread(path: str) -> str:
    """Why the program may not have read a file, or nothing where it is there, not too long and may be read."""
    if not os.path.exists(path):
        return "there is no such file"
    if os.path.isdir(path):
        return "this is a folder"
    if not os.access(path, os.R_OK):
        return "the file may not be read by this user"
    if os.path.getsize(path) > LONGEST:
        return f"the file has {os.path.getsize(path):,} bytes, and at most {LONGEST:,} are read"
    return ""


def read_file(path: str) -> str:
    """The text of a file. Raises Unfit with one line that says why it is not read."""
    try:
        return read_text(path)
    except OSError as error:
        raise Unfit(unread(path, error)) from error


def read_trace_of(path: str) -> Trace:
    """The trace of a file; - is standard input. Raises Unfit with one line if it is not read, or is none."""
    try:
        with open(0 if path == "-" else path, encoding="utf-8", errors="replace", newline="\n") as file:
            return read_trace(file)
    except NotATrace as error:
        raise Unfit(f"{path} is not a trace: {error}") from error
    except OSError as error:
        raise Unfit(unread(path, error)) from error


def unread(path: str, error: OSError) -> str:
    """One line that names a file that the system does not give, and says why."""
    return f"cannot read {path}: {why_unread(path) or error.strerror}"


def kind_of(text: str) -> str:
    """What a text begins like: `description`, `trace`, `script`, `stimuli` or `XML`; or nothing."""
    if text.startswith((HEADER, LIVE)):
        return "trace"
    begin = text[:BEGINNING].lstrip(" \t\r\n\ufeff")
    if begin.startswith(("{", "[")):
        return "description"
    if begin.startswith("<"):
        return "XML"
    words = [line.split(" ")[0].rstrip("\r") for line in begin.splitlines() if line and not line.startswith("#")]
    if words and words[0] in (*FEEDS, "stop"):
        return "stimuli"
    return "script" if words and words[0] in SCRIPT_WORDS else ""


def built_program() -> str | None:
    """The program: what the variable RTE names, or what `./rte` built; or none. Nothing is built here."""
    named = os.environ.get("RTE")
    return named or (str(BUILT) if os.access(BUILT, os.X_OK) else None)
