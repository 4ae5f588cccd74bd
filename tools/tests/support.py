"""What the tests share: the examples, edits of them, and the program where it is built."""

from __future__ import annotations

import json
import os
import subprocess
import sys
import tempfile
import unittest
from pathlib import Path

TOP = Path(__file__).resolve().parents[2]
TOOLS = TOP / "tools"
DATA = TOP / "crates" / "worked_rows" / "data"
EXAMPLES = sorted(path for path in (DATA / "examples").iterdir() if path.is_dir())
sys.path.insert(0, str(TOOLS))

from rte_tools.description import Description, described  # noqa: E402
from rte_tools.replay import Replay, replay  # noqa: E402
from rte_tools.trace import Trace, read_trace  # noqa: E402


def text_of(path: Path) -> str:
    return path.read_text(encoding="utf-8")


def description_of(folder: Path, name: str = "description.json") -> Description:
    return described(json.loads(text_of(folder / name)))


def cores_of(folder: Path) -> int:
    return json.loads(text_of(folder / "description.json"))["mapping"]["cores"]


def trace_of(folder: Path) -> Trace:
    return read_trace(text_of(folder / "expected.txt").splitlines())


def replay_of(folder: Path) -> Replay:
    return replay(description_of(folder), trace_of(folder))


def edited(text: str, edits: list[tuple[str, str]]) -> str:
    """The text with each edit, whose first part stands in it exactly once."""
    for old, new in edits:
        assert text.count(old) == 1, f"`{old}` stands {text.count(old)} times"
        text = text.replace(old, new)
    return text


def line_of(text: str, part: str) -> int:
    """The line in which a part of the text stands, from 1."""
    assert text.count(part) == 1, f"`{part}` stands {text.count(part)} times"
    return text.count("\n", 0, text.index(part)) + 1


def run(words: list[str]) -> subprocess.CompletedProcess:
    return subprocess.run(words, capture_output=True, check=False)


def run_tool(name: str, *words: str) -> subprocess.CompletedProcess:
    return run([sys.executable, str(TOOLS / name), *words])


def program() -> str | None:
    """The program: what the variable RTE names, or what was built; or none."""
    built = TOP / "crates" / "rte" / "out" / "rte"
    return os.environ.get("RTE") or (str(built) if os.access(built, os.X_OK) else None)


def read_of(terminal: int) -> bytes:
    """What a terminal shows next, and nothing once it is closed."""
    try:
        return os.read(terminal, 4096)
    except OSError:
        return b""


class WithFolder(unittest.TestCase):
    """A test with a folder of its own."""

    def setUp(self) -> None:
        held = tempfile.TemporaryDirectory()
        self.addCleanup(held.cleanup)
        self.folder = Path(held.name)

    def write(self, name: str, content: str | bytes) -> str:
        path = self.folder / name
        path.write_bytes(content if isinstance(content, bytes) else content.encode("utf-8"))
        return str(path)
