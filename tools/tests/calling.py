"""Calls a tool within the process of the tests, since a process of its own for each call takes long on a busy machine."""

from __future__ import annotations

import contextlib
import importlib
import io
import sys
from dataclasses import dataclass
from unittest import mock

import support  # noqa: F401  (it puts the tools on the path)

from rte_tools.ending import end_with


@dataclass(frozen=True)
class Ended:
    """How a call ended, and what it printed."""

    status: int
    out: str
    err: str


def call_tool(name: str, *words: str) -> Ended:
    """Calls the work of `NAME.py` with these words."""
    module = importlib.import_module(name)
    out, err = io.StringIO(), io.StringIO()
    status = 0
    with contextlib.redirect_stdout(out), contextlib.redirect_stderr(err), mock.patch.object(sys, "argv", [f"{name}.py", *words]):
        try:
            end_with(f"{name}.py", module.work)
        except SystemExit as end:
            status = end.code if isinstance(end.code, int) else 1
    return Ended(status, out.getvalue(), err.getvalue())
