"""What a script says in silence and probably does not mean: that nothing runs, or nothing after a line."""

from __future__ import annotations

from typing import Iterator

from rte_tools.source import Source
from rte_tools.verdicts import script_lines

IDLE_AFTER_THE_LAST_RUN = ("write", "send", "switch", "tick", "ask")  # these wait for a run line


def script_findings(source: Source) -> Iterator[tuple[int, str]]:
    """What to say of a script, each with its place in the text."""
    lines = [(number, line) for number, line, _ in script_lines(source.text)]
    if not lines:
        yield 0, "the script has no line that does something, so the trace is empty: write `tick 10` and `run`"
        return
    runs = [number for number, line in lines if line == "run"]
    if not runs:
        yield source.starts[lines[0][0] - 1], "the script has no line `run`, so no runnable starts: add one"
        return
    for number, line in lines:
        if number > runs[-1] and line.split(" ")[0] in IDLE_AFTER_THE_LAST_RUN:
            text = f"no line `run` comes after `{line}`, so no runnable starts by it: add one, or take it out"
            yield source.starts[number - 1], text
            return
