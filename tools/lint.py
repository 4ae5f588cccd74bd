#!/usr/bin/env python3
"""Warns of what a description says in silence and probably does not mean.

    tools/lint.py DESCRIPTION [SCRIPT]

Each warning is a line `FILE:LINE:COLUMN: TEXT`. It warns of

  - ports that are not connected, runnables without an event, tasks without events
  - variables that are read and never set, or set and never read
  - `out` arguments that are never set, and an `error` that the operation does not declare
  - values that are clamped in any case
  - events that are disabled in every mode
  - a queue of which each start takes one value, and a variable of which a write may be lost
  - elements that one runnable writes and another one fetches one by one, in another task and in no coherent list
  - accesses, com specs and types that nothing uses, and keys that stand twice
  - a script that runs nothing, or nothing after a line

The program accepts all of these. What it refuses, tools/explain.py explains.

The status is 0 without a warning, 1 with one, and 2 if a file is not read or is not a description.
"""

from __future__ import annotations

import argparse
import subprocess
import sys
from typing import Iterator

from rte_tools.description import described
from rte_tools.files import Unfit, built_program, kind_of, read_file, read_schema
from rte_tools.linting import warnings
from rte_tools.linting_script import script_findings
from rte_tools.located import Node, NotJson, read_json
from rte_tools.source import Source

LONGEST_WAIT = 60  # seconds for the program, which says whether it accepts the description
REFUSED = "The program refuses this description. Mend that first, with tools/explain.py: what is refused looks unused here."
PERHAPS = "If the program refuses this description, mend that first, with tools/explain.py: what is refused looks unused here."


def doubled_keys(root: Node) -> Iterator[tuple[int, str]]:
    """Keys that stand twice in one object, where the last one counts."""
    for node in root.walk():
        for start, key in node.doubled:
            yield start, f"the key `{key}` stands twice here; the last one counts"


def lint(source: Source) -> tuple[list[str], int]:
    """The lines to print of a description, and the status."""
    try:
        root = read_json(source.text)
    except NotJson as error:
        return [f"{source.where(error.start)}: this is not JSON: {error.message}"], 2
    value = root.plain()
    faults = list(read_schema().faults(value))
    if faults:
        node = root.at(faults[0].place)
        return [f"{source.where(node.start)}: this is not a description, by rule 2 or 3: {faults[0].message}"], 2
    found = list(doubled_keys(root))
    found += [(root.at(warning.place).start, warning.text) for warning in warnings(described(value))]
    return [f"{source.where(start)}: {text}" for start, text in sorted(found)], 1 if found else 0


def lint_script(source: Source) -> list[str]:
    """The lines to print of a script."""
    kind = kind_of(source.text)
    if kind not in ("", "script"):
        raise Unfit(f"{source.path} is no script but {'XML' if kind == 'XML' else f'a {kind}'}")
    return [f"{source.where(start)}: {text}" for start, text in script_findings(source)]


def closing(path: str) -> list[str]:
    """That a refusal is to be mended first: if the program refuses the description, or is not there to say so."""
    program = built_program()
    if not program:
        return [PERHAPS]
    try:
        ended = subprocess.run([program, "plan", path], stdout=subprocess.DEVNULL, check=False, timeout=LONGEST_WAIT)
    except (OSError, subprocess.TimeoutExpired):
        return [PERHAPS]
    return {0: [], 1: [REFUSED]}.get(ended.returncode, [PERHAPS])


def main() -> int:
    parser = argparse.ArgumentParser(description=__doc__, formatter_class=argparse.RawDescriptionHelpFormatter)
    parser.add_argument("description", help="the description, a JSON file")
    parser.add_argument("script", nargs="?", help="a script of it")
    words = parser.parse_args()
    try:
        lines, status = lint(Source.of(words.description, read_file(words.description)))
        ending = closing(words.description) if status == 1 else []
        if words.script and status < 2:
            of_script = lint_script(Source.of(words.script, read_file(words.script)))
            lines, status = lines + of_script, 1 if of_script else status
    except Unfit as error:
        lines, status, ending = [f"lint.py: {error}"], 2, []
    for line in lines + ending:
        print(line)
    return status


if __name__ == "__main__":
    sys.exit(main())
