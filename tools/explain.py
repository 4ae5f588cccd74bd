#!/usr/bin/env python3
"""Runs the program and explains its refusal.

    tools/explain.py DESCRIPTION SCRIPT
    tools/explain.py DESCRIPTION
    tools/explain.py --trace TRACE DESCRIPTION SCRIPT
    tools/explain.py --second DESCRIPTION DESCRIPTION SCRIPT
    tools/explain.py --live DESCRIPTION STIMULI

What the program prints is printed unchanged. If it refuses, the line that it names follows with a caret, the rule or cause,
what can be said of this case, and how to mend it.

Without SCRIPT the program prints the plan. With --trace it checks a trace: the line of a verdict such as `illegal 14 D6` or
`bad line 20` follows, with what the bus would have answered there. With --second it runs two nodes, by `pair`: a refusal says
of which of the two descriptions it is, and `no link` why nothing is linked. With --live it runs a live node, to which it gives the file
STIMULI as standard input.

The status is the program's, 126 if the program cannot be run, and 2 if the words are wrong. With --said the program is not
run: what it printed is read from a file, and the status is the one that belongs to it.
"""

from __future__ import annotations

import argparse
import contextlib
import os
import shutil
import subprocess
import sys
from pathlib import Path
from typing import IO

from rte_tools.explaining import explain
from rte_tools.files import Unfit, read_file, why_unread
from rte_tools.refusal import Refusal, read_refusal

LAUNCHER = Path(__file__).resolve().parents[1] / "rte"
LONGEST_REFUSAL = 4096  # bytes of a first line that may be a refusal


def arguments() -> argparse.Namespace:
    parser = argparse.ArgumentParser(description=__doc__, formatter_class=argparse.RawDescriptionHelpFormatter)
    parser.add_argument("description", help="the description, a JSON file")
    parser.add_argument("script", nargs="?", default="", help="the script, or with --live the stimuli")
    parser.add_argument(
        "--program",
        default=os.environ.get("RTE") or str(LAUNCHER),
        help="the program to run; otherwise the variable RTE names it, or it is ./rte of the repository",
    )
    parser.add_argument("--said", metavar="FILE", help="a file with what the program printed; - is standard input")
    parser.add_argument("--trace", metavar="TRACE", default="", help="check this trace, in place of running the script")
    parser.add_argument("--second", metavar="DESCRIPTION", default="", help="the description of the second of two nodes")
    parser.add_argument("--live", action="store_true", help="run a live node, by stimuli")
    words = parser.parse_args()
    if bool(words.trace) + bool(words.second) + words.live > 1:
        parser.error("--trace, --second and --live go not together")
    for option in ("trace", "second", "live"):
        if getattr(words, option) and not words.script:
            parser.error(f"--{option} needs DESCRIPTION and SCRIPT")
    return words


def pass_through(printed: IO[bytes]) -> Refusal | None:
    """Prints unchanged what the program prints, and gives its refusal, if it is one."""
    first = printed.readline(LONGEST_REFUSAL)
    sys.stdout.buffer.write(first)
    shutil.copyfileobj(printed, sys.stdout.buffer)
    sys.stdout.buffer.flush()
    return read_refusal(first.decode("utf-8", errors="replace").rstrip("\n"))


def run(words: list[str], stimuli: str) -> tuple[Refusal | None, int]:
    """Runs the program, by the stimuli of a file if one is named; gives its refusal and its status."""
    with open(stimuli, "rb") if stimuli else contextlib.nullcontext() as given:
        with subprocess.Popen(words, stdin=given, stdout=subprocess.PIPE) as process:
            refusal = pass_through(process.stdout) if process.stdout else None
    return refusal, process.returncode


def read_said(path: str) -> tuple[Refusal | None, int]:
    """Reads what the program printed."""
    if path == "-":
        refusal = pass_through(sys.stdin.buffer)
    else:
        read_file(path)
        with open(path, "rb") as file:
            refusal = pass_through(file)
    return refusal, refusal.status if refusal else 0


def command(words: argparse.Namespace) -> list[str]:
    """The words for the program."""
    if words.trace:
        return ["check", words.description, words.trace, words.script]
    if words.second:
        return ["pair", words.description, words.second, words.script]
    if words.live:
        return ["live", words.description]
    return ["run", words.description, words.script] if words.script else ["plan", words.description]


def is_told(refusal: Refusal, words: argparse.Namespace) -> bool:
    """Whether the launcher ran and said already which file was not read, and why."""
    if words.said is not None or refusal.kind != "not read" or Path(words.program).resolve() != LAUNCHER:
        return False
    return any(path and why_unread(path) for path in (words.description, words.trace, words.second, words.script))


def main() -> int:
    words = arguments()
    try:
        if words.said is None:
            stimuli = words.script if words.live else ""
            if stimuli:
                read_file(stimuli)
            refusal, status = run([words.program, *command(words)], stimuli)
        else:
            refusal, status = read_said(words.said)
        if refusal and refusal.status == status and not is_told(refusal, words):
            lines = explain(refusal, words.description, words.script, words.trace, words.second, words.live)
            explained = "\n".join(lines) + "\n"
            sys.stdout.buffer.write(explained.encode("utf-8", errors="replace"))
    except BrokenPipeError:
        return 4
    except Unfit as error:
        print(f"explain.py: {error}", file=sys.stderr)
        return 2
    except OSError as error:
        print(f"explain.py: cannot run {words.program}: {error.strerror}", file=sys.stderr)
        return 126
    return status


if __name__ == "__main__":
    sys.exit(main())
