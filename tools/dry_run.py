#!/usr/bin/env python3
"""Runs a script without the program and without the toolchain. Nothing is proved of it.

    tools/dry_run.py DESCRIPTION SCRIPT > trace.txt
    tools/dry_run.py --live DESCRIPTION STIMULI > text.txt

The trace is made in Python, apart from the program, and is that of one order of the cores: they take turns by their numbers. It is
printed as the program prints one, and `./rte check` calls it legal. What is not a description, or not a script of it, is refused as the
program refuses it; its line and its mend are told on standard error. With --live the text is that of a live node, as `./rte live` prints
one, in which feeds and cores take turns one after the other.

The status is that of the program: 0 if the script was run, 1 if the description breaks a rule, 3 if a file was not read, 4 if the output
was not written, 5 if a line of the script is refused, 11 if there are too many cores for a live node. It is 2 if the words are wrong.
"""

from __future__ import annotations

import argparse
import sys

from rte_tools.dry import NOT_READ, explained, read_all, refused, said_by
from rte_tools.ending import NOT_WRITTEN, end_with, forget_output
from rte_tools.live_turns import LiveNode, one_after_the_other
from rte_tools.script_check import first_bad_line
from rte_tools.stimuli import crowded, first_bad_stimulus
from rte_tools.turns import Layout, Node

TOOL = "dry_run.py"
SAID = "not proved, one order of the cores"


def arguments() -> argparse.Namespace:
    parser = argparse.ArgumentParser(description=__doc__, formatter_class=argparse.RawDescriptionHelpFormatter)
    parser.add_argument("description", help="the description, a JSON file")
    parser.add_argument("script", help="the script, or the stimuli")
    parser.add_argument("--live", action="store_true", help="run a live node")
    return parser.parse_args()


def put(trace: str) -> int:
    """Prints a trace."""
    try:
        sys.stdout.write(trace)
        sys.stdout.flush()
    except OSError:
        forget_output()
        return NOT_WRITTEN
    return 0


def work() -> int:
    words = arguments()
    texts = read_all(TOOL, [words.description, words.script])
    if texts is None:
        return NOT_READ
    refusal, value = refused(texts[0])
    if refusal:
        return explained(refusal, words.description, words.script, is_live=words.live)
    layout = Layout(value)
    if words.live:
        refusal = crowded(value) or first_bad_stimulus(texts[1], layout.plan)
    else:
        refusal = first_bad_line(texts[1], layout.plan)
    if refusal:
        return explained(refusal, words.description, words.script, is_live=words.live)
    said_by(TOOL, SAID)
    return put(LiveNode(layout).served(texts[1], one_after_the_other()) if words.live else Node(layout).whole(texts[1]))


if __name__ == "__main__":
    end_with(TOOL, work)
