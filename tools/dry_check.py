#!/usr/bin/env python3
"""Checks a trace without the program and without the toolchain. Nothing is proved of it.

    tools/dry_check.py DESCRIPTION TRACE SCRIPT
    tools/dry_check.py --live DESCRIPTION TEXT STIMULI

It prints the line that `./rte check` prints, and is made apart from it. What is refused is told on standard error with its mend.

With --live the text is one that `./rte live` printed, of these stimuli. It is legal if each entry may come after those before it, the
environment's are the wishes of each feed, in order and whole, and one run line that closes rightly stands behind `stopped`.

The status is that of the program: 0 if the trace is legal, 1 if the description breaks a rule, 3 if a file was not read, 5 if a line of the
script is refused, 6 if the trace is, 11 if there are too many cores for a live node. It is 2 if the words are wrong.
"""

from __future__ import annotations

import argparse
from typing import Any

from rte_tools.bus_plan import plan_of
from rte_tools.checking import checked
from rte_tools.dry import NOT_READ, explained, read_all, refused
from rte_tools.ending import end_with
from rte_tools.live import checked_live
from rte_tools.refusal import Refusal
from rte_tools.script_check import first_bad_line
from rte_tools.stimuli import crowded, feeds_of, first_bad_stimulus

TOOL = "dry_check.py"


def arguments() -> argparse.Namespace:
    parser = argparse.ArgumentParser(description=__doc__, formatter_class=argparse.RawDescriptionHelpFormatter)
    parser.add_argument("description", help="the description, a JSON file")
    parser.add_argument("trace", help="the trace, or the text of a live node")
    parser.add_argument("script", help="the script, or the stimuli")
    parser.add_argument("--live", action="store_true", help="check the text of a live node")
    return parser.parse_args()


def live_refusal(value: dict[str, Any], text: str, stimuli: str) -> Refusal | None:
    plan = plan_of(value)
    return crowded(value) or first_bad_stimulus(stimuli, plan) or checked_live(plan, text, feeds_of(stimuli))


def work() -> int:
    words = arguments()
    texts = read_all(TOOL, [words.description, words.trace, words.script])
    if texts is None:
        return NOT_READ
    refusal, value = refused(texts[0])
    if not refusal and words.live:
        refusal = live_refusal(value, texts[1], texts[2])
    elif not refusal:
        plan = plan_of(value)
        refusal = first_bad_line(texts[2], plan) or checked(plan, texts[1], texts[2])
    if refusal:
        return explained(refusal, words.description, words.script, words.trace, words.live)
    print("legal", flush=True)
    return 0


if __name__ == "__main__":
    end_with(TOOL, work)
