#!/usr/bin/env python3
"""Says whether two traces of a description differ in more than the order of its cores.

    tools/difference.py DESCRIPTION A B

Two traces are the same but for the order of the cores if each runnable, each machine and the environment has the same lines in both, and
each object (a group of elements, a server, an area, a machine) sees what changes it in the same order. Else the first pair of lines that
differs is shown: a line of A and the one that stands at its place in B. A or B may be -, which is standard input.

Two texts of live nodes are compared so too: each feed has to have the same lines in both.

Before that is said of two traces of different texts, each line is looked at: one that may not come after those before it is shown. The
script is not known here, and nothing is proved; `./rte check` says of a trace whether it is a whole legal run.

The status is 0 if the traces are the same, or the same but for the order of the cores, 1 if they differ or one has a line that may not
come there, and 2 if a file is not read, is not a description or is not a trace of it.
"""

from __future__ import annotations

import argparse

from rte_tools.bus_plan import BusPlan
from rte_tools.differing import Difference, difference
from rte_tools.ending import end_with
from rte_tools.prepared import read_layout, read_own_trace
from rte_tools.stepping import first_fault
from rte_tools.trace import Line, Trace


def arguments() -> argparse.Namespace:
    parser = argparse.ArgumentParser(description=__doc__, formatter_class=argparse.RawDescriptionHelpFormatter)
    parser.add_argument("description", help="the description, a JSON file")
    parser.add_argument("one", metavar="A", help="a trace")
    parser.add_argument("other", metavar="B", help="another trace")
    return parser.parse_args()


def is_same_text(one: Trace, other: Trace) -> bool:
    texts = [[(trace.is_live, trace.version), *((line.feed, line.text) for line in trace.lines)] for trace in (one, other)]
    return texts[0] == texts[1]


def told(found: Difference, one: str, other: str) -> list[str]:
    """Where the traces part, and the pair of lines."""
    where = f"{found.where} sees another order" if found.is_order else f"first at {found.where}"
    return [f"the traces differ: {where}", shown(one, found.one), shown(other, found.other)]


def shown(path: str, line: Line | None) -> str:
    return f"{path}:{line.number}: {line.text}" if line else f"{path}: it has no more lines"


def compared(one: Trace, other: Trace, plan: BusPlan, names: tuple[str, str]) -> tuple[list[str], int]:
    """What is said of two traces, and the status."""
    if is_same_text(one, other):
        return ["the traces are the same"], 0
    found = difference(one, other, plan)
    if found:
        return told(found, *names), 1
    for name, trace in zip(names, (one, other)):
        fault = first_fault(trace, plan)
        if fault:
            return [f"the traces have the same lines, but one may not come there: {fault[1]}", shown(name, fault[0])], 1
    return [f"only the order of the {'cores and feeds' if one.is_live else 'cores'} differs"], 0


def work() -> int:
    words = arguments()
    plan = read_layout(words.description).plan
    one, other = read_own_trace(words.one, plan), read_own_trace(words.other, plan)
    lines, status = compared(one, other, plan, (words.one, words.other))
    print("\n".join(lines))
    return status


if __name__ == "__main__":
    end_with("difference.py", work)
