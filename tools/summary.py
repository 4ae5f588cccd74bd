#!/usr/bin/env python3
"""Counts what is in a trace.

    ./rte run DESCRIPTION SCRIPT > trace.txt
    tools/summary.py DESCRIPTION trace.txt [--csv]

The tables are: totals; starts by runnable and event; activations that were not admitted; codes that are not 0; reads that found nothing
(133, never received, and 134, unconnected); values lost at queues that were full; the greatest fill of each queue; and values that were
clamped to the limits of their types, from what to what, which a trace alone does not show. TRACE may be -, which is standard input.

The trace may be cut off, and its ticks may be missing. It is not checked: `./rte check` does that. But each runnable has to do what its
program asks for next.

The status is 0, or 2 if a file is not read, is not a description or is not a trace of it.
"""

from __future__ import annotations

import argparse
import csv
import sys
from itertools import groupby

from rte_tools.ending import end_with
from rte_tools.files import Unfit
from rte_tools.prepared import read_layout, read_own_trace
from rte_tools.summing import Row, Unfitting, rows, sums_of

FILLS = "greatest fill of queues"  # `2 of 8`
TABLES = (
    "totals",
    "starts",
    "not admitted",
    "codes that are not 0",
    "reads of nothing",
    "values lost",
    FILLS,
    "clamped values",
)


def arguments() -> argparse.Namespace:
    parser = argparse.ArgumentParser(description=__doc__, formatter_class=argparse.RawDescriptionHelpFormatter)
    parser.add_argument("description", help="the description, a JSON file")
    parser.add_argument("trace", help="the trace; - is standard input")
    parser.add_argument("--csv", action="store_true", help="comma-separated values, one row for each fact")
    return parser.parse_args()


def as_text(found: list[Row]) -> str:
    """The tables one below the other, with aligned columns."""
    tables = {name: list(held) for name, held in groupby(found, key=lambda row: row.table)}
    lines = []
    for name in TABLES:
        lines.append(name)
        cells = [(" ".join(part for part in (row.where, row.what) if part), str(row.count), row.note) for row in tables.get(name, [])]
        left, right = (max((len(cell[at]) for cell in cells), default=0) for at in (0, 1))
        gap = " " if name == FILLS else "  "
        lines += [f"  {what:<{left}}  {count:>{right}}{gap}{note}".rstrip() for what, count, note in cells] or ["  none"]
    return "\n".join(lines) + "\n"


def write_csv(found: list[Row]) -> None:
    writer = csv.writer(sys.stdout, lineterminator="\n")
    writer.writerow(("table", "where", "what", "count", "note"))
    writer.writerows((row.table, row.where, row.what, row.count, row.note) for row in found)


def work() -> int:
    words = arguments()
    layout = read_layout(words.description)
    trace = read_own_trace(words.trace, layout.plan)
    try:
        found = list(rows(sums_of(trace, layout.plan), layout.instances))
    except Unfitting as error:
        raise Unfit(f"{words.trace}:{error}; tools/explain.py --trace says more, if the program is there") from error
    if words.csv:
        write_csv(found)
    else:
        sys.stdout.write(as_text(found))
    return 0


if __name__ == "__main__":
    end_with("summary.py", work)
