#!/usr/bin/env python3
"""Writes the tables that documents have of the list of crates, docs/crates.ini, and of what the gate cost.

    tools/dev/crates.py                 writes the tables
    tools/dev/crates.py --check         says which are not fresh, and which crates the list lacks; writes nothing
    tools/dev/crates.py --costs TABLE   first takes what a run of the gate cost from a table of tools/dev/gate_times.py

The tables are those of layers in docs/ARCHITECTURE.md, of claims in docs/PROVED.md, and of costs in docs/GATE.md, each between two
comments. The status is 0 if all is fresh (or was written), 1 if something is not, and 2 if a file is not read.
"""

# flake8: noqa: E402
from __future__ import annotations

import argparse
import csv
import re
import sys
from pathlib import Path

sys.path.insert(0, str(Path(__file__).resolve().parents[1]))

from rte_tools.crate_list import COSTS, fresh, misfits

TOP = Path(__file__).resolve().parents[2]
ROW = re.compile(r"^\| `(\w+)` \| ([\d,]+) \| (\d*) \| (\d*) \| (\d*) \|")


def take_costs(table: Path) -> None:
    """Keeps the rows of a table that `gate_times.py` wrote."""
    rows = [match.groups() for line in table.read_text(encoding="utf-8").splitlines() if (match := ROW.match(line))]
    with (TOP / COSTS).open("w", encoding="utf-8", newline="") as file:
        writer = csv.writer(file, lineterminator="\n")
        writer.writerow(("crate", "lines", "proof", "tests", "edits"))
        writer.writerows((name, lines.replace(",", ""), *seconds) for name, lines, *seconds in rows)


def main() -> int:
    parser = argparse.ArgumentParser(description=__doc__, formatter_class=argparse.RawDescriptionHelpFormatter)
    parser.add_argument("--check", action="store_true", help="write nothing, and say what is not fresh")
    parser.add_argument("--costs", type=Path, metavar="TABLE", help="a table of gate_times.py, from which to take what crates cost")
    words = parser.parse_args()
    try:
        if words.costs:
            take_costs(words.costs)
        wrong = misfits(TOP)
        for path, text in fresh(TOP).items():
            if path.read_text(encoding="utf-8") == text:
                continue
            if words.check:
                wrong.append(f"{path.relative_to(TOP)} has a table that is not fresh: run tools/dev/crates.py")
            else:
                path.write_text(text, encoding="utf-8")
    except (OSError, ValueError, TypeError) as error:
        print(f"crates.py: {error}", file=sys.stderr)
        return 2
    print("\n".join(wrong) or "the list and its tables are fresh")
    return 1 if wrong else 0


if __name__ == "__main__":
    sys.exit(main())
