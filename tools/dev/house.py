#!/usr/bin/env python3
"""Counts what the house has, and what of it is not as CONTRIBUTING wants it.

    tools/dev/house.py                prints each count beside the most that it may be
    tools/dev/house.py --where NAME   says where what is counted stands, of the counts whose names have this in them
    tools/dev/house.py --keep         lowers each figure of tools/dev/house.txt that is greater than the count

The most that each count may be stands in tools/dev/house.txt. Figures of sizes (crates, files, lines) leave room to grow; all others are
what was counted when they were last kept. To raise one is an edit of that file, which a reviewer sees. Sources, definitions and proofs are
read; nothing is proved. A lemma that no file names may still be found by the prover itself, so these two counts are no list of what can go.

The status is 0 if no count is greater than its figure, 1 if one is, and 2 if there are no figures.
"""

# flake8: noqa: E402
from __future__ import annotations

import argparse
import re
import sys
from pathlib import Path

sys.path.insert(0, str(Path(__file__).resolve().parents[1]))

from rte_tools.house import Count, counts, kept_figures, worse

TOP = Path(__file__).resolve().parents[2]
FIGURES = Path(__file__).with_name("house.txt")
SIZES = ("crates", "files", "lines")


def show(found: dict[str, Count], kept: dict[str, int]) -> None:
    """The counts in a column, each with its figure; what is greater is marked."""
    for name, count in found.items():
        figure = f"{kept[name]:>9,}" if name in kept else f"{'none':>9}"
        print(f"{count.number:>9,} of {figure}  {name}{'  WORSE' if name in worse(found, kept) else ''}")


def keep(found: dict[str, Count], text: str) -> str:
    """The figures with those lowered that are greater than their counts; sizes stay."""

    def lowered(line: re.Match[str]) -> str:
        name, figure = line.group(1), int(line.group(2).replace(",", ""))
        lower = name in found and name not in SIZES and found[name].number < figure
        return f"{name}: {found[name].number:,}" if lower else line.group()

    return re.sub(r"^([^#\n]+?): *([\d,]+)$", lowered, text, flags=re.MULTILINE)


def main() -> int:
    parser = argparse.ArgumentParser(description=__doc__, formatter_class=argparse.RawDescriptionHelpFormatter)
    parser.add_argument("--where", metavar="NAME", help="say where what is counted stands")
    parser.add_argument("--keep", action="store_true", help="lower the figures that are greater than what is counted")
    words = parser.parse_args()
    try:
        text = FIGURES.read_text(encoding="utf-8")
    except OSError as error:
        print(f"house.py: {FIGURES.name}: {error.strerror}", file=sys.stderr)
        return 2
    found = counts(TOP)
    if words.where:
        print("\n".join(place for name, count in found.items() if words.where in name for place in count.places))
        return 0
    if words.keep:
        text = keep(found, text)
        FIGURES.write_text(text, encoding="utf-8")
    show(found, kept_figures(text))
    return 1 if worse(found, kept_figures(text)) else 0


if __name__ == "__main__":
    sys.exit(main())
