#!/usr/bin/env python3
"""Says where words stand in the crates, so where a change like an earlier one has to be made.

    tools/dev/where.py WORD ..          each file, with how many lines name one of the words
    tools/dev/where.py --crates WORD .. each crate alone

It looks at whole words in `src`, `specs` and `proofs` of each crate, in the order of crates.txt: what a crate stands on comes before it. The
lists of what a file uses (`use ..`) don't count, and neither does a module's list of its files. The last line has the sums. The status is 1
if no file names one.
"""

# flake8: noqa: E402
from __future__ import annotations

import argparse
import re
import sys
from pathlib import Path

sys.path.insert(0, str(Path(__file__).resolve().parents[1]))

from rte_tools.crate_list import built_crates

TOP = Path(__file__).resolve().parents[2]
PARTS = ("specs", "src", "proofs")
LISTS = re.compile(r"^(?:pub |ghost )*(?:use|mod) ")


def named(path: Path, words: re.Pattern[str]) -> int:
    """How many lines of a file name one of the words."""
    lines = path.read_text(encoding="utf-8").splitlines()
    return sum(1 for line in lines if words.search(line) and not LISTS.match(line))


def files_of(crate: str) -> list[Path]:
    return [path for part in PARTS for path in sorted((TOP / "crates" / crate / part).rglob("*.*t")) if path.suffix in (".rt", ".antt")]


def main() -> int:
    parser = argparse.ArgumentParser(description=__doc__, formatter_class=argparse.RawDescriptionHelpFormatter)
    parser.add_argument("--crates", action="store_true", help="print crates and not files")
    parser.add_argument("words", nargs="+", metavar="WORD")
    given = parser.parse_args()
    words = re.compile(r"(?<![\w'-])(?:" + "|".join(map(re.escape, given.words)) + r")(?![\w'-])")
    files = crates = few = 0
    for crate in built_crates(TOP):
        found = [(path, count) for path in files_of(crate) if (count := named(path, words))]
        if given.crates and found:
            print(f"{len(found):4} {crate}")
        for path, count in found if not given.crates else []:
            print(f"{count:4} {path.relative_to(TOP)}")
        files, crates, few = files + len(found), crates + bool(found), few + sum(count < 3 for _, count in found)
    print(f"{files} files of {crates} crates, {few} of which name it once or twice")
    return 0 if files else 1


if __name__ == "__main__":
    sys.exit(main())
