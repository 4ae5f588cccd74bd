#!/usr/bin/env python3
"""Looks whether what the documents name as proof exists: functions, clauses, definitions and files.

    tools/dev/claims.py [DOCUMENT ..]
    tools/dev/claims.py --page [CRATE ..]

With --page it prints what each public function of each crate promises, its docstring and the names of its clauses; of some
crates if they are named. Else, without a document, it reads README.md and, if it is there, docs/PROVED.md. It looks at

  - tables with the columns Function and Clauses (or Clause). The crates are those of a column Crate, or of the line
    above that begins with the name of a crate in backquotes. `f` is a function of these crates, `T::f` one of the type
    or trait T; behind `in` a file or another crate may stand. A clause has to stand in a contract of these functions.
    A name with a capital letter is a type or a definition. 'one each' and 'its one clause' ask for one clause.
  - tables with a column Clause alone, below a heading that names a function
  - sentences with 'clause `c` of `f`', and with '`f` of `crate`'
  - files in backquotes that end in .rt, .antt, .py, .sh, .md, .json or .txt

The status is 0 if all of it exists, 1 if something does not, and 2 if a document is not read.
"""

# flake8: noqa: E402
from __future__ import annotations

import argparse
import sys
from pathlib import Path
from typing import Iterable

sys.path.insert(0, str(Path(__file__).resolve().parents[1]))

from rte_tools.claim_page import page_of
from rte_tools.claims import Document
from rte_tools.contracts import crates_in
from rte_tools.files import Unfit, read_file

TOP = Path(__file__).resolve().parents[2]
DOCUMENTS = ("README.md", "docs/PROVED.md")


def main() -> int:
    parser = argparse.ArgumentParser(description=__doc__, formatter_class=argparse.RawDescriptionHelpFormatter)
    parser.add_argument("--page", action="store_true", help="print what each function promises; the words are names of crates")
    parser.add_argument("documents", nargs="*", help="the documents; README.md and docs/PROVED.md without any")
    words = parser.parse_args()
    return page(words.documents) if words.page else look_up(words.documents)


def page(names: list[str]) -> int:
    crates = crates_in(TOP / "crates")
    for name in names:
        if name not in crates:
            print(f"claims.py: there is no crate `{name}`", file=sys.stderr)
            return 2
    print(page_of([crates[name] for name in names or order(crates)]), end="")
    return 0


def order(crates: Iterable[str]) -> list[str]:
    """The crates as crates.txt lists them, each behind those that it stands on."""
    listed = [line.split(":")[0] for line in read_file(str(TOP / "crates.txt")).splitlines() if ":" in line]
    return [name for name in listed if name in crates]


def look_up(documents: list[str]) -> int:
    paths = [Path(path) for path in documents] or [TOP / name for name in DOCUMENTS if (TOP / name).exists()]
    try:
        texts = [read_file(str(path)) for path in paths]
    except Unfit as error:
        print(f"claims.py: {error}", file=sys.stderr)
        return 2
    crates = crates_in(TOP / "crates")
    wrong = checked = 0
    for path, text in zip(paths, texts):
        document = Document(TOP, crates, text)
        for number, message in document.check():
            print(f"{path}:{number}: {message}")
            wrong += 1
        checked += document.checked
    print(f"{checked} names looked up, {wrong} not found")
    return 1 if wrong else 0


if __name__ == "__main__":
    sys.exit(main())
