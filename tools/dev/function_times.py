#!/usr/bin/env python3
"""Says what each function of a crate cost when it was last checked, the dearest first.

usage: tools/dev/function_times.py CRATE [COUNT] [--folder FOLDER]      (COUNT functions are listed, 30 if none is given)

The prover writes a file for each module as it ends, so the seconds since the file before are what the module took. That is true of
one whole check at one job, with nothing kept from before:

    rm -rf crates/CRATE/out/incremental; cd crates/CRATE && rt check --jobs 1

Each line says the seconds of a function, how many of them were spent on what it borrows and drops (`Lts`), on what the prover had to
find (`Proof`) and in its module `Tie`, and its path. Modules of lemmas stand between them, by their own names.

With --folder the modules are looked for in that folder: the one that `rattle check` was given as `--incremental`, or, while a build of the
gate runs, the one below the folder for temporary files in which it keeps them, `rattle-logic-built-locked-N-0`, where N is the number of its
process. So a run of the gate says of each crate what its functions cost, with no check of its own.

The status is 0 if it was said, and 1 if the crate was not checked here.
"""
import argparse
import collections
import re
import sys
from pathlib import Path

TOP = Path(__file__).resolve().parents[2]
MODULE = re.compile(r"Rattle-(?P<crate>\w+?)-(?P<library>specs|proofs)\.(?P<path>.+)\.oantt")
PARTS = ("Lts", "Proof", "Tie")


def modules(folder: Path) -> list[tuple[float, str, str]]:
    """When each module's file was written, its function, and which part of the function's proof it is."""
    found = []
    for file in folder.rglob("*.oantt"):
        named = MODULE.fullmatch(file.name)
        if named is None or file.parent.name == "records":
            continue
        function, _, part = named["path"].rpartition(".")
        if part.startswith("Lts"):
            part = "Lts"
        try:
            found.append((file.stat().st_mtime, function or part, part))
        except FileNotFoundError:  # the build has ended meanwhile
            continue
    return sorted(found)


def main() -> int:
    parser = argparse.ArgumentParser(description=__doc__, formatter_class=argparse.RawDescriptionHelpFormatter)
    parser.add_argument("crate")
    parser.add_argument("count", type=int, nargs="?", default=30)
    parser.add_argument("--folder", type=Path)
    given = parser.parse_args()
    folder = given.folder or TOP / "crates" / given.crate / "out" / "incremental"
    written = modules(folder)
    if not written:
        print(f"function_times: {given.crate} was not checked here: {folder} has no modules", file=sys.stderr)
        return 1
    whole, parts = collections.Counter(), collections.Counter()
    before = written[0][0]
    for when, function, part in written:
        whole[function] += when - before
        parts[function, part] += when - before
        before = when
    print(f"{before - written[0][0]:8.1f} seconds in all, {len(whole)} functions and files of lemmas")
    print(f"{'all':>8} " + " ".join(f"{part:>8}" for part in PARTS))
    for function, seconds in whole.most_common(given.count):
        print(f"{seconds:8.1f} " + " ".join(f"{parts[function, part]:8.1f}" for part in PARTS) + f" {function}")
    return 0


if __name__ == "__main__":
    sys.exit(main())
