#!/usr/bin/env python3
"""Tries a tool that checks traces on the corpus.

    tools/corpus.py COMMAND..

For each case it runs COMMAND DESCRIPTION TRACE SCRIPT, and compares the one line that is printed and the status with the
verdict of the case. It prints the cases that differ, and how many there are. The cases run side by side; how far it is goes to
standard error, if that is a terminal.

The status is 0 if none differs, 1 if one does, and 2 if COMMAND cannot be run.
"""

from __future__ import annotations

import argparse
import shutil
import subprocess
import sys
from concurrent.futures import ThreadPoolExecutor

from rte_tools.cases import Case, all_cases


def arguments() -> argparse.Namespace:
    parser = argparse.ArgumentParser(description=__doc__, formatter_class=argparse.RawDescriptionHelpFormatter)
    parser.add_argument("command", nargs="+", metavar="COMMAND", help="the tool, with the words before the three files")
    return parser.parse_args()


def difference(command: list[str], case: Case) -> str:
    """What the tool says of the case, if that is not the verdict; else nothing."""
    words = [*command, str(case.description), str(case.trace), str(case.script)]
    ended = subprocess.run(words, capture_output=True, check=False)
    if ended.stdout == f"{case.verdict}\n".encode() and ended.returncode == case.status:
        return ""
    said = ended.stdout.decode("utf-8", errors="replace").rstrip("\n")
    return f"`{said}`, status {ended.returncode}, in place of `{case.verdict}`, status {case.status}"


CLEARED = "\r\x1b[K"  # the line of a terminal, empty again


def tell(done: int, of: int) -> None:
    """Writes over the line that says how far it is, and clears it at the end."""
    if sys.stderr.isatty():
        print(f"{CLEARED}{done} of {of} cases" if done < of else CLEARED, end="", file=sys.stderr, flush=True)


def differences(command: list[str], cases: list[Case]) -> list[str]:
    """A line for each case of which the tool says something else, in the order of the cases."""
    found = []
    with ThreadPoolExecutor() as pool:
        for number, said in enumerate(pool.map(lambda case: difference(command, case), cases)):
            tell(number + 1, len(cases))
            if said:
                found.append(f"{cases[number].name}: {said}")
    return found


def main() -> int:
    words = arguments()
    if not shutil.which(words.command[0]):
        print(f"corpus.py: cannot run {words.command[0]}: there is no such command", file=sys.stderr)
        return 2
    cases = all_cases()
    found = differences(words.command, cases)
    for line in found:
        print(line)
    print(f"{len(cases)} cases, {len(found)} differ")
    return 1 if found else 0


if __name__ == "__main__":
    sys.exit(main())
