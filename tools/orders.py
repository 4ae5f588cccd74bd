#!/usr/bin/env python3
"""Says whether what the environment sees depends on the order of the cores.

    tools/orders.py DESCRIPTION SCRIPT [--runs N] [--seed S] [--keep FOLDER]

Runs the script in many orders of the cores: first in that of their numbers, then in orders by chance. What the environment sees is the
lines `env ..` of the trace but for ticks, and `unsettled`. Orders that give the same are one outcome. Of two outcomes the first line that
the environment sees otherwise is told, and the first line in which they part at all, which often is the cause.

The runs are made here, apart from the program, and nothing is proved of them. If the program is there (the variable RTE names it, or it
is built), it checks one trace of each outcome. More runs may find more outcomes; that there is one only is not shown by any number.
Ctrl-C ends the runs, and what was found so far is told.

The status is 0 if all orders give the same, 1 if they do not, 2 if a file is not read or is not what it should be, and 3 if the program
refuses the description, the script or a trace.
"""

from __future__ import annotations

import argparse
import subprocess
import sys
import tempfile
import time
from pathlib import Path

from rte_tools.bus_plan import BusPlan
from rte_tools.differing import difference
from rte_tools.ending import end_with
from rte_tools.files import built_program
from rte_tools.prepared import read_layout, read_script
from rte_tools.shuffling import Outcome, Tried, parting, try_orders
from rte_tools.trace import read_trace

RUNS = 300
MOST_RUNS = 1_000_000
MOST_LISTED, MOST_COMPARED = 10, 4  # outcomes
PATIENCE = 2.0  # seconds without a word


def arguments() -> argparse.Namespace:
    parser = argparse.ArgumentParser(description=__doc__, formatter_class=argparse.RawDescriptionHelpFormatter)
    parser.add_argument("description", help="the description, a JSON file")
    parser.add_argument("script", help="the script")
    parser.add_argument("--runs", type=number_of_runs, default=RUNS, metavar="N", help=f"how many orders; {RUNS} without it")
    parser.add_argument("--seed", type=int, default=1, metavar="S", help="where the chance begins; 1 without it")
    parser.add_argument("--keep", metavar="FOLDER", help="write a trace of each outcome here: outcome1.txt, outcome2.txt, ..")
    return parser.parse_args()


def number_of_runs(text: str) -> int:
    if not text.isascii() or not text.isdigit() or not 1 <= int(text) <= MOST_RUNS:
        raise argparse.ArgumentTypeError(f"{text} is no number from 1 to {MOST_RUNS:,}")
    return int(text)


class Progress:
    """Says on standard error how far long work is."""

    def __init__(self, runs: int):
        self.runs, self.begun = runs, time.monotonic()
        self.told = self.begun

    def tell(self, tried: Tried) -> None:
        now = time.monotonic()
        if now - self.told >= PATIENCE and tried.runs < self.runs:
            self.told = now
            found = counted(len(tried.outcomes), "outcome")
            print(f"orders.py: {tried.runs:,} of {self.runs:,} orders, {found}, {now - self.begun:.0f} s", file=sys.stderr)


def counted(number: int, what: str) -> str:
    return f"{number:,} {what}{'' if number == 1 else 's'}"


# ---- what is said


def told(tried: Tried, plan: BusPlan) -> list[str]:
    """The outcomes, and where each parts from the first one."""
    lines = [f"{counted(tried.runs, 'order')} of the cores, {counted(len(tried.outcomes), 'outcome')}"]
    if len(tried.outcomes) == 1:
        return lines
    for number, outcome in enumerate(tried.outcomes[:MOST_LISTED], 1):
        lines.append(f"outcome {number}: {counted(tried.counts[outcome.seen], 'order')}, the first of them order {outcome.first}")
    if len(tried.outcomes) > MOST_LISTED:
        lines.append(f"and {counted(len(tried.outcomes) - MOST_LISTED, 'outcome')} more")
    for number, outcome in enumerate(tried.outcomes[1:MOST_COMPARED], 2):
        lines += compared(tried.outcomes[0], outcome, number, plan)
    return lines


def compared(first: Outcome, outcome: Outcome, number: int, plan: BusPlan) -> list[str]:
    """Where an outcome parts from the first one."""
    (mine, my_text), (theirs, their_text) = parting(first, outcome)
    lines = [f"outcomes 1 and {number}: the environment sees", shown(1, mine, my_text), shown(number, theirs, their_text)]
    found = difference(read_trace(first.trace.splitlines()), read_trace(outcome.trace.splitlines()), plan)
    pair = [line for line in (found.one, found.other) if line] if found else []
    if found and not any(line.number in (mine, theirs) for line in pair):
        lines.append(f"  they part at {found.where}")
        lines.append(shown(1, found.one.number, found.one.text) if found.one else shown(1, 0, ""))
        lines.append(shown(number, found.other.number, found.other.text) if found.other else shown(number, 0, ""))
    return lines


def shown(outcome: int, line: int, text: str) -> str:
    return f"    {outcome}, line {line}: {text}" if line else f"    {outcome}: nothing more"


# ---- traces and their check


def keep(tried: Tried, folder: Path) -> list[Path]:
    """Writes the traces that are kept."""
    paths = []
    for number, outcome in enumerate(tried.outcomes, 1):
        if outcome.trace:
            paths.append(folder / f"outcome{number}.txt")
            paths[-1].write_text(outcome.trace, encoding="utf-8")
    return paths


def check(checker: str, description: str, script: str, traces: list[Path]) -> list[str]:
    """What the program says of each trace, if it is not that it is legal."""
    said = []
    for trace in traces:
        words = [checker, "check", description, str(trace), script]
        verdict = subprocess.run(words, stdout=subprocess.PIPE, check=False).stdout.decode("utf-8", "replace").strip()
        if verdict != "legal":
            said.append(f"{trace.name}: the program says: {verdict or 'nothing'}")
    return said


def kept_and_checked(tried: Tried, words: argparse.Namespace, folder: Path) -> int:
    """Writes the traces, lets the program check them, and says what it says."""
    paths = keep(tried, folder)
    checker = built_program()
    refused = check(checker, words.description, words.script, paths) if checker else []
    for line in refused:
        print(line)
    if words.keep:
        print(f"kept in {folder}: {paths[0].name}{f' to {paths[-1].name}' if len(paths) > 1 else ''}")
    if not checker:
        print("not checked: the program is not there")
    elif not refused:
        print(f"checked by the program: {counted(len(paths), 'trace')}, legal")
    return 3 if refused else 0


def work() -> int:
    words = arguments()
    layout = read_layout(words.description)
    script = read_script(words.script, layout.plan)
    if words.keep:
        Path(words.keep).mkdir(parents=True, exist_ok=True)
    runs = words.runs if len(layout.tasks) > 1 else 1
    tried = try_orders(layout, script, runs, words.seed, Progress(runs).tell)
    print("\n".join(told(tried, layout.plan)), flush=True)
    if words.keep:
        refused = kept_and_checked(tried, words, Path(words.keep))
    else:
        with tempfile.TemporaryDirectory() as folder:
            refused = kept_and_checked(tried, words, Path(folder))
    return refused or (1 if len(tried.outcomes) > 1 else 0)


if __name__ == "__main__":
    end_with("orders.py", work)
