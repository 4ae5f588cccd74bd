#!/usr/bin/env python3
"""Measures `plan`, `run` and `check` of descriptions in which very many instances share one long program.

    shared_programs.py [--program PROGRAM] [--beside OTHER] [--times N] [--most MIB] [CASE ..]

The description is `one_writer` with so many instances of its writer, whose program has so many `set`s before its write. CASES below says how
many. The script is `tick 10` and `run`; `check` gets the trace that PROGRAM has run, or OTHER if PROGRAM could not. Each line is a row of a
table: the case, the command, the seconds of the processor and the peak of memory in MiB, each the least of N runs; with OTHER also its own,
and the memory for 1 of it. The peak is told by GNU `time`.

No run gets more memory than MIB, 4,096 if none is given; one that needs more ends with status 7, and its status is in the row.

PROGRAM is the one that the variable RTE names, or the one that was built. The status is 0 if all that was measured ended with status 0.
"""

import argparse
import json
import os
import pathlib
import resource
import shutil
import subprocess
import sys
import tempfile
from collections import namedtuple

TOP = pathlib.Path(__file__).resolve().parent.parent
BUILT = TOP / "crates" / "rte" / "out" / "rte"
BASE = TOP / "crates" / "worked_rows" / "data" / "examples" / "one_writer" / "description.json"
CASES = {"133 kB": (3_000, 1_000), "931 kB": (60_000, 1_000), "1 MiB": (74_900, 1_023)}  # `set`s, and instances beside the reader
SCRIPT = "tick 10\nrun\n"
COMMANDS = ("plan", "run", "check")

Measured = namedtuple("Measured", "seconds mebibytes status")


def described(sets, instances):
    """The description, as a text."""
    made = json.loads(BASE.read_text(encoding="utf-8"))
    writer = made["components"][0]["behavior"]["runnables"][0]
    writer["program"] = [["set", "x", 1]] * sets + writer["program"]
    more = [f"n{number}" for number in range(instances - 1)]
    made["compositions"][0]["prototypes"] += [{"shortName": name, "type": "W"} for name in more]
    made["mapping"]["events"] += [{"instance": name, "event": "E", "task": "T", "position": number} for number, name in enumerate(more, 2)]
    return json.dumps(made, separators=(",", ":"))


def words_of(command, folder, trace):
    description, script = folder / "description.json", folder / "script.txt"
    return {"plan": [description], "run": [description, script], "check": [description, trace, script]}[command]


def measured(program, command, words, told, peak, most):
    """Runs the program once. What it prints goes to the file `told`."""

    def hold_back():
        resource.setrlimit(resource.RLIMIT_AS, (most << 20, most << 20))

    clock = [shutil.which("time"), "--quiet", "--format=%U %S %M", f"--output={peak}"]
    with open(told, "wb") as out:
        status = subprocess.run([*clock, program, command, *words], stdout=out, check=False, preexec_fn=hold_back).returncode
    user, system, kibibytes = peak.read_text().split()[-3:]
    return Measured(float(user) + float(system), int(kibibytes) / 1024, status)


def least(runs):
    """The least seconds and the least memory of some runs, and the status of one that failed."""
    status = max(held.status for held in runs)
    return Measured(min(held.seconds for held in runs), min(held.mebibytes for held in runs), status)


def cells(took):
    ended = f", status {took.status}" if took.status else ""
    return f"{took.seconds:.2f} s, {took.mebibytes:.1f} MiB{ended}"


def measure_case(name, words, folder):
    """Prints the rows of a case; says whether all runs ended with status 0."""
    (folder / "description.json").write_text(described(*CASES[name]), encoding="utf-8")
    (folder / "script.txt").write_text(SCRIPT, encoding="utf-8")
    programs = [words.program, *([words.beside] if words.beside else [])]
    trace, is_made, is_well = folder / "trace.txt", False, True
    for command in COMMANDS:
        row = []
        for program in programs:
            if command == "check" and not is_made:
                continue
            told = folder / "told.txt"
            files = words_of(command, folder, trace)
            took = least([measured(program, command, files, told, folder / "peak.txt", words.most) for _ in range(words.times)])
            row.append(took)
            is_well = is_well and took.status == 0
            if command == "run" and took.status == 0 and not is_made:
                shutil.copy(told, trace)
                is_made = True
        ratio = f" | {row[0].mebibytes / row[1].mebibytes:.1f}" if len(row) > 1 else ""
        print(f"| {name} | `{command}` | {' | '.join(map(cells, row)) or 'no trace'}{ratio} |", flush=True)
    return is_well


def arguments():
    parser = argparse.ArgumentParser(description=__doc__, formatter_class=argparse.RawDescriptionHelpFormatter)
    parser.add_argument("case", nargs="*", metavar="CASE", help=f"all if none is named: {', '.join(CASES)}")
    parser.add_argument("--program", default=os.environ.get("RTE", str(BUILT)), help="the program; otherwise RTE names it, or it is what was built")
    parser.add_argument("--beside", metavar="OTHER", help="a program of the same words beside which it is measured")
    parser.add_argument("--times", type=int, default=3, metavar="N", help="how often each is run; 3 without it")
    parser.add_argument("--most", type=int, default=4096, metavar="MIB", help="the memory that a run may have; 4,096 without it")
    words = parser.parse_args()
    for name in words.case:
        if name not in CASES:
            parser.error(f"there is no case {name}; there are {', '.join(CASES)}")
    return words


def main():
    words = arguments()
    for program in (words.program, words.beside):
        if program and not os.access(program, os.X_OK):
            print(f"shared_programs.py: there is no program {program}", file=sys.stderr)
            return 2
    if not shutil.which("time"):
        print("shared_programs.py: there is no GNU time", file=sys.stderr)
        return 2
    head = ["Program", "Command", "Seconds and memory", *(["Beside", "Memory for 1"] if words.beside else [])]
    print(f"| {' | '.join(head)} |\n|{'---|' * len(head)}")
    with tempfile.TemporaryDirectory() as held:
        done = [measure_case(name, words, pathlib.Path(held)) for name in words.case or CASES]
    return 0 if all(done) else 1


if __name__ == "__main__":
    sys.exit(main())
