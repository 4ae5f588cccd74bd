#!/usr/bin/env python3
"""Counts the instructions of a line of the trace, and tells where they go.

    instructions.py [CASE ..]

A case is one of `loads.py`; without any the ones of the table in README.md are taken. Each is run twice under `valgrind
--tool=callgrind`: with a tenth of the lines of its script, and with two tenths. What the second run has more of, for each line that
its trace has more, is printed as a row of that table. So the reading of the description is not in it. These counts do not depend on
what else the machine does.

A function counts for the work of its crate. Where the compiler has joined functions, this is the work of the outer one. The program is
`crates/rte/out/rte`, or the one that the variable RTE names.
"""

import collections
import json
import os
import pathlib
import re
import subprocess
import sys
import tempfile

import loads

PROGRAM = os.environ.get("RTE", str(loads.TOP / "crates" / "rte" / "out" / "rte"))
SHOWN = ["chatter", "fan", "queue", "wide_queue", "calls", "outer"]

# The work of a function, by its name: the first row that fits.
WORK = {
    "copies": r"mem(cpy|move|set)_|__mem",
    "spelling": r"^(trace_text|itoa)::",
    "puts": r"^rte(::|_text::real)",
    "bodies": r"^(task_machine|runnable_lang)::",
    "wakes": r"^core_runtime::(waking|machines|waiting)",
    "acts": r"^(port_objects::acting|\w+_objects::|queued_ports|client_server|mode_machine|latches|tick_events)",
    "looks": r"^(core_turn|task_slots|place_set|port_objects|bus_semantics)::",
    "steps": r"^(core_runtime|script_run)::",
}
COLUMNS = ["looks", "acts", "bodies", "wakes", "steps", "spelling", "puts", "copies", "rest"]


def work_of(function):
    # A loop of calls has a name of its own for each round, as 'f'2.
    name = re.sub(r"'\d+$", "", function)
    return next((work for work, pattern in WORK.items() if re.search(pattern, name)), "rest")


def counted(profile):
    """The instructions of each work, of a profile of callgrind. Those of a function's calls count for what it calls."""
    names, counts = {}, collections.Counter()
    function, is_of_call = "", False
    for line in profile.read_text().splitlines():
        if named := re.match(r"(c?fn)=\((\d+)\)(?: (.*))?$", line):
            kind, number, name = named.groups()
            names.setdefault(number, name)
            function = function if kind == "cfn" else number
        elif line.startswith("calls="):
            is_of_call = True
        elif cost := re.match(r"[-+*\d]\S* (\d+)$", line):
            counts[function] += 0 if is_of_call else int(cost[1])
            is_of_call = False
    works = collections.Counter()
    for number, count in counts.items():
        works[work_of(names.get(number) or "")] += count
    return works


def run(folder, description, lines):
    """The lines of the trace, and the instructions of each work."""
    words = [folder / "description.json", folder / "script.txt"]
    words[0].write_text(json.dumps(description, separators=(",", ":")))
    words[1].write_text("".join(lines))
    profile = folder / "profile"
    watched = ["valgrind", "--tool=callgrind", f"--callgrind-out-file={profile}", PROGRAM, "run", *words]
    ended = subprocess.run(watched, stdout=subprocess.PIPE, stderr=subprocess.DEVNULL, check=False)
    if ended.returncode != 0:
        sys.exit(f"the program ended with {ended.returncode}: {ended.stdout[:200]!r}")
    return ended.stdout.count(b"\n"), counted(profile)


def row(name):
    case = getattr(loads, name)
    description, script = case(loads.CASES[case])
    lines = script.splitlines(keepends=True)
    tenth = max(2, len(lines) // 20 * 2)
    with tempfile.TemporaryDirectory() as made:
        folder = pathlib.Path(made)
        few, before = run(folder, description, lines[:tenth])
        many, after = run(folder, description, lines[: 2 * tenth])
    more = {work: (after[work] - before[work]) / (many - few) for work in COLUMNS}
    cells = [f"`{name}`", f"{sum(more.values()):,.0f}", *(f"{more[work]:,.0f}" for work in COLUMNS)]
    return "| " + " | ".join(cells) + " |"


def main():
    print("| Case | A line | " + " | ".join(COLUMNS) + " |")
    print("|" + "---|" * (len(COLUMNS) + 2))
    for name in sys.argv[1:] or SHOWN:
        print(row(name), flush=True)


if __name__ == "__main__":
    main()
