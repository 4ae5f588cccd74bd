#!/usr/bin/env python3
"""Counts the allocations of runs that differ only in how many entries a round makes.

    tools/dev/allocations.py [--program FILE]

A library that stands before the C library (tools/dev/count.c, built here by `cc` or the compiler that CC names) counts the calls of a
run that take memory: malloc, calloc, realloc, aligned ones and mmap, of all threads together. What the C library takes to begin a thread is
left out, since it keeps stacks of threads that ended and so takes more or less.

Each row of the table is a description with a task on each core, whose runnable writes so many times at each tick, and a script of ten
times `tick 1` and `run`. The descriptions of a row are equal but for that number. A write of a core is heard on no other, so each run
line has one round, which makes all, and a serial pass without an entry: as many rounds, threads and lists in each run. Only the entries
are more. So the numbers have to be equal: no call behind the opening of a round takes memory for an entry.

What is not compared: runs with more rounds, in which each one opens a table, and larger scripts and descriptions.

The program is the one that the variable RTE names, or the one that was built. The status is 0 if the numbers of each row are equal, 1 if
not, and 2 if it cannot be tried here.
"""

from __future__ import annotations

import argparse
import json
import os
import subprocess
import sys
import tempfile
from pathlib import Path

TOP = Path(__file__).resolve().parents[2]
BUILT = TOP / "crates" / "rte" / "out" / "rte"
CORES = (1, 2, 4, 8)
WRITES = (1, 10, 100, 1000)
RUNS = 10
DONE = 0


def component(writes: int) -> dict[str, object]:
    """A component whose runnable writes so many times at each tick."""
    return {
        "shortName": "Writer",
        "ports": [{"kind": "PPortPrototype", "shortName": "o", "interface": "I"}],
        "behavior": {
            "runnables": [{"shortName": "Write", "accesses": [["write", "o", "v"]], "program": [["repeat", writes, [["write", "o", "v", [1], "s"]]]]}],
            "events": [{"kind": "TimingEvent", "shortName": "T", "runnable": "Write", "period": 1}],
        },
    }


def description(cores: int, writes: int) -> dict[str, object]:
    """A writer on each core."""
    names = [f"w{core}" for core in range(cores)]
    return {
        "dataTypes": [{"shortName": "T", "baseType": "uint16", "lower": 0, "upper": 1000, "words": 1}],
        "interfaces": [
            {"kind": "SenderReceiverInterface", "shortName": "I", "dataElements": [{"shortName": "v", "type": "T", "swImplPolicy": "standard"}]}
        ],
        "components": [component(writes)],
        "compositions": [
            {"shortName": "Root", "prototypes": [{"shortName": name, "type": "Writer"} for name in names], "connectors": []},
        ],
        "root": "Root",
        "mapping": {
            "cores": cores,
            "tasks": [{"shortName": f"t{core}", "core": core} for core in range(cores)],
            "events": [{"instance": name, "event": "T", "task": f"t{core}", "position": 1} for core, name in enumerate(names)],
        },
    }


class Program:
    """The program, with the library before it."""

    def __init__(self, path: str, library: str, folder: Path) -> None:
        self.path = path
        self.library = library
        self.folder = folder

    def run(self, cores: int, writes: int) -> tuple[int, int]:
        """How many allocations a run makes, and how many lines it prints."""
        described = self.folder / "description.json"
        script = self.folder / "script.txt"
        described.write_text(json.dumps(description(cores, writes)))
        script.write_text("tick 1\nrun\n" * RUNS)
        with tempfile.TemporaryFile(dir=self.folder) as counted:
            ended = subprocess.run(
                [self.path, "run", str(described), str(script)], stdin=subprocess.DEVNULL, capture_output=True, check=False,
                env={**os.environ, "LD_PRELOAD": self.library, "COUNT_TO": str(counted.fileno())}, pass_fds=[counted.fileno()],
            )  # fmt: skip
            if ended.returncode != DONE:
                raise SystemExit(f"allocations: the run ended with status {ended.returncode}: {ended.stdout.decode()}")
            if ended.stdout.count(b"idle\n") != RUNS:
                raise SystemExit("allocations: a run line did not end at rest")
            counted.seek(0)
            return int.from_bytes(counted.read(), sys.byteorder), ended.stdout.count(b"\n")


def compiled(folder: Path) -> str:
    """The library, built in a folder."""
    library = folder / "count.so"
    words = [os.environ.get("CC", "cc"), "-O2", "-shared", "-fPIC", "-o", str(library), str(Path(__file__).with_name("count.c"))]
    subprocess.run(words, check=True, capture_output=True)
    return str(library)


def arguments() -> argparse.Namespace:
    parser = argparse.ArgumentParser(description=__doc__, formatter_class=argparse.RawDescriptionHelpFormatter)
    parser.add_argument("--program", default=os.environ.get("RTE", str(BUILT)), help="the program; otherwise RTE names it, or it is what was built")
    return parser.parse_args()


def main() -> int:
    words = arguments()
    if not os.access(words.program, os.X_OK):
        print(f"allocations: there is no program {words.program}", file=sys.stderr)
        return 2
    equal = True
    with tempfile.TemporaryDirectory() as held:
        try:
            program = Program(words.program, compiled(Path(held)), Path(held))
        except (OSError, subprocess.CalledProcessError) as error:
            print(f"allocations: count.c is not built: {error}", file=sys.stderr)
            return 2
        print(f"| Cores | {' | '.join(f'{writes} writes' for writes in WRITES)} |")
        print(f"|---{'|---' * len(WRITES)}|")
        for cores in CORES:
            runs = [program.run(cores, writes) for writes in WRITES]
            print(f"| {cores} | {' | '.join(f'{count} ({lines} lines)' for count, lines in runs)} |", flush=True)
            equal = equal and len({count for count, _ in runs}) == 1
    return 0 if equal else 1


if __name__ == "__main__":
    sys.exit(main())
