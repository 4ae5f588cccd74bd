#!/usr/bin/env python3
"""Times the check of traces beside the runs that make them.

    check_loads.py [CASE [SIZE]]

A case is one of `loads.py`. Its trace is made as long as a file may be, 8 MiB, by a size that is found first; with a size, that one is
taken. For each case the seconds of the processor are printed of the run and of the check, what the check takes for 1 of the run, and
the peak of memory of the check in MiB. Then the same trace is checked with a fault: its header, its middle line or its last
one, all in one line, a line doubled, a run mark left out.
"""

import json
import pathlib
import sys
import tempfile

from loads import CASES, measured

LONGEST = 8_388_608  # bytes of a file
USUAL = ("chatter", "queue", "calls", "machines", "contention", "everything")


def faulty(trace):
    """The same trace with a fault, by what the fault is."""
    lines = trace.split(b"\n")
    middle = len(lines) // 2
    mark = len(lines) - 1 - lines[::-1].index(b"run")
    return {
        "header": b"rte-trace 9\n" + trace.partition(b"\n")[2],
        "middle": b"\n".join([*lines[:middle], b"x", *lines[middle + 1 :]]),
        "last": trace[:-1],
        "one line": trace.replace(b"\n", b" "),
        "doubled": b"\n".join([*lines[:middle], lines[middle], *lines[middle:]])[:LONGEST],
        "no mark": b"\n".join([*lines[:mark], *lines[mark + 1 :]]),
    }


def made(case, size, folder):
    """Writes the files of a case, runs it, and gives its seconds."""
    description, script = case(size)
    (folder / "description.json").write_text(json.dumps(description, separators=(",", ":")))
    (folder / "script.txt").write_text(script)
    files = [folder / "description.json", folder / "script.txt"]
    status, seconds, _ = measured(["run", *files], folder / "trace.txt", folder / "peak.txt")
    if status != 0:
        sys.exit(f"{case.__name__} {size} ended with {status}")
    return seconds


def fitting(case, folder):
    """The size whose trace is nearly as long as a file may be."""
    size = CASES[case]
    made(case, size, folder)
    size = size * LONGEST // (folder / "trace.txt").stat().st_size
    while True:
        made(case, size, folder)
        length = (folder / "trace.txt").stat().st_size
        if length <= LONGEST:
            return size
        size = min(size - 1, size * LONGEST // length)


def checked(folder, trace):
    """What the check says of a trace, its seconds and its peak."""
    files = [folder / "description.json", trace, folder / "script.txt"]
    _, seconds, peak = measured(["check", *files], folder / "verdict.txt", folder / "peak.txt")
    return (folder / "verdict.txt").read_text().strip(), seconds, peak


def run(case, size, folder):
    size = size or fitting(case, folder)
    seconds = made(case, size, folder)
    trace = (folder / "trace.txt").read_bytes()
    verdict, check_seconds, peak = checked(folder, folder / "trace.txt")
    memory = f" {peak:7.1f} MiB" if peak else ""
    print(f"{case.__name__:12} {size:6} {len(trace):9} bytes  run {seconds:6.2f} s  check {check_seconds:6.2f} s  {check_seconds / seconds:5.2f}{memory}  {verdict}")
    for fault, text in faulty(trace).items():
        (folder / "faulty.txt").write_bytes(text)
        verdict, check_seconds, _ = checked(folder, folder / "faulty.txt")
        print(f"    {fault:10} {check_seconds:6.2f} s  {verdict}")


def main():
    names = sys.argv[1:2] or USUAL
    for case in [held for held in CASES if held.__name__ in names]:
        with tempfile.TemporaryDirectory() as name:
            run(case, int(sys.argv[2]) if len(sys.argv) > 2 else None, pathlib.Path(name))


if __name__ == "__main__":
    main()
