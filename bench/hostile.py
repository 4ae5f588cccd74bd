#!/usr/bin/env python3
"""Runs the program on each file of `make_hostile.py`, and fails if one takes too long or too much memory.

    hostile.py [--mebibytes M] [--slower T] [CASE ..]

Descriptions are given to `plan`, scripts to `run` and traces to `check`, these two over the example `door_control`. For each case a line
says the MiB of the file, the seconds of the processor, the peak of memory in MiB, and what the program said first.

A file of 8 MiB, which is usual here, may take 3 seconds of a processor and 512 MiB. A smaller one may take as large a part of these as it
has of 8 MiB, and what any run may take besides, 0.1 seconds and 32 MiB. A case that takes more than half of its part is tried with a
file four times as large, up to 8 MiB. So a walk that is quadratic, and would take half a minute or more with 8 MiB, is seen at once with
`--mebibytes 0.25`, which takes some seconds. On a machine that is T times slower all may take T times as many seconds.

Of some cases it is known that they take more than they may with 8 MiB. That is said of each, and why. They fail with files of 8 MiB, and
with smaller ones, of which they get a quarter, they do not. One that takes no more than it may with 8 MiB fails too, so that it is no longer called known.

The program is the one that the variable RTE names, or the one that was built. The status is 0 if no case takes more than it may, 1 if one
does, and 2 if they cannot be run here.
"""

import argparse
import os
import platform
import resource
import subprocess
import sys
import tempfile
from collections import namedtuple
from pathlib import Path

import make_hostile
from make_hostile import CASES, SCRIPTS, TRACES

TOP = Path(__file__).resolve().parents[1]
BUILT = TOP / "crates" / "rte" / "out" / "rte"
OVER = TOP / "crates" / "worked_rows" / "data" / "examples" / "door_control"
NAMED = {case.__name__: case for case in CASES + SCRIPTS + TRACES}
WHOLE = 8  # MiB
SECONDS, MEMORY = 3, 512
LEAST_SECONDS, LEAST_MEMORY = 0.1, 32
CUT_SECONDS, CUT_MEMORY = 30, 2048  # what no run gets: it ends by a signal, or out of memory

KNOWN = {
    "runnables_inside": "each runnable of each instance has a record in the plan",
    "lists_inside": "each coherent list of each instance has a record in the plan",
    "lists": "each list of a JSON text takes memory of its own",
    "objects": "each object of a JSON text takes memory of its own",
}

Measured = namedtuple("Measured", "mebibytes seconds memory status said")


def words_of(case, file):
    """The words with which the program is given the case's file."""
    if case in SCRIPTS:
        return ["run", OVER / "description.json", file]
    if case in TRACES:
        return ["check", OVER / "description.json", file, OVER / "script.txt"]
    return ["plan", file]


def hold_back():
    resource.setrlimit(resource.RLIMIT_AS, (CUT_MEMORY << 20, CUT_MEMORY << 20))
    resource.setrlimit(resource.RLIMIT_CPU, (CUT_SECONDS, CUT_SECONDS))


def run(words, told):
    """Runs the program: its status, its seconds of the processor and its peak of memory in MiB."""
    with open(told, "wb") as out:
        child = subprocess.Popen(words, stdout=out, preexec_fn=hold_back)
        _, status, used = os.wait4(child.pid, 0)
    child.returncode = os.waitstatus_to_exitcode(status)
    # The peak is at least that of this program, some 12 MiB. So another one makes the files.
    return child.returncode, used.ru_utime + used.ru_stime, used.ru_maxrss / 1024


def measured(program, case, mebibytes, folder):
    """Makes the case's file and runs the program on it; of a small file the least of three runs counts."""
    file, told = folder / case.__name__, folder / "told"
    with open(file, "wb") as out:
        subprocess.run([sys.executable, make_hostile.__file__, case.__name__, str(mebibytes)], stdout=out, check=True)
    words = [program, *words_of(case, file)]
    times = 3 if mebibytes < 1 and case.__name__ not in KNOWN else 1
    status, seconds, memory = min((run(words, told) for _ in range(times)), key=lambda ended: ended[1])
    with open(told, "rb") as out:
        said = out.read(60).partition(b"\n")[0].decode(errors="replace")
    size = file.stat().st_size / 1048576
    file.unlink()
    return Measured(size, seconds, memory, status, said)


def takes_too_much(took, slower):
    """Whether a run took more than it may, or ended as no run may that has memory and a file."""
    part = took.mebibytes / WHOLE
    least_seconds, least_memory = (LEAST_SECONDS, LEAST_MEMORY) if took.mebibytes < WHOLE / 2 else (0, 0)
    much = took.seconds > slower * (least_seconds + part * SECONDS) or took.memory > least_memory + part * MEMORY
    return much or took.status not in (0, 1, 5, 6)


def is_to_be_tried_larger(took, slower):
    return took.seconds > slower * took.mebibytes / WHOLE * SECONDS / 2 or took.memory > (LEAST_MEMORY + took.mebibytes / WHOLE * MEMORY) / 2


def show(case, took, remark):
    name, said = case.__name__, f"status {took.status}: {took.said}"
    print(f"{name:18} {took.mebibytes:5.2f} MiB {took.seconds:6.2f} s {took.memory:7.0f} MiB  {said}{remark}", flush=True)


def remark_on_known(known, mebibytes, much):
    """What is said of a case of which it is known that it takes more than it may with 8 MiB."""
    if mebibytes < WHOLE:
        return f"  known to take too much with {WHOLE} MiB: {known}"
    return f"  TOO MUCH, as is known: {known}" if much else "  NO LONGER TO BE CALLED KNOWN"


def is_wrong(program, case, mebibytes, slower, folder):
    """Runs a case, shows it, and says whether it is not as it should be."""
    known = KNOWN.get(case.__name__)
    if known is not None and mebibytes < WHOLE:
        mebibytes /= 4
    while True:
        took = measured(program, case, mebibytes, folder)
        much = takes_too_much(took, slower)
        if known is not None:
            show(case, took, remark_on_known(known, mebibytes, much))
            return mebibytes == WHOLE
        show(case, took, "  TOO MUCH" if much else "")
        if much or mebibytes >= WHOLE or not is_to_be_tried_larger(took, slower):
            return much
        mebibytes = min(WHOLE, 4 * mebibytes)


def machine():
    """The machine, as results have to name it."""
    named = platform.processor() or platform.machine()
    try:
        with open("/proc/cpuinfo", encoding="utf-8") as lines:
            named = next((line.partition(":")[2].strip() for line in lines if line.startswith("model name")), named)
    except OSError:
        pass
    memory = os.sysconf("SC_PAGE_SIZE") * os.sysconf("SC_PHYS_PAGES") / (1 << 30)
    return f"{os.cpu_count()} processors ({named}), {memory:.0f} GiB of memory, load {os.getloadavg()[0]:.1f}"


def arguments():
    parser = argparse.ArgumentParser(description=__doc__, formatter_class=argparse.RawDescriptionHelpFormatter)
    parser.add_argument("case", nargs="*", metavar="CASE", help="a case of make_hostile.py; all if none is named")
    parser.add_argument("--mebibytes", type=float, default=WHOLE, metavar="M", help="the size of the files, 8 if none is given")
    parser.add_argument("--slower", type=float, default=1, metavar="T", help="how much slower this machine may be, 1 if none is given")
    parser.add_argument("--program", default=os.environ.get("RTE", str(BUILT)), help="the program; otherwise RTE names it, or it is what was built")
    words = parser.parse_args()
    for name in words.case:
        if name not in NAMED:
            parser.error(f"there is no case {name}; there are {', '.join(NAMED)}")
    if not 0 < words.mebibytes <= WHOLE:
        parser.error(f"a file has more than 0 and at most {WHOLE} MiB")
    return words


def main():
    words = arguments()
    if not os.access(words.program, os.X_OK):
        print(f"hostile.py: there is no program {words.program}", file=sys.stderr)
        return 2
    print(machine())
    cases = [NAMED[name] for name in words.case or NAMED]
    with tempfile.TemporaryDirectory() as held:
        wrong = [case.__name__ for case in cases if is_wrong(words.program, case, words.mebibytes, words.slower, Path(held))]
    print(f"{len(cases)} cases, {len(wrong)} not as they should be{': ' if wrong else ''}{', '.join(wrong)}")
    return 1 if wrong else 0


if __name__ == "__main__":
    sys.exit(main())
