#!/usr/bin/env python3
"""Runs `rt ci` and says what each task of it cost, as a table in Markdown.

usage: tools/dev/gate_times.py [--table FILE] [WORD ...]      (the words go to `rt ci`: `--anew`, or names of crates)
       tools/dev/gate_times.py --beside PID [--table FILE]    (looks at what a process begins, until that or this one is ended)

The log of `rt ci` passes through to standard output. At the end, or when it is interrupted, the table is written:
for each crate the processor seconds of its proof, of its tests and of its must-fail edits, and the time from the first
to the last of these. It is read from /proc, five times a second (twice beside a process), so a figure may be short by a fifth (a half) of a
second for each check. Only what this machine ran is counted: what `rt ci` kept from earlier runs costs nothing. Linux alone.
Ends with the status of `rt ci`, and with 127 if `rt` is not found. `.ci/run` has it look beside the gate, and prints the table.
"""
import argparse
import collections
import os
import signal
import subprocess
import sys
import threading
import time
from dataclasses import dataclass, field
from pathlib import Path

TICKS = os.sysconf("SC_CLK_TCK")
TOP = Path(__file__).resolve().parents[2]
PAUSE = 0.2  # seconds between two looks
PAUSE_BESIDE = 0.5


@dataclass
class Task:
    """What one task cost so far: seconds of the processor, by the process that began it, and when it was seen."""

    seconds: dict[int, float] = field(default_factory=dict)
    first: float = 0.0
    last: float = 0.0

    def see(self, pid: int, seconds: float, now: float) -> None:
        self.seconds[pid] = max(seconds, self.seconds.get(pid, 0.0))
        self.first = self.first or now
        self.last = now

    def total(self) -> float:
        return sum(self.seconds.values())


@dataclass
class Process:
    """A process as /proc shows it: its parent, and the seconds of itself and of its ended children."""

    parent: int
    seconds: float


def processes() -> dict[int, Process]:
    """All processes that are there now, by their numbers."""
    found = {}
    for name in os.listdir("/proc"):
        if not name.isdigit():
            continue
        try:
            text = Path(f"/proc/{name}/stat").read_text()
        except OSError:
            continue
        fields = text[text.rindex(")") + 2 :].split()
        found[int(name)] = Process(int(fields[1]), sum(map(int, fields[11:15])) / TICKS)
    return found


def words_of(pid: int) -> list[str]:
    """The words of a process's command."""
    try:
        return Path(f"/proc/{pid}/cmdline").read_bytes().decode(errors="replace").split("\0")
    except OSError:
        return []


def task_of(pid: int) -> tuple[str, str] | None:
    """The crate and the kind of task that a check or a build of the prover belongs to."""
    words = words_of(pid)
    if not words or Path(words[0]).name != "rattle" or "--crate-name" not in words[:-1]:
        return None
    crate = words[words.index("--crate-name") + 1]
    try:
        folder = os.readlink(f"/proc/{pid}/cwd")
    except OSError:
        return None
    if "/rt-edit-" in folder:
        return crate, "edits"
    return crate, "tests" if "--test" in words else "proof"


def below(root: int, found: dict[int, Process]) -> list[int]:
    """A process and those that it began, and so on."""
    children = collections.defaultdict(list)
    for pid, process in found.items():
        children[process.parent].append(pid)
    listed = [root]
    for pid in listed:
        listed += children[pid]
    return listed


def look(root: int, tasks: dict[tuple[str, str], Task]) -> None:
    """Adds to each task what its processes below the root have cost by now."""
    found, now, counted = processes(), time.time(), set()
    for pid in below(root, found):
        if pid in counted or (task := task_of(pid)) is None:
            continue
        whole = [it for it in below(pid, found) if it in found]
        counted.update(whole)
        tasks[task].see(pid, sum(found[it].seconds for it in whole), now)


def lines_of(crate: str) -> int:
    """The lines of a crate's sources, definitions and proofs."""
    folder = TOP / "crates" / crate
    files = [it for part in ("src", "specs", "proofs") for it in (folder / part).rglob("*.*t")]
    return sum(it.read_bytes().count(b"\n") for it in files)


def table(tasks: dict[tuple[str, str], Task], begun: float, status: int | None) -> str:
    """The costs by crate, the dearest first, and their sums."""
    if not tasks:
        return "Nothing was proved, tested or tried: all was kept from earlier runs of the same files.\n"
    kinds = ("proof", "tests", "edits")
    crates = sorted({crate for crate, _ in tasks}, key=lambda it: -sum(tasks[it, k].total() for k in kinds if (it, k) in tasks))
    rows = ["| Crate | Lines | Proof | Tests | Edits | Seconds | Seconds for 1,000 lines | Ended after |", "|---|---|---|---|---|---|---|---|"]
    sums = dict.fromkeys(kinds, 0.0)
    for crate in crates:
        costs = {kind: tasks[crate, kind].total() if (crate, kind) in tasks else 0.0 for kind in kinds}
        for kind in kinds:
            sums[kind] += costs[kind]
        lines, whole = lines_of(crate), sum(costs.values())
        ended = max(tasks[crate, kind].last for kind in kinds if (crate, kind) in tasks) - begun
        cells = [f"{costs[kind]:.0f}" if costs[kind] else "" for kind in kinds]
        rows.append(f"| `{crate}` | {lines:,} | {' | '.join(cells)} | {whole:.0f} | {1000 * whole / max(lines, 1):.0f} | {ended / 60:.0f} min |")
    whole = sum(sums.values())
    rows.append(f"| all | | {' | '.join(f'{sums[kind]:.0f}' for kind in kinds)} | {whole:.0f} | | {(time.time() - begun) / 60:.0f} min |")
    ended = "" if status is None else f" Status of `rt ci`: {status}."
    rows.append(f"\nProcessor minutes: {whole / 60:.0f}. Processors: {os.cpu_count()}.{ended}")
    return "\n".join(rows) + "\n"


def beside(root: int, path: Path) -> int:
    """Looks at what a process begins until it is over, or until this one is told to end; then the table is written."""
    tasks: dict[tuple[str, str], Task] = collections.defaultdict(Task)
    begun = time.time()
    signal.signal(signal.SIGTERM, lambda *_: sys.exit(0))
    try:
        while Path(f"/proc/{root}").exists():
            look(root, tasks)
            time.sleep(PAUSE_BESIDE)
    finally:
        path.write_text(table(tasks, begun, None))
    return 0


def main() -> int:
    parser = argparse.ArgumentParser(description=__doc__, formatter_class=argparse.RawDescriptionHelpFormatter)
    parser.add_argument("--table", type=Path, default=Path("gate_times.md"), help="where the table goes (gate_times.md)")
    parser.add_argument("--beside", type=int, metavar="PID", help="look at what this process begins, and run nothing")
    given, words = parser.parse_known_args()
    if given.beside:
        return beside(given.beside, given.table)
    tasks: dict[tuple[str, str], Task] = collections.defaultdict(Task)
    begun = time.time()
    try:
        gate = subprocess.Popen(["rt", "ci", *words], stdout=subprocess.PIPE, stderr=subprocess.STDOUT)
    except OSError as error:
        print(f"gate_times.py: `rt` is not run: {error.strerror}", file=sys.stderr)
        return 127

    def pass_on() -> None:
        for line in gate.stdout:
            minutes = (time.time() - begun) / 60
            sys.stdout.write(f"{minutes:7.2f} {line.decode(errors='replace')}" if line.startswith(b"rt:") else line.decode(errors="replace"))
            sys.stdout.flush()

    reader = threading.Thread(target=pass_on)
    reader.start()
    written = begun
    try:
        while gate.poll() is None:
            look(gate.pid, tasks)
            if time.time() - written > 30:
                given.table.write_text(table(tasks, begun, None))
                written = time.time()
            time.sleep(PAUSE)
    finally:
        reader.join()
        given.table.write_text(table(tasks, begun, gate.returncode))
    return gate.returncode


if __name__ == "__main__":
    sys.exit(main())
