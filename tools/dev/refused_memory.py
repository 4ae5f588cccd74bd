#!/usr/bin/env python3
"""Refuses memory to the program, reading, writing and threads: one call after the other, a run for each.

    tools/dev/refused_memory.py [--run NAME] [--call CALL] [--most N]

A library that stands before the C library (tools/dev/refuse.c, built here by `cc` or the compiler that CC names) counts the calls of
a run and refuses one. Numbers go up from 1 until nothing is refused at eight in a row: then each call of the run was refused once. (One
would be enough if no threads ran. If cores are on threads, a run makes a few calls more or fewer than another.) What is refused is an
allocation, an open, a read, a write or a thread; of a `short_read` and a `short_write` one byte is read or written.

A run without memory has to end with status 7, one that cannot read with 3, one that cannot write with 4. A run that manages without, as
one has to that gets no thread, has to end as it does when nothing is refused. What it printed has to be the beginning of the whole text,
or all of it. Where the cores of a node may take their turns in several orders, `check` says whether it is, and of a live node the tools do.

The program is the one that the variable RTE names, or the one that was built. What is wrong is printed, and then a table of how many
calls were refused.

The status is 0 if nothing is wrong, 1 if something is, and 2 if it cannot be tried here.
"""

from __future__ import annotations

import argparse
import json
import os
import subprocess
import sys
import tempfile
from collections import Counter
from dataclasses import dataclass
from pathlib import Path
from typing import IO

TOP = Path(__file__).resolve().parents[2]
sys.path.insert(0, str(TOP / "tools"))

from rte_tools.bus_plan import plan_of  # noqa: E402
from rte_tools.live import checked_live  # noqa: E402
from rte_tools.stimuli import feeds_of  # noqa: E402

BUILT = TOP / "crates" / "rte" / "out" / "rte"
DATA = TOP / "crates" / "worked_rows" / "data"
LONGEST = 60  # seconds that a run may take
PAST = 8  # so many numbers in a row at which nothing is refused are past the last call
DONE, NOT_READ, NOT_WRITTEN, TRACE_REFUSED, MEMORY = 0, 3, 4, 6, 7
CALLS = {
    "allocation": MEMORY, "open": NOT_READ, "read": NOT_READ, "write": NOT_WRITTEN, "thread": DONE, "short_read": DONE, "short_write": DONE,
}  # fmt: skip


@dataclass(frozen=True)
class Run:
    """A run of the program: its words, the folder of its session if its trace is one of several, and of a live node its stimuli."""

    name: str
    words: tuple[str, ...]
    session: Path | None = None
    stimuli: Path | None = None


@dataclass(frozen=True)
class Ended:
    """How a run ended, what it printed, and whether a call was refused."""

    status: int
    text: bytes
    refused: bool


def session(folder: Path) -> tuple[str, str]:
    return str(folder / "description.json"), str(folder / "script.txt")


def run_of(name: str, folder: str, several: bool = False) -> Run:
    path = DATA / folder
    return Run(name, ("run", *session(path)), path if several else None)


def check_of(name: str, folder: str) -> Run:
    description, script = session(DATA / folder)
    return Run(name, ("check", description, str(DATA / folder / "expected.txt"), script))


def live_of(name: str, folder: str) -> Run:
    path = DATA / folder
    return Run(name, ("live", session(path)[0]), path, path / "stimuli.txt")


RUNS = (
    run_of("a first path", "rows/ten_ticks_write_then_read"),
    run_of("a queue", "rows/queue_of_two_loses_the_third"),
    run_of("coherent lists", "rows/lists_both_ways"),
    run_of("modes", "rows/mode_switch_that_waits"),
    run_of("modes on three cores", "rows/mode_switch_on_three_cores"),
    run_of("two cores at once", "rows/two_counters_in_one_area", several=True),
    run_of("three cores with everything", "examples/door_control", several=True),
    Run("`soak 1`", ("soak", "1")),
    Run("a plan", ("plan", str(DATA / "examples/door_control/description.json"))),
    Run("a header", ("header", str(DATA / "examples/door_control/description.json"), "Latch")),
    live_of("a live node", "examples/car_park"),
    Run("two nodes", ("pair", *(str(DATA / "examples/tailgate" / name) for name in ("description.json", "second.json", "script.txt")))),
    check_of("a check", "examples/door_control"),
    run_of("a refused description", "rows/many_to_many"),
    run_of("a refused script", "rows/script_tick_zero"),
)


class Program:
    """The program, with the library before it."""

    def __init__(self, path: str, library: str, folder: Path) -> None:
        self.path = path
        self.library = library
        self.folder = folder

    def run(self, run: Run, call: str = "", number: int = 0) -> Ended:
        """Runs the words with one call refused, or with none."""
        with open(run.stimuli or os.devnull, "rb") as given:
            return self.run_words(run.words, given, call, number)

    def run_words(self, words: tuple[str, ...], given: IO[bytes] | int = subprocess.DEVNULL, call: str = "", number: int = 0) -> Ended:
        with tempfile.TemporaryFile(dir=self.folder) as mark:
            names = {"LD_PRELOAD": self.library, "REFUSE_CALL": call, "REFUSE_NUMBER": str(number), "REFUSE_MARK": str(mark.fileno())}
            held = [self.path, *words]
            try:
                ended = subprocess.run(
                    held, stdin=given, capture_output=True, check=False, timeout=LONGEST,
                    env={**os.environ, **names}, pass_fds=[mark.fileno()],
                )  # fmt: skip
            except subprocess.TimeoutExpired as late:
                return Ended(-1, late.stdout or b"", True)
            mark.seek(0)
            return Ended(ended.returncode, ended.stdout, mark.read() != b"")

    def says(self, run: Run, trace: bytes) -> str:
        """What `check` says of a trace of the session, or the tools of the text of a live node."""
        description, script = session(run.session or DATA)
        if run.stimuli:
            plan = plan_of(json.loads(Path(description).read_bytes()))
            return str(checked_live(plan, trace.decode(), feeds_of(run.stimuli.read_text(encoding="utf-8"))) or "legal")
        file = self.folder / "trace.txt"
        file.write_bytes(trace)
        return self.run_words(("check", description, str(file), script)).text.decode().strip()


def begins(program: Program, run: Run, text: bytes, whole: bytes) -> bool:
    """Whether the text is a beginning of what the run may print. What is cut is cut at a line's end, if `check` has to say it."""
    if run.session is None or whole.startswith(text):
        return whole.startswith(text)
    lines = text[: text.rfind(b"\n") + 1]
    behind = lines.count(b"\n") + 1
    return program.says(run, lines) in ("legal", f"illegal {behind} D16")


def is_whole(program: Program, run: Run, text: bytes, whole: bytes) -> bool:
    return text == whole or run.session is not None and program.says(run, text) == "legal"


def wrong(program: Program, run: Run, call: str, ended: Ended, usual: Ended) -> str:
    """What is wrong with how a run ended, or nothing."""
    if ended.status == usual.status:
        return "" if is_whole(program, run, ended.text, usual.text) else "the text is another one"
    if ended.status != CALLS[call]:
        return f"status {ended.status}" if ended.status >= 0 else "it was stopped, or did not end"
    if ended.status == NOT_READ:
        return "" if ended.text in (b"not read 1\n", b"not read 2\n", b"not read 3\n") else "it does not say what was not read"
    return "" if begins(program, run, ended.text, usual.text) else "what was printed is no beginning of the text"


def try_run(program: Program, run: Run, call: str, most: int) -> tuple[Counter[int], list[str]]:
    """Refuses one call of a run after the other: how often each status came, and what is wrong."""
    usual = program.run(run)
    statuses: Counter[int] = Counter()
    found = []
    past = 0
    for number in range(1, most + 1):
        ended = program.run(run, call, number)
        past = 0 if ended.refused else past + 1
        if past == PAST:
            break
        if past:
            continue
        statuses[ended.status] += 1
        if said := wrong(program, run, call, ended, usual):
            found.append(f"{run.name}, {call} {number}: {said}")
    return statuses, found


def told(statuses: Counter[int]) -> str:
    """How many calls were refused, and how each ended, for the table."""
    ended = ", ".join(f"{count} with {status}" for status, count in sorted(statuses.items(), reverse=True))
    return f"{statuses.total()}: {ended}" if len(statuses) > 1 else ended or "0"


def compiled(folder: Path) -> str:
    """The library, built in a folder."""
    library = folder / "refuse.so"
    words = [os.environ.get("CC", "cc"), "-O2", "-shared", "-fPIC", "-o", str(library), str(Path(__file__).with_name("refuse.c"))]
    subprocess.run(words, check=True, capture_output=True)
    return str(library)


def arguments() -> argparse.Namespace:
    parser = argparse.ArgumentParser(description=__doc__, formatter_class=argparse.RawDescriptionHelpFormatter)
    parser.add_argument("--run", action="append", choices=[run.name for run in RUNS], help="this run alone; may stand several times")
    parser.add_argument("--call", action="append", choices=CALLS, help="this call alone; may stand several times")
    parser.add_argument("--most", type=int, default=1_000_000, metavar="N", help="refuse none after the first N calls")
    parser.add_argument("--program", default=os.environ.get("RTE", str(BUILT)), help="the program; otherwise RTE names it, or it is what was built")
    return parser.parse_args()


def main() -> int:
    words = arguments()
    if not os.access(words.program, os.X_OK):
        print(f"refused_memory: there is no program {words.program}", file=sys.stderr)
        return 2
    calls = words.call or list(CALLS)
    found: list[str] = []
    with tempfile.TemporaryDirectory() as held:
        try:
            program = Program(words.program, compiled(Path(held)), Path(held))
        except (OSError, subprocess.CalledProcessError) as error:
            print(f"refused_memory: refuse.c is not built: {error}", file=sys.stderr)
            return 2
        print(f"| Run | {' | '.join(calls)} |")
        print(f"|---{'|---' * len(calls)}|")
        for run in RUNS:
            if words.run and run.name not in words.run:
                continue
            cells = []
            for call in calls:
                statuses, wrongs = try_run(program, run, call, words.most)
                cells.append(told(statuses))
                found += wrongs
            print(f"| {run.name} | {' | '.join(cells)} |", flush=True)
    for line in found:
        print(line)
    return 1 if found else 0


if __name__ == "__main__":
    sys.exit(main())
