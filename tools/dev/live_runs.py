#!/usr/bin/env python3
"""Runs live nodes again and again, and looks whether each run ends with a legal text.

    tools/dev/live_runs.py [--runs N] [--wishes W] [--seconds S] [--readers R]

There are 1,000 runs, or N. They go through nodes of 1 to 7 cores, each run with two feeds that have 65,536 wishes in all, or W: ticks,
sends, writes and reads. On each core a task starts by time, and a runnable by what the core before it writes. A run that has not ended
after 60 seconds, or S, hangs; it is stopped. Each text is read by the tools, entry after entry in their order (`rte_tools/live.py`): whether
each may come after those before it, the environment's are the wishes of each feed in order and whole, and the run line closes with `idle`.
R processes read, or as many as there are processors.

What is wrong is printed, and the text is kept. At the end stands a table: by the number of cores how many runs there were, the least and the
most seconds of a run by the clock, and how many entries the cores made before the stimuli had all come.

A run takes a tenth of a second of a processor, and reading its text a quarter, or more if the cores made many entries: 1,000 runs take some
minutes on four processors that do nothing else.

The program is the one that the variable RTE names, or the one that was built. The status is 0 if nothing is wrong, 1 if something is, and 2
if it cannot be tried here. It is no part of the gate.
"""

from __future__ import annotations

import argparse
import json
import os
import subprocess
import sys
import tempfile
import time
from collections import deque
from concurrent.futures import Future, ProcessPoolExecutor
from dataclasses import dataclass, field
from functools import lru_cache
from pathlib import Path
from typing import Any

TOP = Path(__file__).resolve().parents[2]
sys.path.insert(0, str(TOP / "tools"))

from rte_tools.bus_plan import BusPlan, plan_of  # noqa: E402
from rte_tools.files import built_program  # noqa: E402
from rte_tools.live import checked_live  # noqa: E402
from rte_tools.stimuli import Wished, feeds_of, first_bad_stimulus  # noqa: E402

MOST_CORES = 7
PERIODS = (40, 100, 250, 1000)  # of the tasks that start by time, in milliseconds: by turns, so each node is run with each
BLOCK = 16  # wishes of the second feed that stand together: a send, a write, a read and ticks
KEPT = 10  # texts that are wrong


# ---- a node and its stimuli


def port(kind: str, name: str, interface: str, **spec: Any) -> dict[str, Any]:
    made: dict[str, Any] = {"kind": f"{kind}PortPrototype", "shortName": name, "interface": interface}
    return made | ({"comSpecs": [{"element": "v", **spec}]} if spec else {})


def worker(period: int) -> dict[str, Any]:
    """What runs on each core: a count by time, and an answer to what the core before it counted."""
    count = [["irvRead", "n", ["x"]], ["irvWrite", "n", [["add", "x", 1]]], ["write", "out", "v", [["add", "x", 1]], "s"]]
    accesses = [["irvRead", "n"], ["irvWrite", "n"], ["write", "out", "v"]]
    return {
        "shortName": "Worker",
        "ports": [port("R", "before", "Data"), port("P", "out", "Data")],
        "behavior": {
            "variables": [{"shortName": "n", "type": "T"}],
            "runnables": [
                {"shortName": "Count", "accesses": accesses, "program": count},
                {"shortName": "Look", "accesses": [["read", "before", "v"]], "program": [["read", "before", "v", ["x"], "s"]]},
            ],
            "events": [
                {"kind": "TimingEvent", "shortName": "E", "runnable": "Count", "period": period},
                {"kind": "DataReceivedEvent", "shortName": "D", "runnable": "Look", "port": "before", "element": "v"},
            ],
        },
    }


def taker() -> dict[str, Any]:
    """What takes the values that the environment sends, and adds what it writes."""
    taken = [["receive", "in", "v", ["x"], "s"], ["if", ["ne", "s", 131], [["write", "last", "v", ["x"], "s"]], []]]
    return {
        "shortName": "Taker",
        "ports": [port("R", "in", "Queue", queueLength=4), port("P", "last", "Data")],
        "behavior": {
            "runnables": [
                {"shortName": "Take", "accesses": [["receive", "in", "v"], ["write", "last", "v"]], "program": [["repeat", 4, taken]]},
            ],
            "events": [{"kind": "DataReceivedEvent", "shortName": "R", "runnable": "Take", "port": "in", "element": "v"}],
        },
    }


def interface(name: str, policy: str) -> dict[str, Any]:
    element = {"shortName": "v", "type": "T", "swImplPolicy": policy}
    return {"kind": "SenderReceiverInterface", "shortName": name, "dataElements": [element]}


def description(cores: int, period: int) -> dict[str, Any]:
    """A worker on each core, the first behind the environment and each other one behind the one before it; and a taker on the last core."""
    joined = [{"kind": "AssemblySwConnector", "provider": [f"w{n}", "out"], "requester": [f"w{n + 1}", "before"]} for n in range(cores - 1)]
    outer = {"in": ["t", "in"], "last": ["t", "last"], "set": ["w0", "before"]}
    joined += [{"kind": "DelegationSwConnector", "inner": inner, "outer": name} for name, inner in outer.items()]
    events = [
        {"instance": f"w{n}", "event": event, "task": f"T{n}", "position": position}
        for n in range(cores)
        for position, event in enumerate("ED")
    ]
    return {
        "dataTypes": [{"shortName": "T", "baseType": "sint32", "lower": 0, "upper": 1_000_000, "words": 1}],
        "interfaces": [interface("Data", "standard"), interface("Queue", "queued")],
        "components": [worker(period), taker()],
        "compositions": [
            {
                "shortName": "Top",
                "ports": [port("R", "in", "Queue"), port("R", "set", "Data"), port("P", "last", "Data")],
                "prototypes": [*({"shortName": f"w{n}", "type": "Worker"} for n in range(cores)), {"shortName": "t", "type": "Taker"}],
                "connectors": joined,
            }
        ],
        "root": "Top",
        "mapping": {
            "cores": cores,
            "tasks": [*({"shortName": f"T{n}", "core": n} for n in range(cores)), {"shortName": "Taking", "core": cores - 1}],
            "events": [*events, {"instance": "t", "event": "R", "task": "Taking", "position": 0}],
        },
    }


def stimuli(wishes: int) -> str:
    """Two feeds with so many wishes in all: the clock, and a second one that sends, writes, reads and lets time pass."""
    second = wishes // 2
    lines = [f"0 tick {wishes - second}"] if wishes > second else []
    for number in range(second // BLOCK):
        lines += [f"1 send in.v {number}", f"1 write set.v {number}", "1 read last.v", f"1 tick {BLOCK - 3}"]
    lines += [f"1 tick {second % BLOCK}"] if second % BLOCK else []
    return "\n".join([*lines, "stop"]) + "\n"


# ---- reading


@lru_cache(maxsize=None)
def plan(cores: int, period: int) -> BusPlan:
    return plan_of(description(cores, period))


@lru_cache(maxsize=None)
def feeds(wishes: int) -> list[list[Wished]]:
    return feeds_of(stimuli(wishes))


def read(path: str, cores: int, period: int, wishes: int) -> tuple[str, int]:
    """What is wrong with a text, if something is, and how many entries the cores made before the stimuli had all come."""
    text = Path(path).read_text(encoding="utf-8")
    before = text.partition("\nstopped\n")[0].count("\n")
    refusal = checked_live(plan(cores, period), text, feeds(wishes))
    if not refusal and not text.endswith("\nidle\n"):
        return "it does not end with `idle`", before - wishes
    return str(refusal or ""), before - wishes


# ---- running


@dataclass
class Told:
    """What is told of the runs of so many cores."""

    seconds: list[float] = field(default_factory=list)
    entries: list[int] = field(default_factory=list)


@dataclass
class Runs:
    """The runs, their texts that are still to be read, and what came of them."""

    words: argparse.Namespace
    program: str
    folder: Path
    readers: ProcessPoolExecutor
    told: dict[int, Told] = field(default_factory=dict)
    waiting: deque[tuple[Future, Path, int, int]] = field(default_factory=deque)
    wrong: int = 0

    def prepare(self) -> None:
        for cores in range(1, MOST_CORES + 1):
            for period in PERIODS:
                assert first_bad_stimulus(stimuli(self.words.wishes), plan(cores, period)) is None
                self.path("description", cores, period).write_text(json.dumps(description(cores, period)), encoding="utf-8")
        (self.folder / "stimuli.txt").write_text(stimuli(self.words.wishes), encoding="utf-8")

    def path(self, name: str, *numbers: int) -> Path:
        return self.folder / "_".join([name, *map(str, numbers)])

    def run(self, number: int) -> None:
        cores, period = number % MOST_CORES + 1, PERIODS[number // MOST_CORES % len(PERIODS)]
        told, text = self.told.setdefault(cores, Told()), self.path("text", number)
        words = [self.program, "live", str(self.path("description", cores, period))]
        begun = time.monotonic()
        with open(self.folder / "stimuli.txt", "rb") as given, open(text, "wb") as out:
            try:
                status = subprocess.run(words, stdin=given, stdout=out, check=False, timeout=self.words.seconds).returncode
            except subprocess.TimeoutExpired:
                self.fault(number, cores, f"it hangs: it has not ended after {self.words.seconds} seconds", text)
                return
        told.seconds.append(time.monotonic() - begun)
        if status:
            self.fault(number, cores, f"it ended with status {status}", text)
            return
        future = self.readers.submit(read, str(text), cores, period, self.words.wishes)
        self.waiting.append((future, text, number, cores))
        while len(self.waiting) > 2 * self.words.readers:
            self.take()

    def take(self) -> None:
        """What the readers say of the oldest text that waits."""
        future, text, number, cores = self.waiting.popleft()
        fault, entries = future.result()
        self.told[cores].entries.append(entries)
        if fault:
            self.fault(number, cores, f"its text is refused: {fault}", text)
        else:
            text.unlink()

    def fault(self, number: int, cores: int, said: str, text: Path) -> None:
        self.wrong += 1
        kept = ""
        if self.wrong <= KEPT:
            path = Path(tempfile.gettempdir()) / f"live_run_{number}.txt"
            text.rename(path)
            kept = f"; {path}"
        print(f"run {number}, {cores} cores: {said}{kept}", flush=True)

    def table(self) -> None:
        print(f"{'cores':>5}  {'runs':>5}  {'seconds of a run':>20}  entries of cores while stimuli came")
        for cores, told in sorted(self.told.items()):
            seconds = f"{min(told.seconds):.2f} to {max(told.seconds):.2f}" if told.seconds else "none"
            entries = f"{min(told.entries):,} to {max(told.entries):,}" if told.entries else "none"
            print(f"{cores:>5}  {len(told.seconds):>5}  {seconds:>20}  {entries}")


def arguments() -> argparse.Namespace:
    parser = argparse.ArgumentParser(description=__doc__, formatter_class=argparse.RawDescriptionHelpFormatter)
    parser.add_argument("--runs", type=int, default=1000, metavar="N", help="how many runs")
    parser.add_argument("--wishes", type=int, default=65_536, metavar="W", help="the wishes of both feeds in all, at most 65,536")
    parser.add_argument("--seconds", type=float, default=60, metavar="S", help="how long a run may take")
    parser.add_argument("--readers", type=int, default=os.cpu_count() or 1, metavar="R", help="how many processes read texts")
    return parser.parse_args()


def main() -> int:
    words = arguments()
    program = built_program()
    if not program or not os.access(program, os.X_OK):
        print("live_runs.py: there is no program; the variable RTE may name one", file=sys.stderr)
        return 2
    begun = time.monotonic()
    with tempfile.TemporaryDirectory() as folder, ProcessPoolExecutor(words.readers) as readers:
        runs = Runs(words, program, Path(folder), readers)
        runs.prepare()
        for number in range(words.runs):
            runs.run(number)
            if sys.stderr.isatty():
                print(f"\r{number + 1:,} of {words.runs:,} runs", end="", file=sys.stderr, flush=True)
        while runs.waiting:
            runs.take()
    runs.table()
    print(f"{words.runs:,} runs of {words.wishes:,} wishes in {time.monotonic() - begun:,.0f} s: {runs.wrong:,} wrong")
    return 1 if runs.wrong else 0


if __name__ == "__main__":
    sys.exit(main())
