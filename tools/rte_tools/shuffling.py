"""Orders of cores at random: what a node gives in many of them.

Within a run line any core may take the next turn, so any order of turns is one that a run may take. A core at random for each turn
seldom lets one core run far ahead of another. So cores have ranks here, the first one that can make an entry makes it, and how
often the ranks change is drawn for each run: never, seldom, or at each entry.
"""

from __future__ import annotations

import random
from collections import Counter
from dataclasses import dataclass, field
from typing import Callable, Iterator

from rte_tools.turns import MOST_ENTRIES, Layout, Node

CHANGES = (0.0, 0.03, 0.1, 0.3, 1.0)  # how often the ranks change, for each entry
MOST_KEPT = 20  # outcomes whose traces are kept


class ShuffledNode(Node):
    """A node whose cores take their turns in an order by chance."""

    def __init__(self, layout: Layout, chance: random.Random):
        super().__init__(layout)
        self.chance = chance
        self.change = chance.choice(CHANGES)
        self.ranks = list(range(len(self.cores)))
        chance.shuffle(self.ranks)

    def round(self) -> None:
        """Turns until each core has made as many entries as a round allows, or can make none."""
        left = [MOST_ENTRIES] * len(self.cores)
        idle: set[int] = set()  # who could make no entry since the last one that was made
        while True:
            number = next((held for held in self.ranks if left[held] and held not in idle), None)
            if number is None:
                return
            if self.turn(self.cores[number]):
                left[number] -= 1
                idle.clear()
            else:
                idle.add(number)
            if self.chance.random() < self.change:
                self.chance.shuffle(self.ranks)


@dataclass
class Outcome:
    """What the environment sees, the first run that gives it, and its trace, if it is kept."""

    seen: tuple[str, ...]
    first: int
    trace: str


@dataclass
class Tried:
    """The outcomes of many orders, in the order in which they were found, and how many orders gave each."""

    outcomes: list[Outcome] = field(default_factory=list)
    counts: Counter = field(default_factory=Counter)
    runs: int = 0

    def take(self, trace: str) -> None:
        seen = tuple(seen_of(trace))
        self.runs += 1
        if seen not in self.counts:
            self.outcomes.append(Outcome(seen, self.runs, trace if len(self.outcomes) < MOST_KEPT else ""))
        self.counts[seen] += 1


def seen_of(trace: str) -> Iterator[str]:
    """What the environment sees of a trace: its own lines but for ticks, and run lines that did not come to rest."""
    for line in trace.split("\n"):
        if (line.startswith("env ") and line != "env tick") or line == "unsettled":
            yield line


def try_orders(layout: Layout, script: str, runs: int, seed: int, tell: Callable[[Tried], None]) -> Tried:
    """Runs the script in so many orders, or in fewer if the user interrupts it. The first one is that of the cores' numbers."""
    tried = Tried()
    try:
        for number in range(1, runs + 1):
            node = Node(layout) if number == 1 else ShuffledNode(layout, random.Random(f"{seed} {number}"))
            tried.take(node.whole(script))
            tell(tried)
    except KeyboardInterrupt:
        if not tried.outcomes:
            raise
    return tried


def parting(one: Outcome, other: Outcome) -> tuple[tuple[int, str], tuple[int, str]]:
    """The first lines of two outcomes in which what the environment sees differs, each with its number; 0 for none."""
    place = next((at for at, (mine, theirs) in enumerate(zip(one.seen, other.seen)) if mine != theirs), None)
    if place is None:
        place = min(len(one.seen), len(other.seen))
    return numbered(one, place), numbered(other, place)


def numbered(outcome: Outcome, place: int) -> tuple[int, str]:
    """The line that shows what is seen at a place, with its number in the trace."""
    for number, line in enumerate(outcome.trace.split("\n"), 1):
        if (line.startswith("env ") and line != "env tick") or line == "unsettled":
            if not place:
                return number, line
            place -= 1
    return 0, ""
