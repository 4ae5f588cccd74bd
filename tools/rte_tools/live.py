"""The text of a live node: whether it is one that `live` may print for stimuli (docs/FORMAT.md, 'A live node').

It is apart from the program: fitting.py says what a line may be, and bus.py what is answered. The entries are read in their order. Each has
to be one that may come after those before it; those of the environment have to be the wishes of the feeds, each feed in its order and whole;
and behind `stopped` stands one run line.
"""

from __future__ import annotations

from rte_tools.bus import ENVIRONMENT
from rte_tools.bus_plan import BusPlan
from rte_tools.checking import SCRIPT_CLAUSE, Steps
from rte_tools.refusal import Refusal
from rte_tools.stimuli import Wished
from rte_tools.trace import CLOSINGS, FEEDS, LIVE, RUN, STOPPED, Line, read_live_line

TICKS = {f"{feed} {ENVIRONMENT} tick": int(feed) for feed in FEEDS}
SERVED, AT_REST, RUNNING, CLOSED = "served", "at rest", "running", "closed"  # before `stopped`, before `run`, before its closing word, behind it


def checked_live(plan: BusPlan, text: str, feeds: list[list[Wished]]) -> Refusal | None:
    """The refusal of a live text of stimuli that are not refused themselves, or none where it may be printed."""
    return LiveCheck(plan, feeds).whole(text)


class LiveCheck(Steps):
    """How far the lines before go."""

    def __init__(self, plan: BusPlan, feeds: list[list[Wished]]):
        super().__init__(plan, "2")
        self.feeds = feeds
        self.places = [0] * len(feeds)  # how many wishes of each feed have come
        self.stage = SERVED
        self.fitting: dict[tuple[str, str], bool] = {}  # what was looked at before: a long text says the same again and again

    def whole(self, text: str) -> Refusal | None:
        *lines, last = text.split("\n")
        if not lines or lines[0] != LIVE:
            return Refusal("bad", line=1)
        for number, said in enumerate(lines[1:], 2):
            if said in TICKS and self.ticks(TICKS[said]):
                continue
            refusal = self.take(read_live_line(number, said))
            if refusal:
                return refusal
        end = len(lines) + 1
        if last:
            return Refusal("bad", line=end)
        return Refusal("illegal", SCRIPT_CLAUSE, line=end) if self.stage != CLOSED else None

    def ticks(self, feed: int) -> bool:
        """Takes a tick if it is the next wish of its feed. Most lines of a long text are ticks, and this is quicker than `take`."""
        wishes, place = self.feeds[feed], self.places[feed]
        if self.stage != SERVED or place == len(wishes) or wishes[place].order != "tick":
            return False
        self.places[feed] = place + 1
        self.bus.tick()
        return True

    def take(self, line: Line) -> Refusal | None:
        """The refusal of a line; or none, and the line is noted."""
        if not self.fits(line):
            return Refusal("bad", line=line.number)
        clause = self.broken(line)
        if clause:
            return Refusal("illegal", clause, line=line.number)
        if line.feed:
            self.places[int(line.feed)] += 1
        elif not line.actor:
            self.stage = {STOPPED: AT_REST, RUN: RUNNING}.get(line.verb, CLOSED)
        self.note(line)
        return None

    def fits(self, line: Line) -> bool:
        """Whether the line has a reading. A feed stands before each call of the environment, and before nothing else."""
        key = (line.feed, line.text)
        if key not in self.fitting:
            is_call = line.actor == ENVIRONMENT
            self.fitting[key] = is_call == bool(line.feed) and (line.text == STOPPED or self.reading.fits(line))
        return self.fitting[key]

    # ---- the first clause that a line breaks, or 0

    def broken(self, line: Line) -> int:
        if not line.actor:
            return self.broken_by_mark(line)
        if line.feed:
            return self.broken_call(line)
        return self.broken_step(line) if self.stage in (SERVED, RUNNING) else SCRIPT_CLAUSE

    def broken_by_mark(self, line: Line) -> int:
        if line.verb == STOPPED:
            is_whole = all(place == len(feed) for place, feed in zip(self.places, self.feeds))
            return 0 if self.stage == SERVED and is_whole else SCRIPT_CLAUSE
        if line.verb in CLOSINGS:
            return self.broken_closing(line) if self.stage == RUNNING else 15
        return 0 if self.stage == AT_REST else SCRIPT_CLAUSE

    def broken_call(self, line: Line) -> int:
        """A call is the next wish of its feed, and is answered as the bus answers it."""
        feed = int(line.feed)
        wishes, place = self.feeds[feed], self.places[feed]
        if self.stage != SERVED or place == len(wishes) or wishes[place].order != self.ordered_by(line):
            return SCRIPT_CLAUSE
        return self.broken_answer(line)
