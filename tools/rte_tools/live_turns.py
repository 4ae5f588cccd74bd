"""A live node that runs apart from the program: cores take turns while feeds give their wishes, in an order that is chosen from outside."""

from __future__ import annotations

from typing import Callable

from rte_tools.bus import ENVIRONMENT
from rte_tools.stimuli import feeds_of
from rte_tools.trace import LIVE, STOPPED, read_line
from rte_tools.turns import Layout, Node

Choice = Callable[[int], int]  # of so many that may act next one is chosen


def one_after_the_other() -> Choice:
    """Each of those that may act in its turn."""
    last = -1

    def choose(count: int) -> int:
        nonlocal last
        last = (last + 1) % count
        return last

    return choose


class LiveNode(Node):
    """A node that is served by feeds, and the lines of its text so far."""

    def __init__(self, layout: Layout):
        super().__init__(layout)
        self.lines = [LIVE]
        self.feed = ""  # which acts

    def put(self, text: str) -> bool:
        self.lines.append(f"{self.feed} {text}" if text.startswith(f"{ENVIRONMENT} ") else text)
        self.bus.note(read_line(len(self.lines), text))
        return True

    def give(self, feed: int, order: str) -> None:
        self.feed = str(feed)
        self.line("tick 1" if order == "tick" else order)

    def served(self, stimuli: str, choose: Choice) -> str:
        """The text of a whole run. Feeds and cores act one after the other as they are chosen, until all wishes have come."""
        left = {number: iter(feed) for number, feed in enumerate(feeds_of(stimuli))}
        while left:
            at = choose(len(left) + len(self.cores))
            if at >= len(left):
                self.turn(self.cores[at - len(left)])
                continue
            feed = list(left)[at]
            wish = next(left[feed], None)
            if wish:
                self.give(feed, wish.order)
            else:
                del left[feed]
        self.put(STOPPED)
        self.run_line()
        return "\n".join(self.lines) + "\n"
