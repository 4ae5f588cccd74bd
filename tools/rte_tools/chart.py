"""The timeline in detail: a column for each line of the trace, and one for ticks in a row."""

from __future__ import annotations

from rte_tools import svg
from rte_tools.causes import Arrow, Fill, Queue, Wait
from rte_tools.lanes import EVENTS, LINES, MODE, NESTED, QUEUE, RUNS, TASK, VALUE, Lane, by_lane, height_of
from rte_tools.marks import sign_of
from rte_tools.replay import Bar, Change, Mark, Replay, RunLine, labels

COLUMN = 26  # pixels
PALETTE = 8  # how many colours bars have
EVERY = 5  # how many columns have a number together
BAR, MARK, SEGMENT = 20, 16, 18  # the heights of an activation, a mark and a value
STUB = 22  # the length of an arrow whose source is not shown
REPEATED = 600  # pixels after which a long segment shows its text again


class Chart:
    """Draws what happened between two moments."""

    def __init__(self, replay: Replay, lanes: list[Lane], colours: dict[str, int]):
        self.replay = replay
        self.lanes = lanes
        self.colours = colours
        self.bars, self.marks_in, self.waits = by_lane(replay.bars), by_lane(replay.marks), by_lane(replay.waits)
        self.column_of = columns(replay)
        self.width = (self.column_of[replay.last] + 1) * COLUMN
        self.parts: list[str] = []

    def draw(self) -> list[str]:
        for run in [*([self.replay.served] if self.replay.served else []), *self.replay.runs]:
            self.run(run)
        for lane in self.lanes:
            self.parts.append(svg.line(0, lane.y, self.width, lane.y, "rule"))
        draw = {LINES: self.numbers, EVENTS: self.events, TASK: self.task}
        draw |= {MODE: self.mode, QUEUE: self.queue, VALUE: self.value}
        for lane in self.lanes:
            if lane.kind in draw:
                draw[lane.kind](lane)
        places = {lane.name: lane for lane in self.lanes if lane.kind in (EVENTS, TASK, MODE)}
        for arrow in self.replay.arrows:
            if arrow.target in places:
                self.arrow(arrow, places.get(arrow.source), places[arrow.target])
        return self.parts

    def picture(self) -> str:
        name = f"lines {self.replay.first} to {self.replay.last}"
        return svg.picture(self.width, height_of(self.lanes), self.draw(), name)

    def left(self, moment: int) -> float:
        """Where the column of a moment begins. A moment before the first one is at the left edge."""
        return self.column_of.get(max(moment, self.replay.first), 0) * COLUMN

    def right(self, moment: int | None) -> float:
        """Where the column of a moment ends. What does not end goes on to the right edge."""
        if moment is None or moment > self.replay.last:
            return self.width
        return self.left(moment) + COLUMN

    def middle(self, moment: int) -> float:
        """The middle of a column, which for an arrow may be outside of the picture."""
        outside = min(0, moment - self.replay.first) + max(0, moment - self.replay.last)
        return self.left(min(moment, self.replay.last)) + (outside + 0.5) * COLUMN

    def numbers(self, lane: Lane) -> None:
        shown = -1
        for moment, column in self.column_of.items():
            if column % EVERY == 0 and column != shown:
                shown = column
                self.parts.append(svg.text(column * COLUMN + 3, lane.y + 15, str(moment), "name"))
                self.parts.append(svg.line(column * COLUMN, lane.y, column * COLUMN, lane.y + lane.height, "rule"))

    def run(self, run: RunLine) -> None:
        lane = next(lane for lane in self.lanes if lane.kind == RUNS)
        x, end = self.left(run.first), self.right(run.last)
        name = run.name
        said = f"{name} at {run.milliseconds} ms" if run.number else name
        closing = run.closing or "not closed"
        self.parts.append(svg.rect(x, lane.y, end - x, height_of(self.lanes) - lane.y, "band"))
        title = f"{said}: lines {run.first} to {run.last or '?'}, {closing}"
        self.parts.append(svg.rect(x + 1, lane.y + 4, end - x - 2, lane.height - 8, f"run {closing}", title, 4))
        self.spread([f"{said}, {closing}", said, name, str(run.number or "")], x, end, lane.y + 16)

    def spread(self, candidates: list[str], x: float, end: float, y: float) -> None:
        """Writes a text into a segment, again and again where the segment is long."""
        shown = svg.fitting(candidates, end - x - 5)
        start = x + 4
        while shown and start + len(shown) * svg.CHARACTER <= end:
            self.parts.append(svg.text(start, y, shown, "label inside"))
            start += REPEATED

    def events(self, lane: Lane) -> None:
        for column, count, moment in folded(self.ticks_of(lane), self.column_of):
            x = column * COLUMN
            last = moment + count - 1
            title = f"line {moment}: env tick" if count == 1 else f"lines {moment} to {last}: {count} times env tick"
            self.parts.append(svg.rect(x + 1, lane.y + 5, COLUMN - 2, 16, "ticks", title, 4))
            shown = f"+{count}" if count < 1000 else "+…"
            self.parts.append(svg.text(x + COLUMN / 2, lane.y + 17, shown, "small middle"))
        self.marks(lane)

    def ticks_of(self, lane: Lane) -> list[int]:
        """The moments of the ticks that the environment, or the feed, of this lane makes."""
        return self.replay.ticks_of(lane.name)

    def task(self, lane: Lane) -> None:
        """The activations, over them what waits, and then all texts."""
        for bar in self.bars.get(lane.name, ()):
            self.bar(bar, lane)
        for wait in self.waits.get(lane.name, ()):
            self.wait(wait, lane)
        for bar in self.bars.get(lane.name, ()):
            names = labels(bar.key)
            y = bar_top(lane, bar.depth) + 14
            self.spread([f"{names[0]} ({bar.event})", *names], self.left(bar.first), self.right(bar.last), y)
        self.marks(lane)

    def bar(self, bar: Bar, lane: Lane) -> None:
        x, end = self.left(bar.first), self.right(bar.last)
        since = f", pending since line {bar.due}" if bar.due else ""
        title = f"{bar.key} started by {bar.event}, lines {bar.first} to {bar.last or '?'}{since}"
        state = "" if bar.is_admitted else " dropped"
        colour = f"bar c{self.colours[bar.key] % PALETTE}{state}" + ("" if bar.last else " open")
        self.parts.append(svg.rect(x + 1, bar_top(lane, bar.depth), end - x - 2, BAR, colour, title, 4))

    def wait(self, wait: Wait, lane: Lane) -> None:
        """From behind the call to the answer."""
        x = self.right(wait.first) if wait.first >= self.replay.first else 0
        end = self.left(wait.last) if wait.last is not None and wait.last <= self.replay.last else self.width
        if end > x:
            until = f" until line {wait.last}" if wait.last else ""
            title = f"{wait.key} waits for the answer to line {wait.first}{until}"
            self.parts.append(svg.rect(x, bar_top(lane, wait.depth) + 1, end - x, BAR - 2, "wait", title))

    def marks(self, lane: Lane) -> None:
        for mark in self.marks_in.get(lane.name, ()):
            self.mark(mark, marks_top(lane))

    def mark(self, mark: Mark, y: float) -> None:
        sign, x = sign_of(mark.verb), self.middle(mark.moment)
        bad = " bad" if mark.code not in ("", "0") else ""
        title = f"line {mark.moment}: {mark.text}"
        self.parts.append(svg.rect(x - MARK / 2, y, MARK, MARK, f"mark {sign.kind}{bad}", title, 4))
        self.parts.append(svg.text(x, y + 12, sign.letter, "letter middle"))

    def arrow(self, arrow: Arrow, source: Lane | None, target: Lane) -> None:
        """From the mark at its source, or from nearby if that lane is not shown, to an activation or a mark."""
        if arrow.depth is None:
            to_x, to_y = self.middle(arrow.last) - MARK / 2, marks_top(target) + MARK / 2
        else:
            to_x, to_y = self.middle(arrow.last) - COLUMN / 2 + 1, bar_top(target, arrow.depth)
            to_y += BAR - 3 if source == target else BAR / 2  # within a lane below the names
        x, y = to_x - STUB, to_y
        if source:
            x, y = self.middle(arrow.first), marks_top(source)
            y += MARK if to_y > y else 0
        self.parts.append(svg.arrow(x, y, to_x, to_y, arrow.kind, arrow.text))

    def queue(self, lane: Lane) -> None:
        """How much waits: an area below the line of what it holds at most."""
        queue = self.replay.queues[lane.name]
        self.parts.append(svg.line(0, lane.y + 5, self.width, lane.y + 5, "limit"))
        for number, fill in enumerate(queue.fills):
            following = queue.fills[number + 1].moment if number + 1 < len(queue.fills) else None
            x, end = self.left(fill.moment), self.left(following) if following else self.width
            if end > x:
                self.fill(lane, queue, fill, x, end)
            if fill.has_lost:
                title = f"line {fill.moment}: the queue is full, and what comes is lost"
                self.parts.append(svg.rect(x + 3, lane.y + 3, 7, lane.height - 6, "lost", title, 2))

    def fill(self, lane: Lane, queue: Queue, fill: Fill, x: float, end: float) -> None:
        room = lane.height - 9
        height = max(1.5, room * fill.count / queue.length)
        waiting = f"{fill.count} of {queue.length}" + (f": {fill.text}" if fill.text else "")
        title = f"{lane.name} from line {fill.moment} on: {waiting}"
        kind = "empty" if fill.count == 0 else "fill full" if fill.count == queue.length else "fill"
        self.parts.append(svg.rect(x, lane.y + 4 + room - height + 1, end - x, height, kind, title))
        short = [f"{fill.count} of {queue.length}", f"{fill.count}/{queue.length}", str(fill.count)]
        self.spread([waiting, *short], x + (10 if fill.has_lost else 0), end, lane.y + 20)

    def value(self, lane: Lane) -> None:
        self.segments(lane, self.replay.values[lane.name])

    def mode(self, lane: Lane) -> None:
        self.segments(lane, self.replay.modes[lane.name])
        self.marks(lane)

    def segments(self, lane: Lane, changes: list[Change]) -> None:
        for number, change in enumerate(changes):
            x = self.left(change.moment)
            following = changes[number + 1].moment if number + 1 < len(changes) else None
            end = self.left(following) if following else self.width
            if end <= x:
                continue
            title = f"{lane.name} from line {change.moment} on: {change.text} {change.state}"
            self.parts.append(svg.rect(x + 1, lane.y + 4, end - x - 2, SEGMENT, change.state, title, 3))
            if change.state == "invalid":
                longest = [f"invalid ({change.text})"] if change.text else []
                self.spread([*longest, "invalid", "inv"], x, end, lane.y + 17)
            else:
                self.spread([change.text], x, end, lane.y + 17)


def bar_top(lane: Lane, depth: int) -> float:
    return lane.y + 4 + depth * NESTED


def marks_top(lane: Lane) -> float:
    return lane.y + (5 if lane.kind == EVENTS else lane.height - MARK - 3)


def columns(replay: Replay, *sides: Replay) -> dict[int, int]:
    """The column of each moment; ticks in a row share one, those of one side or of one feed if there are several."""
    held = [side.ticks for side in sides] or list(replay.feeds.values()) or [replay.ticks]
    ticks = {moment: number for number, moments in enumerate(held) for moment in moments}
    found: dict[int, int] = {}
    column = -1
    for moment in range(replay.first, replay.last + 1):
        if not (moment in ticks and ticks.get(moment - 1) == ticks[moment] and moment - 1 in found):
            column += 1
        found[moment] = column
    return found


def folded(ticks: list[int], column_of: dict[int, int]) -> list[tuple[int, int, int]]:
    """The columns of ticks, each with how many there are and the first one's moment."""
    found: dict[int, tuple[int, int, int]] = {}
    for moment in ticks:
        column = column_of[moment]
        _, count, first = found.get(column, (column, 0, moment))
        found[column] = (column, count + 1, first)
    return list(found.values())
