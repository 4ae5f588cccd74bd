"""The timeline of a long trace at a glance: the lines are put together in equal parts, each a few pixels wide."""

from __future__ import annotations

from rte_tools import svg
from rte_tools.lanes import EVENTS, LINES, MODE, QUEUE, RUNS, TASK, VALUE, Lane, by_lane, height_of
from rte_tools.replay import Change, Replay, RunLine

PARTS = 300
PART = 3  # pixels
NARROW = 8  # pixels: what is as narrow has no edge
LABELS = 6  # how many line numbers are shown
MOST_SEGMENTS = 80  # of a lane of texts that are shown; of more the changes are counted
STEPS = (1, 2, 5, 10, 20, 50, 100, 200, 500, 1000)  # of numbers of run lines, where not each has room for its own


class Overview:
    """Draws how busy each lane is in each part, and between which numbers a value lies there."""

    def __init__(self, replay: Replay, lanes: list[Lane], linked: dict[int, str] | None = None):
        """Run lines whose numbers are linked lead to these addresses."""
        self.replay = replay
        self.lanes = lanes
        self.linked = linked or {}
        self.bars_in, self.marks_in = by_lane(replay.bars), by_lane(replay.marks)
        self.width = PARTS * PART
        self.per_part = max(1.0, (replay.last - replay.first + 1) / PARTS)
        self.length = replay.last - replay.first + 1
        self.parts: list[str] = []

    def draw(self) -> list[str]:
        for lane in self.lanes:
            self.parts.append(svg.line(0, lane.y, self.width, lane.y, "rule"))
        draw = {LINES: self.numbers, RUNS: self.runs, EVENTS: self.events}
        draw |= {TASK: self.task, MODE: self.modes, QUEUE: self.queue, VALUE: self.value}
        for lane in self.lanes:
            if lane.kind in draw:
                draw[lane.kind](lane)
        return self.parts

    def picture(self) -> str:
        return svg.picture(self.width, height_of(self.lanes), self.draw(), "the whole trace")

    def part_of(self, moment: int) -> int:
        return max(0, min(PARTS - 1, int((moment - self.replay.first) / self.per_part)))

    def x(self, moment: float) -> float:
        return max(0.0, (moment - self.replay.first) / self.length * self.width)

    def numbers(self, lane: Lane) -> None:
        for number in range(LABELS):
            moment = self.replay.first + self.length * number // LABELS
            self.parts.append(svg.line(self.x(moment), lane.y, self.x(moment), lane.y + lane.height, "rule"))
            self.parts.append(svg.text(self.x(moment) + 3, lane.y + 15, f"{moment:,}", "name"))

    def runs(self, lane: Lane) -> None:
        """All run lines, each with its number where there is room, else each second, fifth and so on."""
        if self.replay.served:
            self.served(lane, self.replay.served)
        if not self.replay.runs:
            return
        ends = [(run, self.x(run.first), self.x((run.last or self.replay.last) + 1)) for run in self.replay.runs]
        apart = (ends[-1][1] - ends[0][1]) / max(1, len(ends) - 1)
        wanted = (len(str(ends[-1][0].number)) + 1) * svg.SMALL
        step = next((step for step in STEPS if step * apart >= wanted), STEPS[-1])
        for run, x, end in ends:
            self.run(lane, run, x, end, 0 < apart < 2 * NARROW)
        for run, x, end in ends:
            self.run_name(lane, run, x, end, step)

    def served(self, lane: Lane, run: RunLine) -> None:
        """What a live node made before its run line."""
        x, end = self.x(run.first), self.x((run.last or self.replay.last) + 1)
        self.parts.append(svg.rect(x, lane.y + 4, end - x, lane.height - 8, f"run {run.closing}", run.name, 3))
        self.parts.append(svg.text(x + 5, lane.y + 16, svg.fitting([run.name], end - x - 8), "label inside"))

    def run(self, lane: Lane, run: RunLine, x: float, end: float, is_narrow: bool) -> None:
        closing = run.closing or "not closed"
        title = f"run {run.number} at {run.milliseconds} ms: lines {run.first} to {run.last or '?'}, {closing}"
        narrow = (" narrow even" if run.number % 2 == 0 else " narrow") if is_narrow else ""
        kind, radius = f"run {closing}{narrow}", 0 if is_narrow else 3
        drawn = svg.rect(x, lane.y + 4, end - x, lane.height - 8, kind, title, radius)
        address = self.linked.get(run.number)
        self.parts.append(svg.link(address, drawn) if address else drawn)

    def run_name(self, lane: Lane, run: RunLine, x: float, end: float, step: int) -> None:
        number = str(run.number)
        number = svg.fitting([f"run {number} at {run.milliseconds} ms", f"run {number}", number], end - x - 8)
        if not number or number.endswith("…"):
            number = str(run.number) if run.number % step == 0 else ""
        if number:
            is_small = end - x < len(number) * svg.CHARACTER + 8
            room = len(number) * (svg.SMALL if is_small else svg.CHARACTER)
            place = min(x + (1 if is_small else 5), self.width - room)
            self.parts.append(svg.text(place, lane.y + 16, number, "small inside" if is_small else "label inside"))

    def events(self, lane: Lane) -> None:
        moments = [mark.moment for mark in self.marks_in.get(lane.name, ())]
        self.bars(lane, self.counted(self.replay.ticks_of(lane.name) + moments), "busy")

    def task(self, lane: Lane) -> None:
        """How much of each part an activation of the task runs."""
        busy = [0.0] * PARTS
        for bar in self.bars_in.get(lane.name, ()):
            if bar.depth == 0:
                self.cover(busy, max(bar.first, self.replay.first), min(bar.last or self.replay.last, self.replay.last))
        self.bars(lane, busy, "busy")

    def cover(self, busy: list[float], first: int, last: int) -> None:
        """Adds the moments from the first to the last to the parts in which they lie."""
        for part in range(self.part_of(first), self.part_of(last) + 1):
            begin = self.replay.first + part * self.per_part
            busy[part] += max(0.0, min(last + 1, begin + self.per_part) - max(first, begin))

    def counted(self, moments: list[int]) -> list[float]:
        counts = [0.0] * PARTS
        for moment in moments:
            counts[self.part_of(moment)] += 1
        return counts

    def bars(self, lane: Lane, counts: list[float], kind: str) -> None:
        """A bar for each part: its height is the share of the part's lines."""
        room = lane.height - 8
        for part, count in enumerate(counts):
            if count:
                height = max(2.0, room * min(1.0, count / self.per_part))
                title = (
                    f"{count / self.per_part:.0%} of the lines from {self.replay.first + part * self.per_part:,.0f} on"
                )
                self.parts.append(svg.rect(part * PART, lane.y + 4 + room - height, PART, height, kind, title))

    def modes(self, lane: Lane) -> None:
        self.texts(lane, self.replay.modes[lane.name])

    def texts(self, lane: Lane, changes: list[Change]) -> None:
        """Each text as a segment, or how often there is a change."""
        if len(changes) > MOST_SEGMENTS:
            self.bars(lane, self.counted([change.moment for change in changes]), "span")
            return
        for number, change in enumerate(changes):
            x = self.x(change.moment)
            end = self.x(changes[number + 1].moment) if number + 1 < len(changes) else self.width
            if end > x:
                title = f"{lane.name} from line {change.moment} on: {change.text} {change.state}"
                narrow = " narrow" if end - x < NARROW else ""
                self.parts.append(svg.rect(x, lane.y + 4, end - x, lane.height - 8, change.state + narrow, title, 3))
                self.parts.append(svg.text(x + 4, lane.y + 17, svg.fitting([change.text], end - x - 6), "label inside"))

    def queue(self, lane: Lane) -> None:
        """The least and the greatest fill of each part, and where something was lost."""
        queue = self.replay.queues[lane.name]
        self.parts.append(svg.line(0, lane.y + 5, self.width, lane.y + 5, "limit"))
        self.spans(lane, self.spanned([(fill.moment, fill.count) for fill in queue.fills]), 0, queue.length)
        for part in {self.part_of(fill.moment) for fill in queue.fills if fill.has_lost}:
            title = f"{lane.name} is full, and what comes is lost"
            self.parts.append(svg.rect(part * PART, lane.y + 3, PART, lane.height - 6, "lost", title))

    def value(self, lane: Lane) -> None:
        """Of numbers the least and the greatest of each part; else what is set."""
        changes = self.replay.values[lane.name]
        numbers = [number for change in changes if (number := first_number(change)) is not None]
        if len(numbers) < len(changes):
            self.texts(lane, changes)
        elif len(set(numbers)) < 2:
            self.constant(lane, changes)
        else:
            moments = [change.moment for change in changes]
            self.spans(lane, self.spanned(list(zip(moments, numbers))), min(numbers), max(numbers))

    def constant(self, lane: Lane, changes: list[Change]) -> None:
        """A value that is always the same."""
        if changes:
            x = self.x(changes[0].moment)
            self.parts.append(svg.rect(x, lane.y + 4, self.width - x, lane.height - 8, "set", "", 3))
            shown = svg.fitting([f"always {changes[0].text}"], self.width - x - 8)
            self.parts.append(svg.text(x + 6, lane.y + 17, shown, "label inside"))

    def spanned(self, numbers: list[tuple[int, int]]) -> dict[int, tuple[int, int, int]]:
        """Of each part the least, the greatest and the last of the numbers that come at its moments."""
        spans: dict[int, tuple[int, int, int]] = {}
        for moment, number in numbers:
            part = self.part_of(moment)
            least, most, _ = spans.get(part, (number, number, number))
            spans[part] = (min(least, number), max(most, number), number)
        return spans

    def spans(self, lane: Lane, spans: dict[int, tuple[int, int, int]], low: int, high: int) -> None:
        """Draws the least and the greatest number of each part, from what held before it. Equal parts are one."""
        held: tuple[int, int, int] | None = None
        drawn: list[tuple[int, int, int, int]] = []  # the first part, the one behind the last, the least, the greatest
        for part in range(PARTS):
            least, most, last = spans.get(part) or held or (0, 0, 0)
            if part in spans and held:
                least, most = min(least, held[2]), max(most, held[2])
            held = (last, last, last) if part in spans else held
            if held and drawn and drawn[-1][1:] == (part, least, most):
                drawn[-1] = (drawn[-1][0], part + 1, least, most)
            elif held:
                drawn.append((part, part + 1, least, most))
        room = lane.height - 10
        for first, end, least, most in drawn:
            top = lane.y + 4 + room * (high - most) / (high - low)
            height = 2 + room * (most - least) / (high - low)
            title = f"{lane.name} from {least} to {most}"
            self.parts.append(svg.rect(first * PART, top, (end - first) * PART, height, "span", title))


def first_number(change: Change) -> int | None:
    """The first word of a value, or none where it is no number."""
    word = change.text.split(",")[0]
    return int(word) if word.lstrip("-").isdigit() else None
