"""A replay as a Value Change Dump, and the save file with which GTKWave shows all of it in order."""

from __future__ import annotations

from dataclasses import dataclass
from math import log2

from rte_tools.causes import Queue
from rte_tools.description import Description
from rte_tools.exports import NOTE, task_name
from rte_tools.lanes import by_lane
from rte_tools.replay import ELSEWHERE, Bar, Change, Replay

BIT, NUMBER, TEXT = "wire", "integer", "string"
WIDTHS = {BIT: 1, NUMBER: 64, TEXT: 1}
FORMS = {BIT: "@28", NUMBER: "@420", TEXT: "@820"}  # of GTKWave: binary, signed decimal, text
FRAMES = 5.5  # of 200 pixels, in a window of 1600
HEADING = "@200"


@dataclass(frozen=True)
class Signal:
    scope: str
    kind: str
    name: str

    @property
    def path(self) -> str:
        return f"{self.scope}.{self.name}"


class Wires:
    """The variables of a Value Change Dump, each with an identifier, and their changes."""

    def __init__(self) -> None:
        self.declared: list[str] = []
        self.signals: list[Signal] = []
        self.scopes: list[str] = []
        self.changes: list[tuple[int, str]] = []

    def declare(self, kind: str, name: str) -> str:
        """Declares a variable; gives its identifier."""
        plain = "".join(letter if letter.isalnum() else "_" for letter in name)
        self.signals.append(Signal(".".join(self.scopes), kind, plain))
        number, identifier = len(self.signals), ""
        while number:
            number, digit = divmod(number, 94)
            identifier += chr(33 + digit)
        self.declared.append(f"$var {kind} {WIDTHS[kind]} {identifier} {plain} $end")
        return identifier

    def scope(self, name: str) -> None:
        self.scopes.append(name)
        self.declared.append(f"$scope module {name} $end")

    def leave(self) -> None:
        self.scopes.pop()
        self.declared.append("$upscope $end")

    def bit(self, moment: int, identifier: str, value: int) -> None:
        self.changes.append((moment, f"{value}{identifier}"))

    def number(self, moment: int, identifier: str, value: int) -> None:
        self.changes.append((moment, f"b{value & (1 << 64) - 1:b} {identifier}"))

    def text(self, moment: int, identifier: str, value: str) -> None:
        self.changes.append((moment, f"s{value} {identifier}"))


def vcd(description: Description, replay: Replay) -> str:
    """A bit for each runnable that runs, a text for each mode machine, a number for each queue and word of a value."""
    wires = wires_of(description, replay)
    head = [f"$comment {NOTE} $end", "$timescale 1 ns $end", *wires.declared, "$enddefinitions $end"]
    return "\n".join(head + moments(wires.changes)) + "\n"


def wires_of(description: Description, replay: Replay) -> Wires:
    wires, bars = Wires(), by_lane(replay.bars)
    environment_of(wires, replay)
    for core in range(description.cores):
        wires.scope(f"core_{core}")
        for task in description.tasks.values():
            if task.of == core:
                runs_of(wires, replay, task.name, bars.get(task.name, []))
        wires.leave()
    if ELSEWHERE in bars:
        runs_of(wires, replay, ELSEWHERE, bars[ELSEWHERE])
    for scope, held, declared in (
        ("modes", replay.modes, mode_of),
        ("queues", replay.queues, fill_of),
        ("values", replay.values, words_of),
    ):
        if held:
            wires.scope(scope)
            for name, changes in held.items():
                declared(wires, name, changes)
            wires.leave()
    return wires


def environment_of(wires: Wires, replay: Replay) -> None:
    wires.scope("environment")
    ticks, running = wires.declare(NUMBER, "ticks"), wires.declare(BIT, "run_line")
    wires.number(replay.first - 1, ticks, replay.passed)
    wires.bit(replay.first - 1, running, 0)
    for number, moment in enumerate(replay.ticks, replay.passed + 1):
        wires.number(moment, ticks, number)
    for run in replay.runs:
        wires.bit(max(run.first, replay.first), running, 1)
        if run.last is not None and run.last <= replay.last:
            wires.bit(run.last, running, 0)
    wires.leave()


def runs_of(wires: Wires, replay: Replay, task: str, bars: list[Bar]) -> None:
    wires.scope(task_name(task))
    identifiers = {key: wires.declare(BIT, key) for key in dict.fromkeys(bar.key for bar in bars)}
    for identifier in identifiers.values():
        wires.bit(replay.first - 1, identifier, 0)
    for bar in bars:
        wires.bit(max(bar.first, replay.first), identifiers[bar.key], 1)
        if bar.last is not None and bar.last <= replay.last:
            wires.bit(bar.last, identifiers[bar.key], 0)
    wires.leave()


def mode_of(wires: Wires, name: str, changes: list[Change]) -> None:
    """The mode that holds, or the one to which the machine goes."""
    identifier = wires.declare(TEXT, name)
    for change in changes:
        wires.text(change.moment, identifier, change.text if change.state == "set" else f"to_{change.text}")


def fill_of(wires: Wires, name: str, queue: Queue) -> None:
    """How much waits, and a bit that is 1 at each moment at which something is lost."""
    count, lost = wires.declare(NUMBER, f"{name}_waiting"), wires.declare(BIT, f"{name}_lost")
    for fill in queue.fills:
        wires.number(fill.moment, count, fill.count)
        wires.bit(fill.moment, lost, int(fill.has_lost))
        if fill.has_lost:
            wires.bit(fill.moment + 1, lost, 0)


def words_of(wires: Wires, name: str, changes: list[Change]) -> None:
    """A number for each word of a value, and a bit that tells that it is invalid."""
    width = max((len(change.text.split(",")) for change in changes), default=1)
    identifiers = [wires.declare(NUMBER, f"{name}_{word}" if width > 1 else name) for word in range(width)]
    invalid = wires.declare(BIT, f"{name}_invalid") if any(change.state == "invalid" for change in changes) else ""
    for change in changes:
        if invalid:
            wires.bit(change.moment, invalid, int(change.state == "invalid"))
        for identifier, word in zip(identifiers, change.text.split(",")):
            if word.lstrip("-").isdigit():
                wires.number(change.moment, identifier, int(word))


def moments(changes: list[tuple[int, str]]) -> list[str]:
    """The changes in order, each moment once."""
    lines: list[str] = []
    now = None
    for moment, text in sorted(changes, key=lambda change: change[0]):
        if moment != now:
            lines.append(f"#{moment}")
            now = moment
        lines.append(text)
    return lines


# ---- GTKWave


def save_file(description: Description, replay: Replay, dump: str) -> str:
    """All signals below the names of their scopes, each in a form that fits it, with the whole dump in sight."""
    lines = [f"[*] {NOTE}", f'[dumpfile] "{dump}"', "[timestart] 0", "[size] 1600 900", "[sst_expanded] 0"]
    lines += [f"*{zoom(replay.last - replay.first):.6f} {replay.first}" + " -1" * 26, "[signals_width] 320"]
    scope = ""
    for signal in wires_of(description, replay).signals:
        if signal.scope != scope:
            scope = signal.scope
            lines += [HEADING, f"-{scope}"]
        lines += [FORMS[signal.kind], signal.path]
    return "\n".join(lines) + "\n"


def zoom(length: int) -> float:
    """The zoom at which so many moments fill a window: minus the power of two that a frame of GTKWave has."""
    return -log2(max(1, length) / FRAMES)
