"""Why a trace is refused at a line, and what the bus would have answered there. The lines before it are legal."""

from __future__ import annotations

import re
from dataclasses import dataclass, field
from typing import Iterator

from rte_tools.activation import Answer, Value, Wish
from rte_tools.bus import Bus, Held, split_actor, value_of
from rte_tools.bus_plan import ENVIRONMENT, BusPlan, Name
from rte_tools.hint_case import quoted
from rte_tools.names import nearest
from rte_tools.trace import CLOSINGS, HEADER, OF_LISTS, PARTS, RUN, Line, read_line

CLAUSES = {
    6: "what acts does not do what its program asks for",
    7: "unqueued data: a read gives the last value, and the first code that fits",
    8: "queued data: the k-th value received is the k-th accepted",
    9: "calls: requests start in their order, and an answer is the return of its own request",
    10: "exclusive areas: an area is entered while nobody is in it",
    11: "modes: the phase may not come, or the answer is another",
    12: "admission: an event is admitted exactly if no mode disables it",
    13: "the event is not pending",
    15: "the closing word does not hold",
    16: "this is not the script's next call or run mark, or it stands on the wrong side of one",
}
GIVING = ("write", "publish", "publishAll", "send", "ask", "return")  # the verbs whose value the actor gives
LONGEST_LINE = 2048
ENOUGH = 100_000


@dataclass
class Reading:
    """How far the lines before the refused one go."""

    bus: Bus
    inside: bool = False  # a run line
    made: int = 0  # entries of runnables and machines since the run mark
    done: int = 0  # calls and run marks of the script
    starts: dict[str, int] = field(default_factory=dict)  # by event, the line of its last start


def read_before(plan: BusPlan, version: str, lines: list[str]) -> Reading:
    """Goes through the legal lines behind the header."""
    reading = Reading(Bus(plan, version))
    for number, text in enumerate(lines, 2):
        line = read_line(number, text)
        if line.verb == RUN and not line.actor:
            reading.inside, reading.made = True, 0
        elif line.verb in CLOSINGS and not line.actor:
            reading.inside = False
        elif line.actor != ENVIRONMENT:
            reading.made += 1
        reading.done += line.actor == ENVIRONMENT or line.verb == RUN
        reading.bus.note(line)
    return reading


# ---- a line as text


def value_text(value: Value) -> str:
    return ",".join(map(str, value)) or "-"


def spelled(bus: Bus, actor: str, wish: Wish, answer: Answer) -> str:
    """The line of a wish with what the bus answers it."""
    given = value_text(wish.value if wish.verb in GIVING else answer.value)
    code = wish.number if wish.verb == "return" else answer.code
    said = ("no", "yes")[answer.code & 1] if wish.verb == "admit" else str(code)
    parts = {"target": wish.target, "value": given, "code": str(code), "answer": said, "mode": ""}
    parts |= {"list": wish.target, "marks": wish.marks}
    if wish.verb in ("switch", "mode"):
        owner = ENVIRONMENT if actor == ENVIRONMENT else split_actor(actor)[0]
        machine = bus.plan.mode_ports.get((owner, wish.target), (owner, wish.target))
        parts["mode"] = bus.mode_text(machine, wish.number if wish.verb == "switch" else answer.code)
    return " ".join([actor, wish.verb, *(parts[name] for name in PARTS.get(wish.verb, ()))])


def wish_of(line: Line, bus: Bus) -> Wish:
    """What a line asks for, without what it says that the bus answered."""
    given = value_of(line.part("value")) if line.verb in GIVING else ()
    number = int(line.part("code")) if line.verb == "return" else wished_mode(line, bus)
    return Wish(line.verb, line.part("target") or line.part("list"), given, number, line.part("marks"))


def wished_mode(line: Line, bus: Bus) -> int:
    if line.verb != "switch":
        return 0
    owner = ENVIRONMENT if line.actor == ENVIRONMENT else split_actor(line.actor)[0]
    return bus.mode_number((owner, line.part("target")), line.part("mode"))


# ---- the script


def script_lines(text: str) -> Iterator[tuple[int, str, int]]:
    """The lines that do something: the number, the text, and how many calls or run marks they are."""
    for number, line in enumerate(text.split("\n"), 1):
        if line and not line.startswith("#"):
            yield number, line, int(line.split(" ")[1]) if line.startswith("tick ") else 1


def next_order(script: str, done: int) -> str:
    """What the script asks for after so many calls and run marks."""
    for number, line, count in script_lines(script):
        if done < count:
            if count > 1:
                return f"The script goes on with line {number}, `{line}`, of which {done:,} ticks are done."
            return f"The script goes on with line {number}, `{line}`."
        done -= count
    return "The script is done."


# ---- what is said of each clause


def explain_illegal(clause: int, line: Line | None, reading: Reading, script: str) -> Iterator[str]:
    """Sentences on a refused line; without a line the trace ends too early."""
    bus = reading.bus
    if clause == 16:
        yield from out_of_order(line, reading, script)
    elif clause == 15:
        yield from no_closing(line, reading)
    elif line.verb == "start":
        yield from no_start(clause, line, bus)
    elif line.verb == "phase":
        instance, _, name = line.actor.partition(".")
        step = bus.phase((instance, name))
        said = step.why if isinstance(step, Held) else f"`phase {step}` comes next"
        yield f"The machine's last phase is `{bus.stages[instance, name]}`: {said}."
    elif clause == 6:
        yield from another_wish(line, bus)
    else:
        yield from another_answer(line, wish_of(line, bus), bus)


def out_of_order(line: Line | None, reading: Reading, script: str) -> Iterator[str]:
    if line is None:
        yield "The trace ends within a run line." if reading.inside else "The trace ends here, and its script does not."
    elif reading.inside:
        yield "It stands within a run line, which no closing word has ended yet."
    elif line.actor not in (ENVIRONMENT, ""):
        yield "It stands outside a run line, where only the script's calls and run marks come."
    if line is None and reading.inside:
        yield still(reading.bus)
    yield next_order(script, reading.done)


def no_closing(line: Line, reading: Reading) -> Iterator[str]:
    if not reading.inside:
        yield "It stands outside a run line."
    elif line.verb == "unsettled":
        yield f"The run line has made {reading.made:,} entries, and `unsettled` holds from {ENOUGH:,} on."
    else:
        yield still(reading.bus)


def still(bus: Bus) -> str:
    may = bus.may_step()
    return f"Something may still step: {may}." if may else "Nothing may step, so `idle` holds."


def another_wish(line: Line, bus: Bus) -> Iterator[str]:
    """The actor rule: what the activation does next."""
    if line.actor not in bus.running:
        yield f"No activation of `{line.actor}` runs."
    elif line.actor in bus.waits_for:
        yield f"`{line.actor}` waits until `{bus.waits_for[line.actor]}` has ended."
    else:
        yield from another_answer(line, bus.running[line.actor].next, bus)


def another_answer(line: Line, wish: Wish, bus: Bus) -> Iterator[str]:
    answer = bus.answer(line.actor, wish)
    if isinstance(answer, Held):
        yield f"`{wish.verb} {wish.target}` is held back: {answer.why}."
        return
    yield f"The line would be `{spelled(bus, line.actor, wish, answer)}`."
    yield from why_so(line, wish, bus)


def why_so(line: Line, wish: Wish, bus: Bus) -> Iterator[str]:
    """Where what is answered comes from."""
    owner = ENVIRONMENT if line.actor == ENVIRONMENT else split_actor(line.actor)[0]
    name = (owner, wish.target)
    if wish.verb in ("read", "fetch"):
        group = bus.plan.elements[name].group
        if group in bus.invalid:
            yield f"It was invalidated in line {bus.invalid[group]}."
        yield f"The value {origin_of(name, bus)}."
    elif wish.verb == "fetchAll":
        for element in bus.plan.list_of(line.actor, wish.target).elements:
            yield f"The value of `{element}` {origin_of((owner, element), bus)}."
    elif wish.verb == "receive" and bus.queues[name]:
        yield f"The oldest value was sent in line {bus.queues[name][0][1]}."
        if name in bus.lost:
            yield f"The value of line {bus.lost[name]} was lost."
    elif wish.verb in ("answer", "result"):
        point = bus.point(line.actor, wish)
        if point in bus.outstanding and point in bus.returned:
            yield f"The server returned in line {bus.returned[point][1]}."


def origin_of(name: Name, bus: Bus) -> str:
    """Where the value of an element comes from."""
    group = bus.plan.elements[name].group
    if group in bus.last_write:
        return f"was written in line {bus.last_write[group][1]}"
    return "is the initial one, since nothing was written"


def no_start(clause: int, line: Line, bus: Bus) -> Iterator[str]:
    instance, runnable, point = split_actor(line.actor)
    name = line.part("event")
    event = bus.plan.events[instance, name]
    if clause == 6 and line.actor in bus.running:
        yield f"`{line.actor}` runs since its start, and asks for `{bus.running[line.actor].next.verb}`."
    elif clause == 6 and event.runnable != runnable:
        yield f"The event `{name}` starts `{event.runnable}`."
    elif clause == 6:
        yield "A direct server starts right behind the `ask` of its caller."
    elif clause == 9 and point and line.fields[2] != point:
        yield f"The activation serves `{point}`."
    elif clause == 9:
        first, value = bus.requests[point or event.of][0]
        yield f"The oldest request is that of `{first}` with the value `{value_text(value)}`."
    else:
        yield not_pending(event, bus)


def not_pending(event, bus: Bus) -> str:
    """Why an event is not pending."""
    if event.kind == "TimingEvent":
        return f"The period is {event.of:,}, and {bus.ticks:,} ticks have passed; a start clears what is pending."
    if event.kind == "OperationInvokedEvent":
        return "No request waits."
    if event.kind == "InitEvent":
        return "It starts its runnable once."
    return "What makes it pending has not come since its last start."


# ---- lines without a reading


def explain_bad(text: str | None, ends: bool, number: int, plan: BusPlan, version: str = "2") -> Iterator[str]:
    """Sentences on a line that spells no entry of the description."""
    if text is None:
        yield "There is no such line."
    elif "\r" in text:
        yield "It ends with a carriage return: the file has the line ends of Windows (CRLF). Lines end by a newline alone."
    elif text.startswith("\ufeff"):
        yield "The trace begins with a byte order mark. Save it as UTF-8 without one."
    elif number == 1:
        yield f"The first line is `{HEADER}1` or `{HEADER}2`."
    elif not ends:
        yield "The line has no newline at its end: the trace was cut, or its last newline is missing."
    elif len(text.encode("utf-8", "surrogateescape")) > LONGEST_LINE:
        yield f"It has more than {LONGEST_LINE:,} bytes."
    elif text == "":
        yield "It is empty. A trace has no empty lines."
    elif text != " ".join(text.split()):
        yield "Fields stand one space apart, with none before or behind them."
    else:
        yield from of_version(read_line(number, text), version)
        yield from misfits(read_line(number, text), plan)


def of_version(line: Line, version: str) -> Iterator[str]:
    """That a mode is spelled as in the other version."""
    mode = line.part("mode")
    if mode and version == "1" and not mode.isdigit():
        yield f"The header is `{HEADER}1`, in which a mode stands by its number. `{mode}` is that of `{HEADER}2`."
    if mode and version == "2" and mode.isdigit():
        yield f"The header is `{HEADER}2`, in which a mode stands by its name. `{mode}` is that of `{HEADER}1`."


def misfits(line: Line, plan: BusPlan) -> Iterator[str]:
    """What in the line has no reading, as far as it shows."""
    if not line.verb or not line.actor:
        yield f"A line has an actor and a verb, or is `{RUN}`, `idle` or `unsettled`."
        return
    actors = actor_names(plan)
    if line.actor.partition("@")[0] not in actors:
        yield f"Nothing that acts is named `{line.actor}`{nearest(line.actor, actors)}."
        return
    verbs = {*PARTS, "end", "tick"}
    if line.verb not in verbs:
        yield f"There is no `{line.verb}`{nearest(line.verb, verbs)}."
        return
    parts = PARTS.get(line.verb, ())
    if line.verb not in ("start", "phase") and len(line.fields) != len(parts):
        yield f"Behind `{line.verb}` stand {len(parts)} fields: {', '.join(parts) or 'none'}."
        return
    yield from bad_numbers(line)
    if line.verb in OF_LISTS:
        yield from bad_list(line, plan)
        return
    target = line.part("target")
    owner = ENVIRONMENT if line.actor == ENVIRONMENT else split_actor(line.actor)[0]
    names = [name for path, name in all_names(plan) if path == owner]
    if target and target not in names:
        yield f"`{owner}` has no `{target}`{nearest(target, names)}."
    else:
        yield f"No `{line.verb}` of `{line.actor}` with these fields fits the description: docs/FORMAT.md, The trace."


def bad_numbers(line: Line) -> Iterator[str]:
    """Codes and values that are not spelled as such."""
    code, value = line.part("code"), line.part("value")
    if code and not (re.fullmatch(r"0|[1-9][0-9]{0,2}", code) and int(code) < 256):
        yield f"`{code}` is no code: a number from 0 to 255 without leading zeros."
    if value and not re.fullmatch(r"-|(0|-?[1-9][0-9]*)(,(0|-?[1-9][0-9]*)){0,15}", value):
        yield f"`{value}` is no value: at most 16 words in decimal joined by commas, or `-`."


def bad_list(line: Line, plan: BusPlan) -> Iterator[str]:
    """A list that the runnable does not have, or that the line does not fit."""
    instance, runnable, _ = split_actor(line.actor)
    lists = plan.lists.get((instance, runnable), [])
    number = line.part("list")
    if number not in map(str, range(len(lists))):
        have = f"has the coherent lists 0 to {len(lists) - 1}" if lists else "has no coherent list"
        yield f"There is no list `{number}`: `{line.actor.partition('@')[0]}` {have}."
        return
    held = lists[int(number)]
    if held.reads != (line.verb == "fetchAll"):
        yield f"List {number} is one of {'reads' if held.reads else 'writes'}: {quoted(held.elements)}."
    elif line.verb == "publishAll" and re.fullmatch(f"[01]{{{len(held.elements)}}}", line.part("marks")) is None:
        yield f"`{line.part('marks')}` has not one digit, 0 or 1, for each of {quoted(held.elements)}."
    else:
        yield "The value has not as many words as the marked elements have together."


def actor_names(plan: BusPlan) -> list[str]:
    machines = [".".join(name) for name in plan.machines]
    return [ENVIRONMENT, *machines, *(":".join(name) for name in plan.runnables)]


def all_names(plan: BusPlan) -> Iterator[tuple[str, str]]:
    """All that a line may name behind an actor, with the instance."""
    for held in (plan.elements, plan.results, plan.machines, plan.mode_ports, plan.areas):
        yield from held
    for point in plan.points.values():
        if point.runnable:
            yield point.owner, point.name
