"""Whether two traces of a description differ in more than the order of its cores.

They do not if each actor (the environment, a runnable of an instance, a machine) has the same lines in the same run lines, and at each
object the order is the same as far as it matters. Of live nodes each feed is an actor, and what is made before the word `stopped` may be made
in the run line too. The order that matters is that

- of what writes a group or sends to it, and how the starts by its data stand between;
- of the calls that a server accepts, and of the switches that a machine accepts;
- of the phases of a machine, and how the activations that it waits for stand between.

All else that an order changes, such as what a read gives or who is in an area first, is seen in the lines of actors.
"""

from __future__ import annotations

from collections import defaultdict
from dataclasses import dataclass
from typing import Hashable, Iterable, Iterator

from rte_tools.bus import split_actor
from rte_tools.bus_plan import ENVIRONMENT, BusPlan, Name
from rte_tools.trace import HEADER, LIVE, RUN, Line, Trace, by_element

CHANGES = {"write", "publish", "publishAll", "invalidate", "send", "ask", "switch", "phase"}
MODE_EVENTS = ("SwcModeSwitchEvent", "ModeSwitchedAckEvent")


@dataclass(frozen=True)
class Difference:
    """The first pair of lines that differs: of which actor or at which object, and a line is missing where the trace has no more."""

    where: str
    one: Line | None
    other: Line | None
    is_order: bool = False  # the actors have the same lines, and an object sees them in another order


def difference(one: Trace, other: Trace, plan: BusPlan) -> Difference | None:
    """The first difference that is more than the order of cores, or none."""
    if (one.version, one.is_live) != (other.version, other.is_live):
        return Difference("the header", header(one), header(other))
    return by_actor(one, other) or by_object(one, other, plan)


def header(trace: Trace) -> Line:
    return Line(1, LIVE if trace.is_live else f"{HEADER}{trace.version}", "", "", ())


# ---- actors


def by_actor(one: Trace, other: Trace) -> Difference | None:
    """The first line of either trace that has no equal one, at its place of its actor and in its run line, in the other."""
    theirs = gathered(of_actors(other))
    seen: dict[Hashable, int] = defaultdict(int)
    for actor, line, text in of_actors(one):
        place, held = seen[actor], theirs.get(actor, [])
        if place == len(held) or held[place][1] != text:
            return Difference(actor, line, held[place][0] if place < len(held) else None)
        seen[actor] += 1
    more = [(held[seen[actor]][0], actor) for actor, held in theirs.items() if len(held) > seen[actor]]
    if not more:
        return None
    line, actor = min(more, key=lambda found: found[0].number)
    return Difference(actor, None, line)


def of_actors(trace: Trace) -> Iterator[tuple[str, Line, Hashable]]:
    """Each line with its actor, and what has to be equal: the text, and in which run line it stands."""
    runs = 0
    for line in trace.lines:
        runs += not trace.is_live and not line.actor and line.verb == RUN
        yield f"feed {line.feed}" if line.feed else line.actor or ENVIRONMENT, line, (runs, line.text)


def gathered(found: Iterable[tuple[str, Line, Hashable]]) -> dict[str, list[tuple[Line, Hashable]]]:
    made: dict[str, list[tuple[Line, Hashable]]] = {}
    for key, line, text in found:
        made.setdefault(key, []).append((line, text))
    return made


# ---- objects


def by_object(one: Trace, other: Trace, plan: BusPlan) -> Difference | None:
    """The first object that sees its entries in another order, of two traces whose actors have the same lines."""
    theirs = gathered(of_objects(other, plan))
    found = []
    for name, mine in gathered(of_objects(one, plan)).items():
        pair = unequal(mine, theirs.get(name, []))
        if pair:
            found.append((pair[0].number if pair[0] else pair[1].number, Difference(name, *pair, is_order=True)))
    return min(found, key=lambda held: held[0])[1] if found else None


def unequal(mine: list[tuple[Line, Hashable]], theirs: list[tuple[Line, Hashable]]) -> tuple[Line, Line] | None:
    """The first pair that differs. Between two changes the entries may stand in any order."""
    for (line, text), (their_line, their_text) in zip(settled(mine), settled(theirs)):
        if text != their_text:
            return line, their_line
    return None


def settled(entries: list[tuple[Line, Hashable]]) -> Iterator[tuple[Line, Hashable]]:
    """The entries, those between two changes in the order of their texts."""
    between: list[tuple[Line, Hashable]] = []
    for line, text in entries:
        if line.verb not in CHANGES:
            between.append((line, text))
            continue
        yield from sorted(between, key=lambda held: held[1])
        between.clear()
        yield line, text
    yield from sorted(between, key=lambda held: held[1])


def of_objects(trace: Trace, plan: BusPlan) -> Iterator[tuple[str, Line, Hashable]]:
    """Each line whose order among others of an object matters, with what the object is called."""
    started: dict[str, Name] = {}
    flagged = asked_whether_updated(plan)
    for line in trace.lines:
        owner = ENVIRONMENT if line.actor == ENVIRONMENT else split_actor(line.actor)[0]
        if line.verb == "start":
            started[line.actor] = (owner, line.part("event"))
        name = (owner, line.part("target"))
        if line.verb == "publishAll":
            for group in dict.fromkeys(groups_of(line, owner, plan)):
                yield group, line, line.text
        elif line.verb != "read" or name in flagged:
            found = object_of(line, name, started.get(line.actor), plan)
            if found:
                yield found, line, line.text


def asked_whether_updated(plan: BusPlan) -> set[Name]:
    """The elements of which a runnable asks whether they were updated: a read of these changes the answer."""
    return {
        (path, f"{access[1]}.{access[2]}")
        for (path, _), runnable in plan.runnables.items()
        for access in runnable.get("accesses", [])
        if access[0] == "isUpdated"
    }


def object_of(line: Line, name: Name, event: Name | None, plan: BusPlan) -> str:
    """The object at which the order of an entry matters, or nothing. The event is that by which its activation was started."""
    if line.verb in ("write", "publish", "invalidate", "send", "read"):
        return group_of(name, plan)
    if line.verb == "phase" and line.part("step") != "close":
        return f"the machine {line.actor}"
    if line.verb == "switch" and line.part("code") == "0":
        return f"the switches of {'.'.join(name)}"
    if line.verb == "ask" and line.part("code") == "0":
        return f"the server {'.'.join(server_of(line, name, plan) or ())}"
    machine = None
    if event and line.verb == "start":
        held = plan.events[event]
        if held.kind == "DataReceivedEvent":
            return group_of(held.of, plan)
        machine = held.of if held.kind in MODE_EVENTS else None
    elif event and (line.verb == "end" or line.text.endswith(" admit yes")):
        machine = awaited_by(event, plan)
    return f"the machine {'.'.join(machine)}" if machine else ""


def groups_of(line: Line, owner: str, plan: BusPlan) -> Iterator[str]:
    """The groups of the elements of a list that a line publishes."""
    elements = plan.list_of(line.actor, line.part("list")).elements
    for element, _ in by_element(line, elements, plan.words_of(line.actor)):
        yield group_of((owner, element), plan)


def group_of(name: Name, plan: BusPlan) -> str:
    return f"`{'.'.join(plan.elements[name].group)}`"


def server_of(line: Line, name: Name, plan: BusPlan) -> Name | None:
    """The server of a call."""
    own = f"{line.actor.partition('@')[0]}.{name[1]}"
    return plan.points[own if own in plan.points else plan.results[name]].server


def awaited_by(event: Name, plan: BusPlan) -> Name | None:
    """The machine that may wait for an activation: the one whose phase makes its event due, or that disables it."""
    held = plan.events[event]
    if held.kind in MODE_EVENTS:
        return held.of
    return held.disabled[0] if held.disabled else None
