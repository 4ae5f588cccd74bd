"""Whether a trace is of a description at all: each name in it is one of the description's."""

from __future__ import annotations

from collections import defaultdict

from rte_tools.bus import split_actor
from rte_tools.bus_plan import BusPlan
from rte_tools.trace import PARTS, Line, Trace
from rte_tools.verdicts import actor_names, all_names, misfits

VERBS = {*PARTS, "end", "tick"}


def stranger(trace: Trace, plan: BusPlan) -> tuple[Line, str] | None:
    """The first line that speaks of what the description does not have, and why; or none."""
    actors, targets = set(actor_names(plan)), defaultdict(set)
    for path, name in all_names(plan):
        targets[path].add(name)
    known: set[tuple[str, str, str]] = set()  # what was looked at before: a long trace says the same again and again
    for line in trace.lines:
        said = (line.actor, line.verb, line.fields[0] if line.fields else "")
        if said not in known and line.actor and not is_own(line, plan, actors, targets):
            return line, next(misfits(line, plan))
        known.add(said)
    return None


def is_own(line: Line, plan: BusPlan, actors: set[str], targets: dict[str, set[str]]) -> bool:
    owner, runnable, _ = split_actor(line.actor)
    if line.actor.partition("@")[0] not in actors or line.verb not in VERBS:
        return False
    if line.verb == "start":
        event = plan.events.get((owner, line.part("event")))
        return event is not None and event.runnable == runnable
    target = line.part("target")
    return not target or target in targets[owner]
