"""Whether a trace is one of a description: whether what its lines name is there.

A trace may be wrong, and of a version that is not known. So only names are looked at, of lines whose form is known.
"""

from __future__ import annotations

from rte_tools.description import Component, Composition, Description
from rte_tools.names import nearest
from rte_tools.trace import PARTS, Line, Trace

ENVIRONMENT = "env"


def foreign(description: Description, trace: Trace) -> str:
    """What the first line names that the description does not have; nothing if there is no such line."""
    names = Names(description)
    for line in trace.lines:
        if line.actor and line.verb in PARTS and (found := names.missing(line)):
            return f"line {line.number} names {found}"
    return ""


class Names:
    """The instances of a description, each with its names. What was looked at once is kept."""

    def __init__(self, description: Description):
        self.description = description
        self.types = {node.path or ENVIRONMENT: node.type for node in description.nodes}
        self.seen: dict[tuple[str, str, str], str] = {}

    def missing(self, line: Line) -> str:
        key = (line.actor, line.verb, line.fields[0] if line.fields else "")
        if key not in self.seen:
            self.seen[key] = self.looked_up(line)
        return self.seen[key]

    def looked_up(self, line: Line) -> str:
        actor = line.actor.partition("@")[0]
        instance, _, runnable = actor.partition(":")
        if line.verb == "phase":
            instance = actor.rpartition(".")[0].rpartition(".")[0]
            return self.of_instance(instance) or self.of_target(instance, actor.removeprefix(f"{instance}."))
        held = self.types.get(instance)
        if found := self.of_instance(instance):
            return found
        if runnable and (not isinstance(held, Component) or runnable not in held.runnables):
            return f"the runnable `{actor}`, which the description does not have"
        if line.verb == "start":
            return self.of_event(instance, held, line.part("event"))
        return self.of_target(instance, line.part("target"))

    def of_instance(self, instance: str) -> str:
        if instance in self.types and (instance == ENVIRONMENT or isinstance(self.types[instance], Component)):
            return ""
        known = [path for path, held in self.types.items() if isinstance(held, Component)]
        return f"the instance `{instance}`, which the description does not have{nearest(instance, known)}"

    def of_event(self, instance: str, held: Component | Composition, event: str) -> str:
        if isinstance(held, Component) and event in held.events:
            return ""
        return f"the event `{event}` of `{instance}`, which the description does not have"

    def of_target(self, instance: str, target: str) -> str:
        """A target is an item of a port, or a variable or an area of the instance."""
        port, dot, item = target.partition(".")
        held = self.types[instance]
        if dot:
            is_there = port in held.ports and item in self.description.items(held.ports[port])
        else:
            is_there = not target or (isinstance(held, Component) and target in {**held.variables, **held.areas})
        return "" if is_there else f"`{target}` of `{instance}`, which the description does not have"
