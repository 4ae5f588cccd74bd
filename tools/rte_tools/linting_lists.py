"""Elements that belong together, as far as it shows, and are fetched or published one by one.

They do if one runnable writes several of them and another one, in another task, fetches these. Within one task nothing comes between.
"""

from __future__ import annotations

from dataclasses import dataclass
from functools import cached_property
from typing import Iterator

from rte_tools.description import Component, Description, Runnable
from rte_tools.finding import Finding
from rte_tools.joins import End, Joins

Pair = tuple[str, str]  # a port and an element


@dataclass(frozen=True)
class Place:
    """A runnable of an instance."""

    path: str
    component: Component
    runnable: Runnable


class Walk:
    """The runnables of instances, and what is looked up for each pair of them."""

    def __init__(self, description: Description):
        self.description = description
        self.joins = Joins(description)
        self.tasks: dict[tuple[str, str], set[str]] = {}
        types = {node.path: node.type for node in description.instances()}
        for held in description.mapped:
            event = types[held.instance].events.get(held.event) if held.instance in types else None
            if event:
                self.tasks.setdefault((held.instance, event.runnable), set()).add(held.task)

    @cached_property
    def places(self) -> list[Place]:
        return [
            Place(node.path, node.type, runnable)
            for node in self.description.instances()
            for runnable in node.type.runnables.values()
        ]

    @cached_property
    def writers(self) -> dict[End, list[Place]]:
        """Who writes at each end."""
        found: dict[End, list[Place]] = {}
        for place in self.places:
            for access in place.runnable.accesses:
                if access[0] in ("write", "iwrite"):
                    found.setdefault(End(place.path, access[1], access[2]), []).append(place)
        return found

    def written_by(self, reader: Place, pairs: list[Pair]) -> list[tuple[Place, list[Pair]]]:
        """The runnables of other tasks that write several of these elements of a reader, with those that they write."""
        found: dict[tuple[str, str], tuple[Place, list[Pair]]] = {}
        for pair in pairs:
            group = self.joins.group(End(reader.path, *pair))
            for end in group.provided if group else ():
                for writer in self.writers.get(end, ()):
                    _, held = found.setdefault((writer.path, writer.runnable.name), (writer, []))
                    held.append((end.port, end.item))
        return [(writer, held) for writer, held in found.values() if len(held) > 1 and not self.in_one_task(reader, writer)]

    def in_one_task(self, reader: Place, writer: Place) -> bool:
        tasks = {*self.tasks_of(reader), *self.tasks_of(writer)}
        return len(tasks) == 1 and "" not in tasks

    def tasks_of(self, place: Place) -> set[str]:
        """The tasks of a runnable; the empty name stands for the task of whoever calls a direct server."""
        return self.tasks.get((place.path, place.runnable.name), {""})


def one_by_one(description: Description) -> Iterator[Finding]:
    """Each fault of a runnable is told once, however many instances there are."""
    walk = Walk(description)
    told: set[str] = set()
    for reader in walk.places:
        for finding in (*fetched_one_by_one(walk, reader), *published_one_by_one(walk, reader)):
            if finding.text not in told:
                told.add(finding.text)
                yield finding


def fetched_one_by_one(walk: Walk, reader: Place) -> Iterator[Finding]:
    """Implicit reads of several elements of one port, which are in no list."""
    listed = {pair for pairs in reader.runnable.coherent for pair in pairs}
    alone = [access[1:] for access in reader.runnable.accesses if access[0] == "iread" and access[1:] not in listed]
    for port in dict.fromkeys(port for port, _ in alone):
        pairs = [pair for pair in alone if pair[0] == port]
        for writer, _ in walk.written_by(reader, pairs):
            first = reader.runnable.accesses.index(("iread", *pairs[0]))
            text = f"`{reader.runnable.name}` fetches {joined(pairs)} one by one, and `{writer.runnable.name}` may write between"
            yield Finding(f"{reader.runnable.place}/accesses/{first}", f"{text}: list them in `coherent`, if they belong together")
            return


def published_one_by_one(walk: Walk, reader: Place) -> Iterator[Finding]:
    """Elements that a list fetches at one moment, and of which a writer publishes several one by one."""
    for pairs in reader.runnable.coherent:
        if any(("iread", *pair) not in reader.runnable.accesses for pair in pairs):
            continue
        for writer, written in walk.written_by(reader, list(pairs)):
            if not any(set(written) <= set(held) for held in writer.runnable.coherent):
                at = [number for number, access in enumerate(writer.runnable.accesses) if access[1:] in written]
                text = f"`{writer.runnable.name}` writes {joined(written)} one by one, and `{reader.runnable.name}` fetches them at one moment"
                mend = "write them by `iwrite`, and list them in `coherent` too"
                yield Finding(f"{writer.runnable.place}/accesses/{at[0]}", f"{text}: {mend}")


def joined(pairs: list[Pair]) -> str:
    """`way.km` and `way.m`."""
    names = [f"`{port}.{element}`" for port, element in pairs]
    return f"{', '.join(names[:-1])} and {names[-1]}"
