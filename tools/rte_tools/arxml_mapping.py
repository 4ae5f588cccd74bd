"""The mapping: what an ECU configuration says, and what rules 26 to 28 want beside it."""

from __future__ import annotations

from dataclasses import dataclass, field

from rte_tools.arxml_compositions import Compositions, Held
from rte_tools.arxml_ecuc import Configuration, Mapped
from rte_tools.arxml_report import LeftOut, Work
from rte_tools.description import DEEPEST, MOST_INSTANCES, described
from rte_tools.joins import End, Joins

SERVER = "OperationInvokedEvent"
MOST_TASKS, LAST_POSITION = 256, 65535
ASKING = ("call", "acall", "result")


@dataclass(frozen=True, eq=False)
class Instance:
    """An instance of a component: its path, the prototypes that lead to it, and what it is."""

    path: str
    chain: tuple[str, ...]
    type_path: str
    made: dict


@dataclass
class Instances:
    """All instances below the root, depth first, as far as rule 10 allows."""

    found: list[Instance] = field(default_factory=list)
    by_chain: dict[tuple[str, ...], Instance] = field(default_factory=dict)
    by_last: dict[str, list[Instance]] = field(default_factory=dict)
    by_type: dict[str, list[Instance]] = field(default_factory=dict)

    def add(self, instance: Instance) -> None:
        self.found.append(instance)
        self.by_chain[instance.chain] = instance
        self.by_last.setdefault(instance.chain[-1], []).append(instance)
        self.by_type.setdefault(instance.type_path, []).append(instance)


def instances_below(work: Work, compositions: Compositions, root: Held) -> Instances:
    made, waiting = Instances(), [((), "", root.part.path)]
    while waiting and len(made.found) < MOST_INSTANCES:
        chain, path, type_path = waiting.pop()
        held = root if type_path == root.part.path else compositions.held.get(type_path)
        if held and len(chain) < DEEPEST:
            steps = [((*chain, each), f"{path}/{work.names.given[each]}".strip("/"), of) for each, of in held.prototypes.items()]
            waiting += reversed(steps)
        elif not held:
            made.add(Instance(path, chain, type_path, compositions.components.made[type_path]))
    return made


@dataclass
class Mapping:
    """Makes the mapping. Without instances (an ECU configuration alone) names are those of its references."""

    work: Work
    configuration: Configuration
    instances: Instances | None
    events: dict[tuple[str, str], dict] = field(default_factory=dict)  # the mapped ones, by instance and event
    tasks: dict[str, list[dict]] = field(default_factory=dict)  # the mapped events of each task, in order
    runnables: dict[tuple[str, str], str] = field(default_factory=dict)  # by instance and event
    homes: dict[tuple[str, str], str] = field(default_factory=dict)  # the task of each runnable that is mapped, by instance

    def __post_init__(self) -> None:
        for instance in self.instances.found if self.instances else []:
            for event in instance.made["behavior"].get("events", []):
                self.runnables[instance.path, event["shortName"]] = event["runnable"]

    def made(self, description: dict) -> dict:
        """The mapping of a description, which has none yet."""
        for task in self.configuration.tasks.values():
            self.tasks[task.name] = []
        for mapped in sorted(self.configuration.mapped, key=order_of):
            try:
                self.take(mapped)
            except LeftOut as why:
                self.work.report.left_out(mapped.part, str(why))
        cores = {task.name: task.core for task in self.configuration.tasks.values()}
        if self.instances:
            self.complete({**description, "mapping": {"cores": self.configuration.cores}})
        for task, events in self.tasks.items():
            self.number(task, events)
        return {
            "cores": self.configuration.cores,
            "tasks": [{"shortName": name, "core": cores.get(name, 0)} for name in self.tasks],
            "events": [event for events in self.tasks.values() for event in events],
        }

    # ---- what the ECU configuration says

    def take(self, mapped: Mapped) -> None:
        task = self.configuration.tasks.get(mapped.task)
        if not task:
            raise LeftOut(f"its task {mapped.task} is not in the files")
        instance, event = self.names_of(mapped)
        if (instance, event) in self.events:
            raise LeftOut("the event is mapped already")
        name, position = task.name, -1 if mapped.position is None else mapped.position
        home = self.home(instance, event)
        if home and home != name:
            self.work.report.changed(mapped.part, f"the event is mapped to {home}, as another one of its runnable, and not to {name}")
            name, position = home, -1
        self.put(instance, event, name, position)

    def put(self, instance: str, event: str, task: str, position: int) -> None:
        made = {"instance": instance, "event": event, "task": task, "position": position}
        self.events[instance, event] = made
        self.homes.setdefault((instance, self.runnables.get((instance, event), event)), task)
        self.tasks.setdefault(task, []).append(made)

    def names_of(self, mapped: Mapped) -> tuple[str, str]:
        """The path of the instance and the name of the event."""
        names, event = self.work.names, mapped.event.rpartition("/")[2]
        if not self.instances:
            return "/".join(names.form(path.rpartition("/")[2]) for path in mapped.prototypes), names.item(event, mapped.event)
        instance = self.instance_of(mapped)
        name = names.given.get(mapped.event, "")
        if not mapped.event.startswith(f"{instance.type_path}/") or (instance.path, name) not in self.runnables:
            raise LeftOut(f"the event {mapped.event} is none of {instance.path}, or left out")
        return instance.path, name

    def instance_of(self, mapped: Mapped) -> Instance:
        chain = tuple(path for path in mapped.prototypes if path in self.work.names.given)
        if chain in self.instances.by_chain:
            return self.instances.by_chain[chain]
        found = self.instances.by_last.get(mapped.prototypes[-1], [])
        if not found:
            component = mapped.event.rsplit("/", 2)[0]  # around its internal behaviour
            found = self.instances.by_type.get(component, [])
        if len(found) != 1:
            raise LeftOut(f"{mapped.prototypes[-1]} leads to {len(found)} instances, and not to one")
        return found[0]

    def home(self, instance: str, event: str) -> str:
        """The task in which another event of the same runnable is, by rule 27."""
        return self.homes.get((instance, self.runnables.get((instance, event), "")), "")

    # ---- what it does not say

    def complete(self, description: dict) -> None:
        """Maps what has to be mapped: a server that cannot run in its caller to a task of its own, all else to one task."""
        joins = Joins(described(description))
        for instance in self.instances.found:
            behaviour = instance.made["behavior"]
            runnables = {held["shortName"]: held for held in behaviour.get("runnables", [])}
            for event in behaviour.get("events", []):
                name = event["shortName"]
                if (instance.path, name) in self.events:
                    continue
                runnable = runnables[event["runnable"]]
                if event["kind"] != SERVER:
                    self.add(instance.path, name, self.home(instance.path, name) or "Added")
                elif not is_direct(runnable) or is_asked_from_outside(joins, instance.path, event):
                    self.add(instance.path, name, f"Serve_{instance.path.replace('/', '_')}_{name}")

    def add(self, instance: str, event: str, task: str) -> None:
        name = task
        if task not in self.tasks:
            shared = len(self.tasks) >= MOST_TASKS - 1
            name = "Servers" if shared else self.work.names.distinct("tasks", self.work.names.form(task))
        self.put(instance, event, name, -1)
        self.work.report.added(f"{instance}.{event}", f"mapped to the task {name}, since no ECU configuration maps it")

    def number(self, task: str, events: list[dict]) -> None:
        """Rule 4: positions are distinct in a task. Where they are not, all of the task are numbered anew, in order."""
        positions = [event["position"] for event in events]
        fits = len(set(positions)) == len(positions) and all(0 <= position <= LAST_POSITION for position in positions)
        if fits:
            return
        events.sort(key=lambda event: (event["position"] < 0, event["position"]))
        said = ", ".join(f"{event['instance']}.{event['event']} {number}" for number, event in enumerate(events))
        if any(position >= 0 for position in positions):
            self.work.report.added(task, f"its events are numbered anew, since positions have to be distinct: {said}")
        for number, event in enumerate(events):
            event["position"] = number


def order_of(mapped: Mapped) -> tuple[bool, int]:
    return (mapped.position is None, mapped.position or 0)


def is_direct(runnable: dict) -> bool:
    """Rule 28, but for the environment."""
    asks = any(access[0] in ASKING for access in runnable.get("accesses", []))
    return bool(runnable.get("canBeInvokedConcurrently")) and not asks


def is_asked_from_outside(joins: Joins, instance: str, event: dict) -> bool:
    group = joins.group(End(instance, event["port"], event["operation"]))
    return bool(group) and any(not end.instance for end in group.required)
