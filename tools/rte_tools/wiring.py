"""How parts of a description lead to one another: who hears a write, which queue a send reaches, what a phase starts.

It is made once, in one walk over the instances, and is asked for each line of a trace. An instance is named by its
path, and the environment by `env`.
"""

from __future__ import annotations

from collections import defaultdict
from dataclasses import dataclass

from rte_tools.description import Component, Composition, Description, Event, Item, Port
from rte_tools.joins import End, Joins
from rte_tools.trace import Line, by_element

ENVIRONMENT = "env"
DATA, REQUESTS, SWITCHES = "values", "requests", "switches"  # what waits in a queue
Name = tuple[str, str]  # an instance, and an event, a variable or `PORT.ITEM`


@dataclass(frozen=True)
class QueuePlan:
    """A queue of the description: of a receiver, of a server that is mapped, or of a mode machine."""

    name: str
    kind: str
    length: int


@dataclass(frozen=True)
class ServerPlan:
    name: str
    is_direct: bool


class Wiring:
    """What is looked up while a trace is gone through."""

    def __init__(self, description: Description):
        self.description = description
        self.joins = Joins(description)
        self.types = {node.path or ENVIRONMENT: node.type for node in description.nodes}
        self.tasks = {(held.instance, held.event): held.task for held in description.mapped}
        self.order: dict[str, int] = {}  # the place of each end and variable in the plan, by its name
        self.queues: dict[str, QueuePlan] = {}  # by the name of the receiver, server or machine
        self.receivers: dict[str, list[str]] = {}  # by the name of a queued group: its queues
        self.machines: dict[str, Item] = {}
        self.periods: dict[Name, int] = {}
        self.first_due: list[Name] = []  # the events that are due from the beginning
        self.heard_by: dict[str, list[Name]] = defaultdict(list)  # by the name of a group or a queue
        self.flags: dict[Name, Name] = {}  # events on the return of one operation share a flag, which has its name
        self.switched: dict[tuple[str, ...], list[Name]] = defaultdict(list)  # by a machine, the moment and the modes
        self.acknowledged: dict[str, list[Name]] = defaultdict(list)  # by a machine
        self.results: dict[Name, str] = {}  # by an instance and `PORT.OPERATION`: the point of its `acall`
        self.groups: dict[Name, str] = {}  # the names that were asked for
        self.servers: dict[Name, ServerPlan | None] = {}  # those that were asked for
        instances = [(node.path, node.type) for node in description.instances()]
        for path, component in instances:
            self.ports(path, component)
            self.variables(path, component)
        if root := self.types.get(ENVIRONMENT):
            self.ports("", root)
        for path, component in instances:
            for event in component.events.values():
                self.event(path, event)

    def group(self, instance: str, target: str) -> str:
        """The first end of the group that is written or read, or the name of an inter-runnable variable."""
        if (instance, target) not in self.groups:
            port, dot, item = target.partition(".")
            end = End("" if instance == ENVIRONMENT else instance, port, item)
            group = self.joins.group(end) if dot else None
            self.groups[instance, target] = group.name if group else f"{instance}.{target}"
        return self.groups[instance, target]

    def listed(self, line: Line) -> list[tuple[str, tuple[str, ...]]]:
        """The elements of a coherent list that a line fetches or publishes, each with its words."""
        instance, _, runnable = line.actor.partition("@")[0].partition(":")
        component, number = self.types.get(instance), line.part("list")
        held = component.runnables.get(runnable) if isinstance(component, Component) else None
        lists = {str(place): pairs for place, pairs in enumerate(held.coherent if held else ())}
        words = {".".join(pair): self.words_at(component, *pair) for pair in lists.get(number, ())}
        return list(by_element(line, list(words), lambda element: words[element]))

    def words_at(self, component: Component, port: str, element: str) -> int:
        """How many words an element of a component has; none where it is not declared."""
        held = component.ports.get(port)
        item = self.description.items(held).get(element) if held else None
        data_type = self.description.types.get(item.type) if item else None
        return data_type.words if data_type else 0

    def server(self, instance: str, target: str) -> ServerPlan | None:
        """The server of an operation that is called, or none where it is not connected."""
        if (instance, target) not in self.servers:
            name = self.group(instance, target)
            owner, port, _ = [*name.rsplit(".", 2), "", ""][:3]
            component = self.types.get(owner)
            held = component.ports.get(port) if isinstance(component, Component) else None
            is_server = held is not None and held.provides
            self.servers[instance, target] = ServerPlan(name, name not in self.queues) if is_server else None
        return self.servers[instance, target]

    def waits(self, actor: str, target: str) -> bool:
        """Whether an activation that asks waits for the answer, which is so of a `call` and not of an `acall`."""
        instance, _, runnable = actor.partition("@")[0].partition(":")
        component = self.types.get(instance)
        held = component.runnables.get(runnable) if isinstance(component, Component) else None
        return held is not None and ("call", *target.split(".")) in held.accesses

    # ---- the walk

    def ports(self, path: str, holder: Component | Composition) -> None:
        for port in holder.ports.values():
            lengths = {spec.element: spec.queue_length for spec in port.com_specs}
            for item in self.description.items(port).values():
                end = End(path, port.name, item.name)
                self.order.setdefault(str(end), len(self.order))
                self.item(end, port, item, lengths.get(item.name, 1))

    def item(self, end: End, port: Port, item: Item, length: int) -> None:
        """Notes the queues of an item. The environment provides at the R-ports of the root."""
        provides, name = port.provides != (end.instance == ""), str(end)
        if item.kind == "data" and item.queued:
            queues = self.receivers.setdefault(self.group(end.instance or ENVIRONMENT, f"{end.port}.{end.item}"), [])
            if not provides:
                queues.append(name)
                self.queues[name] = QueuePlan(name, DATA, length)
        elif item.kind == "mode" and provides:
            self.machines[name] = item
            self.queues[name] = QueuePlan(name, SWITCHES, length)
        elif item.kind == "operation" and not provides and not end.instance:
            self.results[ENVIRONMENT, f"{end.port}.{end.item}"] = name

    def variables(self, path: str, component: Component) -> None:
        for variable in component.variables:
            self.order.setdefault(f"{path}.{variable}", len(self.order))
        for runnable in component.runnables.values():
            for access in runnable.accesses:
                if access[0] == "acall":
                    item = f"{access[1]}.{access[2]}"
                    self.results[path, item] = f"{path}:{runnable.name}.{item}"

    def event(self, path: str, event: Event) -> None:
        name, keys = (path, event.name), event.keys
        if event.kind == "TimingEvent":
            self.periods[name] = keys["period"]
        elif event.kind == "InitEvent":
            self.first_due.append(name)
        elif event.kind == "DataReceivedEvent":
            self.heard(name, keys["port"], keys["element"])
        elif event.kind == "OperationInvokedEvent":
            self.served(name, keys["port"], keys["operation"])
        elif event.kind == "AsynchronousServerCallReturnsEvent":
            self.flags[name] = (path, f"{keys['port']}.{keys['operation']}")
        elif machine := self.machine_of(path, keys["port"]):
            if event.kind == "ModeSwitchedAckEvent":
                self.acknowledged[machine].append(name)
            else:
                self.switched[machine, keys["activation"], *keys["modes"]].append(name)

    def heard(self, name: Name, port: str, element: str) -> None:
        queue = f"{name[0]}.{port}.{element}"
        self.heard_by[queue if queue in self.queues else self.group(name[0], f"{port}.{element}")].append(name)

    def served(self, name: Name, port: str, operation: str) -> None:
        """A server that is mapped has a queue."""
        if name in self.tasks:
            server = f"{name[0]}.{port}.{operation}"
            specs = self.types[name[0]].ports[port].com_specs if port in self.types[name[0]].ports else ()
            length = next((spec.queue_length for spec in specs if spec.element == operation), 1)
            self.queues[server] = QueuePlan(server, REQUESTS, length)

    def machine_of(self, path: str, port: str) -> str | None:
        """The machine of a port with modes, on either side."""
        held = self.types[path].ports.get(port)
        item = next(iter(self.description.items(held)), None) if held else None
        name = self.group(path, f"{port}.{item}") if item else None
        return name if name in self.machines else None

    def modes_of(self, machine: str) -> tuple[tuple[str, ...], str]:
        """The modes of a machine, and its initial one."""
        item = self.machines.get(machine)
        group = self.description.mode_groups.get(item.type) if item else None
        return (group.modes, group.initial) if group else ((), "?")
