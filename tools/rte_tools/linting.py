"""What a description says in silence and probably does not mean: no rule is broken, and nothing comes of it."""

from __future__ import annotations

from typing import Iterator

from rte_tools.description import ComSpec, Component, Composition, Description, Item, Port
from rte_tools.finding import Finding
from rte_tools.joins import Joins
from rte_tools.linting_lists import one_by_one
from rte_tools.linting_programs import SERVER_EVENT, program_values
from rte_tools.linting_tasks import task_findings
from rte_tools.names import nearest
from rte_tools.programs import Use, use_of

VALUE_KEYS = ("initValue", "handleNeverReceived")

# What comes of a port that is not connected, by whether it provides and by the kind of its items.
COMES_OF_NO_JOIN = {
    (True, "data"): "what it writes goes nowhere",
    (False, "data"): "its reads answer 134 (RTE_E_UNCONNECTED)",
    (True, "operation"): "nobody calls its operations",
    (False, "operation"): "its calls answer 134 (RTE_E_UNCONNECTED)",
    (True, "mode"): "nobody follows its modes",
    (False, "mode"): "it follows no machine",
}


def warnings(description: Description) -> list[Finding]:
    """All findings, by their kinds."""
    found: list[Finding] = []
    for check in CHECKS:
        found += check(description)
    return found


def unconnected_ports(description: Description) -> Iterator[Finding]:
    """Ports of instances that lead nowhere."""
    joins = Joins(description)
    for instance in description.instances():
        for port in instance.type.ports.values():
            items = description.items(port)
            if items and not joins.is_joined(instance.path, port):
                comes = COMES_OF_NO_JOIN[port.provides, next(iter(items.values())).kind]
                text = f"the port `{port.name}` of `{instance.path}` is not connected; {comes}"
                yield Finding(port.place, f"{text}: connect it, or take it out")


def idle_outer_ports(description: Description) -> Iterator[Finding]:
    """Outer ports that no connector of their composition names."""
    for composition in description.compositions.values():
        delegated = {port for connector in composition.connectors for name, port in connector.ends if not name}
        for port in composition.ports.values():
            if port.name not in delegated:
                text = f"the outer port `{port.name}` of `{composition.name}` leads nowhere"
                yield Finding(port.place, f"{text}: add a delegation, or take it out")


def unstarted(description: Description) -> Iterator[Finding]:
    """Runnables that no event starts."""
    for component in description.components.values():
        started = {event.runnable for event in component.events.values()}
        for runnable in component.runnables.values():
            if runnable.name not in started:
                text = f"no event starts the runnable `{runnable.name}` of `{component.name}`: add one, or take it out"
                yield Finding(runnable.place, text)


def empty_tasks(description: Description) -> Iterator[Finding]:
    """Tasks in which nothing runs."""
    used = {mapped.task for mapped in description.mapped}
    for task in description.tasks.values():
        if task.name not in used:
            yield Finding(task.place, f"no event is mapped to the task `{task.name}`: map one, or take it out")


def programs(description: Description) -> Iterator[Finding]:
    """What the programs read and never set, and what they may do and do not."""
    for component in description.components.values():
        for runnable in component.runnables.values():
            use = use_of(runnable.program, f"{runnable.place}/program")
            yield from unset_variables(use, arguments_of(description, component, runnable.name))
            for number, access in enumerate(runnable.accesses):
                if access not in use.accesses:
                    spelled = ", ".join(f'"{part}"' for part in access)
                    place = f"{runnable.place}/accesses/{number}"
                    yield Finding(
                        place, f"the program of `{runnable.name}` does not use the access [{spelled}]: take it out"
                    )


def results(description: Description) -> Iterator[Finding]:
    """Calls that do not wait and whose results no program of the component takes."""
    for component in description.components.values():
        uses = [(held, use_of(held.program, f"{held.place}/program")) for held in component.runnables.values()]
        taken = {access[1:] for _, use in uses for access in use.accesses if access[0] == "result"}
        for runnable, use in uses:
            for access, places in use.accesses.items():
                if access[0] == "acall" and access[1:] not in taken:
                    text = f"no program of `{component.name}` takes the result of `{access[1]}`.`{access[2]}`"
                    yield Finding(places[0], f"{text}, so only the first request is accepted: add a `result`")


def unset_variables(use: Use, arguments: set[str]) -> Iterator[Finding]:
    known = set(use.sets) | arguments
    for name, places in use.reads.items():
        if name not in known:
            yield Finding(
                places[0],
                f"the variable `{name}` is read and never set, so it is 0{nearest(name, known)}: correct it, or set it",
            )


def arguments_of(description: Description, component: Component, runnable: str) -> set[str]:
    """The variables with which a server's program begins."""
    found = set()
    for event in component.events.values():
        port = component.ports.get(event.keys.get("port", ""))
        if event.kind == SERVER_EVENT and event.runnable == runnable and port:
            operation = description.items(port).get(event.keys["operation"])
            found |= set(operation.arguments) if operation else set()
    return found


def com_specs(description: Description) -> Iterator[Finding]:
    """Com specs, or keys of them, that nothing uses."""
    for holder in description.holders():
        for port in holder.ports.values():
            for spec in port.com_specs:
                yield from idle_keys(description, holder, port, spec)


def idle_keys(
    description: Description, holder: Component | Composition, port: Port, spec: ComSpec
) -> Iterator[Finding]:
    name = f"the com spec of `{spec.element}` at the port `{port.name}` of `{holder.name}`"
    item = description.items(port).get(spec.element)
    if isinstance(holder, Composition) and holder.name != description.root:
        yield Finding(
            spec.place, f"{name} is not used, since only those of components and of the root are: take it out"
        )
    elif not spec.keys:
        yield Finding(spec.place, f"{name} says nothing: take it out")
    elif item:
        # The root's ports are the environment's, which stands on their other side.
        used = used_keys(item, port.provides == isinstance(holder, Component))
        idle = [key for key in spec.keys if key not in used]
        if idle:
            yield Finding(spec.place, f"{name} has keys that are not used there, {', '.join(idle)}: take them out")


def used_keys(item: Item, provides: bool) -> tuple[str, ...]:
    """The keys of a com spec that serve an item at the side that provides it, or at the one that requires it."""
    if item.kind == "data" and not provides:
        return ("queueLength",) if item.queued else VALUE_KEYS
    if item.kind == "operation" and provides:
        return ("queueLength",)
    if item.kind == "mode":
        return ("queueLength",) if provides else ("supportsAsynchronousModeSwitch",)
    return ()


def unused(description: Description) -> Iterator[Finding]:
    """Types, mode groups, interfaces, components, compositions, areas and variables that nothing names."""
    interfaces = {port.interface for holder in description.holders() for port in holder.ports.values()}
    items = [item for interface in description.interfaces.values() for item in interface.items.values()]
    variables = [variable for held in description.components.values() for variable in held.variables.values()]
    types = {item.type for item in items} | {variable.of for variable in variables}
    types |= {kind for item in items for kind in item.arguments.values()}
    prototypes = {part.of for held in description.compositions.values() for part in held.prototypes.values()}
    yield from not_named("data type", description.types, types)
    yield from not_named("mode group", description.mode_groups, types)
    yield from not_named("interface", description.interfaces, interfaces)
    yield from not_named("component", description.components, prototypes)
    yield from not_named("composition", description.compositions, prototypes | {description.root})
    for component in description.components.values():
        named = {access[-1] for held in component.runnables.values() for access in held.accesses if len(access) == 2}
        yield from not_named(f"area of `{component.name}`", component.areas, named)
        yield from not_named(f"variable of `{component.name}`", component.variables, named)


def not_named(kind: str, declared: dict, named: set[str]) -> Iterator[Finding]:
    for name, held in declared.items():
        if name not in named:
            yield Finding(held.place, f"nothing uses the {kind} `{name}`: take it out")


CHECKS = (
    unconnected_ports,
    idle_outer_ports,
    unstarted,
    empty_tasks,
    programs,
    program_values,
    task_findings,
    one_by_one,
    results,
    com_specs,
    unused,
)
