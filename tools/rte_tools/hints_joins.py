"""Hints to rules 9 to 15: compositions, connectors and what they join."""

from __future__ import annotations

from typing import Iterator

from rte_tools.description import DEEPEST, MOST_INSTANCES, Composition, Connector, Description, Interface, Item, Port
from rte_tools.hint_case import Case, Mend, quoted
from rte_tools.joins import End
from rte_tools.names import nearest
from rte_tools.refusal import port_at

ITEM_NAMES = {"data": "data element", "operation": "operation", "mode": "mode element"}


def composition_at(case: Case) -> Composition:
    """The composition in which the place is."""
    return case.description.compositions[case.value["compositions"][int(case.way[1])]["shortName"]]


def contains_itself(case: Case) -> Iterator[str]:
    """Rule 9: the prototypes that lead from the composition back to it."""
    own = composition_at(case)
    above: dict[str, tuple[str, str]] = {}  # of a composition: the one that has a prototype of it, and the prototype
    waiting = [own]
    while waiting and own.name not in above:
        held = waiting.pop()
        for prototype in held.prototypes.values():
            below = case.description.compositions.get(prototype.of)
            if below and below.name not in above:
                above[below.name] = (held.name, prototype.name)
                waiting.append(below)
    if own.name in above:
        name, ways = own.name, []
        while not ways or name != own.name:
            name, prototype = above[name]
            of = case.description.compositions[name].prototypes[prototype].of
            ways.append(f"`{name}` has the prototype `{prototype}` of `{of}`")
        yield ", and ".join(reversed(ways)) + "."


def too_large(case: Case) -> Iterator[str]:
    """Rule 10: what there is too much of. By rule 9 the compositions have no circle."""
    root = case.description.compositions[case.description.root]
    if "env" in root.prototypes:
        yield f"The prototype at {case.line(root.prototypes['env'].place)} is named `env`, which is the environment."
        yield Mend("rename the prototype.")
        return
    sizes: dict[str, tuple[int, int, str]] = {}
    count, depth, path = size_of(case.description, root.name, sizes)
    if depth > DEEPEST:
        yield f"The path `{path}` has {depth} prototypes, and at most {DEEPEST} may be there."
        yield Mend("make paths shorter.")
    elif count > MOST_INSTANCES:
        yield f"There are {count:,} instances of components, and at most {MOST_INSTANCES:,} may be there."
        yield Mend("make fewer instances.")
    else:
        yield "The instances are few enough, so connectors join more than 65,536 pairs of items."
        yield Mend("join fewer ports, or ports of smaller interfaces.")


def size_of(description: Description, name: str, sizes: dict) -> tuple[int, int, str]:
    """Of a type: how many component instances it holds, and the longest path to one of them."""
    held = description.type_named(name)
    if not isinstance(held, Composition):
        return (1, 0, "") if held else (0, 0, "")
    if name not in sizes:
        count = depth = 0
        path = ""
        for prototype in held.prototypes.values():
            below, deep, way = size_of(description, prototype.of, sizes)
            count += below
            if below and deep + 1 > depth:
                depth, path = deep + 1, "/".join(part for part in (prototype.name, way) if part)
        sizes[name] = (count, depth, path)
    return sizes[name]


def side(port: Port) -> str:
    return "a P-port, which provides" if port.provides else "an R-port, which requires"


def wrong_ends(case: Case) -> Iterator[str]:
    """Rule 11: which port is which, or where the equal connector is."""
    composition = composition_at(case)
    connector = composition.connectors[int(case.way[3])]
    ports = [case.joins.port_of(composition, *end) for end in connector.ends]
    if not all(ports):
        return
    is_assembly = connector.kind == "AssemblySwConnector"
    provides = (ports[0].provides, ports[1].provides)
    if provides == (True, False) if is_assembly else provides[0] == provides[1]:
        first = next(held for held in composition.connectors if same(held, connector))
        yield f"It joins what the connector at {case.line(first.place)} joins."
        yield Mend("drop it.")
        return
    for end, port in zip(connector.ends, ports):
        yield f"`{'.'.join(part for part in end if part)}` is {side(port)}."
    yield from mend_ends(is_assembly, ports)


def mend_ends(is_assembly: bool, ports: list[Port]) -> Iterator[str]:
    """How two ports that may not be joined so can be joined."""
    if not is_assembly:
        yield Mend("join the inner port to an outer port of the same kind, or turn the `kind` of one.")
    elif ports[1].provides and not ports[0].provides:
        yield Mend("exchange `provider` and `requester`.")
    else:
        yield Mend("join a P-port, as `provider`, to an R-port, as `requester`; or turn the `kind` of one port.")


def same(one: Connector, other: Connector) -> bool:
    return (one.kind, one.ends) == (other.kind, other.ends)


def incompatible(case: Case) -> Iterator[str]:
    """Rule 12: the interfaces of both ports, and in what they differ."""
    composition = composition_at(case)
    connector = composition.connectors[int(case.way[3])]
    first, second = (case.joins.port_of(composition, *end) for end in connector.ends)
    if not first or not second:
        return
    inwards = connector.kind == "DelegationSwConnector" and not first.provides
    provided, required = (second, first) if inwards else (first, second)
    yield f"`{provided.name}` provides the interface `{provided.interface}`."
    yield f"`{required.name}` requires the interface `{required.interface}`."
    given, wanted = (case.description.interfaces[port.interface] for port in (provided, required))
    yield from differences(case.description, given, wanted)


def differences(description: Description, given: Interface, wanted: Interface) -> Iterator[str]:
    """In what a provided interface does not fit the required one."""
    if given.kind != wanted.kind:
        yield f"`{given.name}` is a {given.kind}, and `{wanted.name}` is a {wanted.kind}."
        return
    if given.kind == "ModeSwitchInterface":
        yield from mode_difference(description, given, wanted)
        return
    for name, item in wanted.items.items():
        held = given.items.get(name)
        if held is None:
            yield f"`{given.name}` has no {ITEM_NAMES[item.kind]} `{name}`{nearest(name, given.items)}."
        elif item.kind == "data":
            yield from data_difference(description, held, item)
        else:
            yield from operation_difference(description, held, item)


def data_difference(description: Description, held: Item, item: Item) -> Iterator[str]:
    if held.queued != item.queued:
        policies = ["queued" if one.queued else "standard" for one in (held, item)]
        yield f"`{item.name}` is provided as `{policies[0]}` and required as `{policies[1]}`."
    yield from type_difference(description, f"`{item.name}`", held.type, item.type)


def type_difference(description: Description, what: str, held: str, item: str) -> Iterator[str]:
    """That two types differ, and in what."""
    given, wanted = description.types.get(held), description.types.get(item)
    if given and wanted:
        texts = [f"`{one.name}` ({one.base}, {one.lower} to {one.upper}, {one.words} words)" for one in (given, wanted)]
        keys = [(one.base, one.lower, one.upper, one.words) for one in (given, wanted)]
        if keys[0] != keys[1]:
            yield f"{what} is provided with the type {texts[0]} and required with {texts[1]}."


def operation_difference(description: Description, held: Item, item: Item) -> Iterator[str]:
    if len(held.arguments) != len(item.arguments):
        yield f"`{item.name}` is provided with {len(held.arguments)} arguments and required with {len(item.arguments)}."
    for number, (one, other) in enumerate(zip(held.arguments, item.arguments), 1):
        ways = [f"`{name}` ({kind.directions[name]})" for name, kind in ((one, held), (other, item))]
        if ways[0] != ways[1]:
            yield f"Argument {number} of `{item.name}` is provided as {ways[0]} and required as {ways[1]}."
        what = f"The argument `{other}` of `{item.name}`"
        yield from type_difference(description, what, held.arguments[one], item.arguments[other])
    for error, code in held.errors.items():
        if item.errors.get(error) != code:
            yield f"`{item.name}` may return the error `{error}` (code {code}), which the required one does not declare."


def mode_difference(description: Description, given: Interface, wanted: Interface) -> Iterator[str]:
    groups = [
        description.mode_groups.get(item.type)
        for interface in (given, wanted)
        for item in list(interface.items.values())[:1]
    ]
    if len(groups) == 2 and all(groups):
        for said, group in zip(("provided", "required"), groups):
            yield f"The {said} modes are {quoted(group.modes)}; the initial one is `{group.initial}`."


def caller_of_outside(case: Case) -> Iterator[str]:
    """Rule 13: the interface of the port."""
    port = case.node.plain()
    yield f"`{port['shortName']}` is an R-port, and `{port['interface']}` is a ClientServerInterface."


def members(case: Case) -> Iterator[str]:
    """Rules 14 and 15: which ends are joined."""
    found = port_at(case.description, case.place)
    group = case.joins.group(End(found[0], found[1].name, case.place.split(".")[2])) if found else None
    if group:
        yield f"Provided ends: {quoted(group.provided)}. Required ends: {quoted(group.required)}."


def providers(case: Case) -> Iterator[str]:
    """Rule 14: the ends, and whether there are too many providers or none."""
    yield from members(case)
    found = port_at(case.description, case.place)
    group = case.joins.group(End(found[0], found[1].name, case.place.split(".")[2])) if found else None
    if group and len(group.provided) > 1:
        yield Mend(f"drop connectors until one of {quoted(group.provided)} is left.")
    elif group:
        yield Mend("join the port to a P-port that provides these modes.")


