"""Rules 4 to 15: names, types, compositions. Each function gives the places at which its rule is broken."""

from __future__ import annotations

from typing import Any, Iterator

from rte_tools.description import BASES, DEEPEST, MOST_INSTANCES, Component, Composition, Port
from rte_tools.joins import End
from rte_tools.judged import Judged, unless
from rte_tools.programs import needed_access, statements

MOST_ARGUMENTS, MOST_PAIRS = 16, 65_536


# ---- rule 4: distinct names


Declared = tuple[str, str, Any]  # a list, the place of something that it declares, and the name


def distinct_names(judged: Judged) -> Iterator[str]:
    """The places of names that their lists have before already, in the order of the document."""
    seen = set()
    for holder, place, name in declarations(judged):
        if (holder, name) in seen:
            yield place
        seen.add((holder, name))


def declared(holder: str, place: str, item: dict, key: str = "shortName") -> Declared:
    return holder, f"{place}/{key}", item[key]


def declarations(judged: Judged) -> Iterator[Declared]:
    """All that is declared: an object before what it holds, keys in the order of docs/FORMAT.md."""
    for place, item in judged.objects("dataTypes"):
        yield declared("dataTypes", place, item)
    for place, group in judged.objects("modeGroups"):
        yield declared("modeGroups", place, group)
        yield from ((f"{place}/modes", below, mode) for below, mode in judged.objects("modes", group, place))
    for place, interface in judged.objects("interfaces"):
        yield declared("interfaces", place, interface)
        yield from in_interface(judged, interface, place)
    for place, component in judged.objects("components"):
        yield declared("types", place, component)
        yield from in_ports(judged, component, place)
        yield from in_behavior(judged, component["behavior"], f"{place}/behavior")
    for place, composition in judged.objects("compositions"):
        yield declared("types", place, composition)
        yield from in_ports(judged, composition, place)
        yield from (declared(f"{place}/prototypes", *item) for item in judged.objects("prototypes", composition, place))
    mapping = judged.value["mapping"]
    yield from (declared("tasks", *item) for item in judged.objects("tasks", mapping, "/mapping"))
    for place, event in judged.objects("events", mapping, "/mapping"):
        yield f"/mapping/{event['task']}", f"{place}/position", event["position"]


def in_interface(judged: Judged, interface: dict, place: str) -> Iterator[Declared]:
    yield from (declared(f"{place}/items", *item) for item in judged.objects("dataElements", interface, place))
    for below, operation in judged.objects("operations", interface, place):
        yield declared(f"{place}/items", below, operation)
        for key in ("arguments", "errors"):
            yield from (declared(f"{below}/{key}", *item) for item in judged.objects(key, operation, below))


def in_ports(judged: Judged, holder: dict, place: str) -> Iterator[Declared]:
    for below, port in judged.objects("ports", holder, place):
        yield declared(f"{place}/ports", below, port)
        yield from (declared(below, *item, "element") for item in judged.objects("comSpecs", port, below))


def in_behavior(judged: Judged, behavior: dict, place: str) -> Iterator[Declared]:
    yield from ((f"{place}/areas", below, area) for below, area in judged.objects("exclusiveAreas", behavior, place))
    yield from (declared(f"{place}/variables", *item) for item in judged.objects("variables", behavior, place))
    for below, runnable in judged.objects("runnables", behavior, place):
        yield declared(f"{place}/runnables", below, runnable)
        yield from ((below, at, tuple(access)) for at, access in judged.objects("accesses", runnable, below))
    yield from (declared(f"{place}/events", *item) for item in judged.objects("events", behavior, place))


# ---- rule 5: what names refer to


def declared_names(judged: Judged) -> Iterator[str]:
    description = judged.description
    for place, group in judged.objects("modeGroups"):
        yield from unless(group["initialMode"] in group["modes"], f"{place}/initialMode")
    for place, interface in judged.objects("interfaces"):
        for below, element in judged.objects("dataElements", interface, place):
            yield from unless(element["type"] in description.types, f"{below}/type")
        for below, operation in judged.objects("operations", interface, place):
            for at, argument in judged.objects("arguments", operation, below):
                yield from unless(argument["type"] in description.types, f"{at}/type")
        if "modeGroup" in interface:
            yield from unless(interface["modeGroup"]["type"] in description.mode_groups, f"{place}/modeGroup/type")
    for place, component in judged.objects("components"):
        yield from declared_ports(judged, component, place)
        held = description.components[component["shortName"]]
        yield from declared_behavior(judged, component["behavior"], f"{place}/behavior", held)
    for place, composition in judged.objects("compositions"):
        yield from declared_ports(judged, composition, place)
        for below, prototype in judged.objects("prototypes", composition, place):
            yield from unless(description.type_named(prototype["type"]), f"{below}/type")
        yield from declared_ends(judged, description.compositions[composition["shortName"]], composition, place)
    yield from unless(judged.value["root"] in description.compositions, "/root")
    mapping = judged.value["mapping"]
    for place, task in judged.objects("tasks", mapping, "/mapping"):
        yield from unless(0 <= task["core"] < mapping["cores"], f"{place}/core")
    for place, event in judged.objects("events", mapping, "/mapping"):
        yield from unless(event["task"] in description.tasks, f"{place}/task")


def declared_ports(judged: Judged, holder: dict, place: str) -> Iterator[str]:
    for below, port in judged.objects("ports", holder, place):
        interface = judged.description.interfaces.get(port["interface"])
        yield from unless(interface, f"{below}/interface")
        for at, spec in judged.objects("comSpecs", port, below):
            yield from unless(interface and spec["element"] in interface.items, f"{at}/element")


def declared_behavior(judged: Judged, behavior: dict, place: str, component: Component) -> Iterator[str]:
    for below, variable in judged.objects("variables", behavior, place):
        yield from unless(variable["type"] in judged.description.types, f"{below}/type")
    for below, runnable in judged.objects("runnables", behavior, place):
        for at, access in judged.objects("accesses", runnable, below):
            yield from declared_parts(judged, access, at, component)
        for at, pairs in judged.objects("coherent", runnable, below):
            for number, (port, element) in enumerate(pairs):
                yield from declared_element(judged, component, port, element, f"{at}/{number}")
        for at, statement in statements(runnable.get("program", []), f"{below}/program"):
            if needed_access(statement):
                yield from declared_parts(judged, statement, at, component)
    for below, event in judged.objects("events", behavior, place):
        yield from declared_event(judged, event, below, component)


def declared_parts(judged: Judged, parts: list, place: str, component: Component) -> Iterator[str]:
    """The names of an access or a statement."""
    if parts[0] in ("enter", "area"):
        yield from unless(parts[1] in component.areas, f"{place}/1")
    elif parts[0].startswith("irv"):
        yield from unless(parts[1] in component.variables, f"{place}/1")
    elif parts[1] not in component.ports:
        yield f"{place}/1"
    elif parts[0] not in ("switch", "mode"):
        yield from unless(parts[2] in judged.description.items(component.ports[parts[1]]), f"{place}/2")


def declared_element(judged: Judged, component: Component, port: str, element: str, place: str) -> Iterator[str]:
    """The names of a pair of a coherent list."""
    if port not in component.ports:
        yield f"{place}/0"
    else:
        yield from unless(element in judged.description.items(component.ports[port]), f"{place}/1")


def declared_event(judged: Judged, event: dict, place: str, component: Component) -> Iterator[str]:
    yield from unless(event["runnable"] in component.runnables, f"{place}/runnable")
    if "port" in event:
        port = component.ports.get(event["port"])
        yield from unless(port, f"{place}/port")
        for key in ("element", "operation"):
            if port and key in event:
                yield from unless(event[key] in judged.description.items(port), f"{place}/{key}")
    if "disabledInModes" in event:
        yield from unless(event["disabledInModes"]["port"] in component.ports, f"{place}/disabledInModes/port")


def declared_ends(judged: Judged, held: Composition, composition: dict, place: str) -> Iterator[str]:
    for below, connector in judged.objects("connectors", composition, place):
        for key in ("provider", "requester", "inner"):
            if key in connector:
                prototype, port = connector[key]
                of = held.prototypes.get(prototype)
                yield from unless(of, f"{below}/{key}/0")
                inner = judged.description.type_named(of.of) if of else None
                yield from unless(inner is None or port in inner.ports, f"{below}/{key}/1")
        if "outer" in connector:
            yield from unless(connector["outer"] in held.ports, f"{below}/outer")


# ---- rules 6 to 9


def limits_in_range(judged: Judged) -> Iterator[str]:
    for place, held in judged.objects("dataTypes"):
        least, most = BASES[held["baseType"]]
        yield from unless(least <= held["lower"] <= held["upper"] <= most, place)


def initial_values(judged: Judged) -> Iterator[str]:
    for place, component in judged.objects("components"):
        yield from initial_in_ports(judged, component, place)
        for below, variable in judged.objects("variables", component["behavior"], f"{place}/behavior"):
            yield from unless(is_initial(judged, variable["type"], variable), f"{below}/initValue")
    for place, composition in judged.objects("compositions"):
        yield from initial_in_ports(judged, composition, place)


def initial_in_ports(judged: Judged, holder: dict, place: str) -> Iterator[str]:
    for below, port in judged.objects("ports", holder, place):
        items = judged.description.interfaces[port["interface"]].items
        for at, spec in judged.objects("comSpecs", port, below):
            item = items[spec["element"]]
            yield from unless(item.kind != "data" or is_initial(judged, item.type, spec), f"{at}/initValue")


def is_initial(judged: Judged, type_name: str, holder: dict) -> bool:
    held = judged.description.types[type_name]
    words = holder.get("initValue")
    return words is None or (len(words) == held.words and all(held.lower <= word <= held.upper for word in words))


def no_circles(judged: Judged) -> Iterator[str]:
    """Compositions that contain themselves."""
    below = {
        name: {held.of for held in composition.prototypes.values()} & set(judged.description.compositions)
        for name, composition in judged.description.compositions.items()
    }
    for place, composition in judged.objects("compositions"):
        seen: set[str] = set()
        waiting = set(below[composition["shortName"]])
        while waiting:
            name = waiting.pop()
            seen.add(name)
            waiting |= below[name] - seen
        yield from unless(composition["shortName"] not in seen, place)


# ---- rules 11 to 15


def connected_sides(judged: Judged) -> Iterator[str]:
    for place, composition in judged.objects("compositions"):
        held = judged.description.compositions[composition["shortName"]]
        seen: set[tuple] = set()
        for number, connector in enumerate(held.connectors):
            first, second = (end_port(judged, held, end) for end in connector.ends)
            is_assembly = connector.kind == "AssemblySwConnector"
            fits = first.provides and not second.provides if is_assembly else first.provides == second.provides
            yield from unless(fits and connector.ends not in seen, f"{place}/connectors/{number}")
            seen.add(connector.ends)


def end_port(judged: Judged, held: Composition, end: tuple[str, str]) -> Port:
    prototype, port = end
    if not prototype:
        return held.ports[port]
    return judged.description.type_named(held.prototypes[prototype].of).ports[port]


def no_calls_outwards(judged: Judged) -> Iterator[str]:
    root = judged.description.compositions[judged.description.root]
    for port in root.ports.values():
        kind = judged.description.interfaces[port.interface].kind
        yield from unless(port.provides or kind != "ClientServerInterface", port.place)


def required_ends(judged: Judged) -> Iterator[tuple[End, str]]:
    """Each required item with its kind, of instances and then of the environment."""
    nodes = [*judged.description.instances(), *(node for node in judged.description.nodes if not node.path)]
    for node in nodes:
        for port in node.type.ports.values():
            for name, item in judged.description.items(port).items():
                if port.provides == (node.path == ""):
                    yield End(node.path, port.name, name), item.kind


def one_provider(judged: Judged) -> Iterator[str]:
    for end, kind in required_ends(judged):
        if kind != "data":
            count = len(judged.joins.providers((end.instance, end.port)))
            yield from unless(count == 1 or (not count and (kind != "mode" or not end.instance)), str(end))


def no_many_to_many(judged: Judged) -> Iterator[str]:
    for end, kind in required_ends(judged):
        if kind == "data":
            group = judged.joins.group(end)
            yield from unless(len(group.provided) <= 1 or len(group.required) <= 1, str(end))


# ---- rules 7, 10 and 12


def fitting_operations(judged: Judged) -> Iterator[str]:
    for place, interface in judged.objects("interfaces"):
        for below, operation in judged.objects("operations", interface, place):
            arguments = operation.get("arguments", [])
            codes = [error["code"] for error in operation.get("errors", [])]
            is_fit = len(arguments) <= MOST_ARGUMENTS and len(set(codes)) == len(codes)
            is_fit = is_fit and all(judged.description.types[held["type"]].words == 1 for held in arguments)
            yield from unless(is_fit and all(held["shortName"] != "error" for held in arguments), below)


def not_too_large(judged: Judged) -> Iterator[str]:
    root = judged.description.compositions[judged.description.root]
    count, depth = size_of(judged, root, {})
    is_small = count <= MOST_INSTANCES and depth <= DEEPEST and "env" not in root.prototypes
    yield from unless(is_small and judged.joins.pairs <= MOST_PAIRS, "/root")


def size_of(judged: Judged, held: Composition, known: dict[str, tuple[int, int]]) -> tuple[int, int]:
    """How many components are below a composition, and how deep the deepest one is."""
    if held.name not in known:
        count, depth = 0, 0
        for prototype in held.prototypes.values():
            below = judged.description.type_named(prototype.of)
            parts, deep = size_of(judged, below, known) if isinstance(below, Composition) else (1, 0)
            count += parts
            depth = max(depth, deep + 1 if parts else 0)
        known[held.name] = (count, depth)
    return known[held.name]


def compatible_ports(judged: Judged) -> Iterator[str]:
    interfaces = {held["shortName"]: held for _, held in judged.objects("interfaces")}
    for place, composition in judged.objects("compositions"):
        held = judged.description.compositions[composition["shortName"]]
        for number, connector in enumerate(held.connectors):
            first, second = (end_port(judged, held, end) for end in connector.ends)
            if connector.kind != "AssemblySwConnector" and not first.provides:
                first, second = second, first
            provided, required = interfaces[first.interface], interfaces[second.interface]
            yield from unless(is_compatible(judged, provided, required), f"{place}/connectors/{number}")


def is_compatible(judged: Judged, provided: dict, required: dict) -> bool:
    if provided["kind"] != required["kind"]:
        return False
    if "modeGroup" in required:
        return has_modes_of(judged, provided["modeGroup"], required["modeGroup"])
    elements = {held["shortName"]: held for held in provided.get("dataElements", [])}
    for held in required.get("dataElements", []):
        other = elements.get(held["shortName"])
        if not other or other["swImplPolicy"] != held["swImplPolicy"] or not is_same_type(judged, other, held):
            return False
    operations = {held["shortName"]: held for held in provided.get("operations", [])}
    return all(is_served(judged, operations.get(held["shortName"]), held) for held in required.get("operations", []))


def has_modes_of(judged: Judged, provided: dict, required: dict) -> bool:
    groups = judged.description.mode_groups
    one, other = groups[provided["type"]], groups[required["type"]]
    return (one.modes, one.initial) == (other.modes, other.initial)


def is_same_type(judged: Judged, one: dict, other: dict) -> bool:
    first, second = judged.data_types[one["type"]], judged.data_types[other["type"]]
    return all(first[key] == second[key] for key in ("baseType", "lower", "upper", "words"))


def is_served(judged: Judged, provided: dict | None, required: dict) -> bool:
    """Arguments agree in order, and each error of the provided operation is one of the required one."""
    if provided is None:
        return False
    mine, theirs = provided.get("arguments", []), required.get("arguments", [])
    known = [(held["shortName"], held["code"]) for held in required.get("errors", [])]
    return (
        [(held["shortName"], held["direction"]) for held in mine] == [(held["shortName"], held["direction"]) for held in theirs]
        and all(is_same_type(judged, one, other) for one, other in zip(mine, theirs))
        and all((held["shortName"], held["code"]) in known for held in provided.get("errors", []))
    )
