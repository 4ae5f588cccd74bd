"""What a name in a description may refer to (rule 5), and which one was perhaps meant."""

from __future__ import annotations

import difflib
from typing import Any, Iterable

from rte_tools.description import Component, Composition, Description
from rte_tools.programs import statements


def nearest(name: str, names: Iterable[str]) -> str:
    """A hint at the nearest of the names, or nothing where none is near. Capital letters make no difference."""
    by_small_letters = {known.lower(): known for known in sorted(names)}
    close = difflib.get_close_matches(name.lower(), by_small_letters, 1, 0.5)
    return f"; the nearest one is `{by_small_letters[close[0]]}`" if close else ""


def candidates(description: Description, place: str, value: dict) -> tuple[str, list[str]] | None:
    """What may stand at a place: what it is called, and the names. The value is the whole description's."""
    way = place.split("/")[1:]
    if way[0] in ("root", "modeGroups"):
        return top_level(description, way, value)
    if way[0] == "interfaces":
        if "modeGroup" in way:
            return "mode group", list(description.mode_groups)
        return "data type", list(description.types)
    if way[0] == "mapping":
        return "task", list(description.tasks)
    if "interface" in way:
        return "interface", list(description.interfaces)
    name = value[way[0]][int(way[1])]["shortName"]
    if way[0] == "compositions":
        return in_composition(description, description.compositions[name], way, value)
    return in_component(description, description.components[name], way, value)


def top_level(description: Description, way: list[str], value: dict) -> tuple[str, list[str]]:
    if way[0] == "root":
        return "composition", list(description.compositions)
    return "mode", value["modeGroups"][int(way[1])]["modes"]


def in_composition(
    description: Description, held: Composition, way: list[str], value: dict
) -> tuple[str, list[str]] | None:
    if way[2] == "prototypes":
        return "component or composition", list(description.components) + list(description.compositions)
    if way[2] == "ports":
        return in_com_spec(description, held, way, value)
    if way[4] == "outer":
        return "outer port", list(held.ports)
    if way[5] == "0":
        return "prototype", list(held.prototypes)
    connector = value["compositions"][int(way[1])]["connectors"][int(way[3])]
    prototype = held.prototypes.get(connector[way[4]][0])
    below = description.type_named(prototype.of) if prototype else None
    return ("port", list(below.ports)) if below else None


def in_com_spec(
    description: Description, held: Component | Composition, way: list[str], value: dict
) -> tuple[str, list[str]] | None:
    """The `element` of a com spec."""
    port = held.ports.get(value[way[0]][int(way[1])]["ports"][int(way[3])]["shortName"])
    return ("item of the interface", list(description.items(port))) if port else None


def in_component(
    description: Description, held: Component, way: list[str], value: dict
) -> tuple[str, list[str]] | None:
    if way[2] == "ports":
        return in_com_spec(description, held, way, value)
    behavior = value["components"][int(way[1])]["behavior"]
    if way[3] == "variables":
        return "data type", list(description.types)
    if way[3] == "events":
        return in_event(description, held, behavior["events"][int(way[4])], way[5:])
    runnable = behavior["runnables"][int(way[4])]
    if way[5] == "coherent":
        pair = runnable["coherent"][int(way[6])][int(way[7])]
        return in_parts(description, held, ["", *pair], int(way[8]) + 1)
    parts, part = part_of(runnable, "/".join(way[5:]))
    return in_parts(description, held, parts, part) if parts else None


def in_event(description: Description, held: Component, event: dict, way: list[str]) -> tuple[str, list[str]]:
    if way[0] == "runnable":
        return "runnable", list(held.runnables)
    if way[-1] == "port":
        return "port", list(held.ports)
    return "item of the port", items_of(description, held, event["port"])


def part_of(runnable: dict, place: str) -> tuple[list | None, int]:
    """The access or statement around a place below a runnable, and which part of it the place is."""
    around, _, part = place.rpartition("/")
    for number, access in enumerate(runnable.get("accesses", [])):
        if around == f"accesses/{number}":
            return access, int(part)
    for at, statement in statements(runnable.get("program", []), "program"):
        if around == at:
            return statement, int(part)
    return None, 0


def in_parts(description: Description, held: Component, parts: list[Any], part: int) -> tuple[str, list[str]]:
    """The names of an access or a statement."""
    if parts[0] in ("area", "enter"):
        return "exclusive area", list(held.areas)
    if parts[0].startswith("irv"):
        return "inter-runnable variable", list(held.variables)
    if part == 1:
        return "port", list(held.ports)
    return "item of the port", items_of(description, held, parts[1])


def items_of(description: Description, held: Component, port: str) -> list[str]:
    return list(description.items(held.ports[port])) if port in held.ports else []
