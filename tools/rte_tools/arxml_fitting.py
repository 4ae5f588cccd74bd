"""Whether a connector's ports are compatible (rule 12)."""

from __future__ import annotations

from typing import Iterable


def misfit(provided: dict, required: dict, types: dict[str, dict], groups: dict[str, dict]) -> str:
    """Why what an interface provides is not what the other requires, or nothing where it is. Types and groups are by name."""
    if provided["kind"] != required["kind"]:
        return f"{provided['kind']} and {required['kind']}"
    if provided["shortName"] == required["shortName"]:
        return ""
    if "modeGroup" in provided:
        return mode_misfit(groups, provided["modeGroup"]["type"], required["modeGroup"]["type"])
    for key, check in (("dataElements", element_misfit), ("operations", operation_misfit)):
        held = by_name(provided.get(key, []))
        for item in required.get(key, []):
            name = item["shortName"]
            why = check(held[name], item, types) if name in held else "nothing of that name is provided"
            if why:
                return f"{name}: {why}"
    return ""


def by_name(items: Iterable[dict]) -> dict[str, dict]:
    return {item["shortName"]: item for item in items}


def mode_misfit(groups: dict[str, dict], provided: str, required: str) -> str:
    one, other = groups[provided], groups[required]
    same = one["modes"] == other["modes"] and one["initialMode"] == other["initialMode"]
    return "" if same else f"the modes of {provided} and {required} differ"


def element_misfit(provided: dict, required: dict, types: dict[str, dict]) -> str:
    if provided["swImplPolicy"] != required["swImplPolicy"]:
        return "one is queued, the other is not"
    one, other = types[provided["type"]], types[required["type"]]
    for key in ("baseType", "lower", "upper", "words"):
        if one[key] != other[key]:
            return f"{key} is {one[key]} and {other[key]}"
    return ""


def operation_misfit(provided: dict, required: dict, types: dict[str, dict]) -> str:
    held, wanted = provided.get("arguments", []), required.get("arguments", [])
    if len(held) != len(wanted):
        return f"{len(held)} and {len(wanted)} arguments"
    for one, other in zip(held, wanted):
        alike = element_misfit({**one, "swImplPolicy": ""}, {**other, "swImplPolicy": ""}, types)
        if one["shortName"] != other["shortName"] or one["direction"] != other["direction"] or alike:
            return f"the argument {one['shortName']} differs{': ' + alike if alike else ''}"
    declared = [(error["shortName"], error["code"]) for error in required.get("errors", [])]
    for error in provided.get("errors", []):
        if (error["shortName"], error["code"]) not in declared:
            return f"the error {error['shortName']} is not declared by who calls"
    return ""
