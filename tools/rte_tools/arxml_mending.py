"""What compositions need beside what the files say: rules 13 and 14, and a root where there is none."""

from __future__ import annotations

from typing import Callable, Iterator
from xml.etree.ElementTree import Element

from rte_tools.arxml_components import KINDS
from rte_tools.arxml_compositions import COMPOSITION, Compositions, Held
from rte_tools.arxml_ports import Port
from rte_tools.arxml_report import Work
from rte_tools.arxml_tree import Part

MADE_ROOT = "Top"


def needs_modes(port: Port) -> bool:
    return not port.provides and bool(port.items("modeGroup"))


def asks(port: Port) -> bool:
    return not port.provides and port.interface["kind"] == "ClientServerInterface"


def lead_up(work: Work, compositions: Compositions, held: Held, wanted: Callable[[Port], bool], why: str) -> None:
    """Each wanted port of a prototype that nothing is connected to gets an outer port of its own."""
    connected = {tuple(end) for each in held.made["connectors"] for end in inner_ends(each)}
    names = {port.name for port in held.ports}
    for prototype, type_path in held.prototypes.items():
        prototype_name = work.names.given[prototype]
        for port in ports_of(compositions, type_path):
            if not wanted(port) or (prototype_name, port.name) in connected:
                continue
            name = distinct(work.names.form(f"{prototype_name}_{port.name}"), names)
            outer = Port({"kind": port.made["kind"], "shortName": name, "interface": port.made["interface"]}, port.interface, port.part)
            held.ports.append(outer)
            held.made["ports"].append(outer.made)
            end = {"inner": [prototype_name, port.name], "outer": name}
            held.made["connectors"].append({"kind": "DelegationSwConnector", **end})
            work.report.added(held.part.path, f"the outer port {name} for {prototype_name}.{port.name}, {why}")


def inner_ends(connector: dict) -> Iterator[list[str]]:
    for key in ("provider", "requester", "inner"):
        if key in connector:
            yield connector[key]


def ports_of(compositions: Compositions, type_path: str) -> list[Port]:
    if type_path in compositions.held:
        return compositions.held[type_path].ports
    return compositions.components.ports_of.get(type_path, [])


def distinct(name: str, names: set[str]) -> str:
    made, number = name, 2
    while made in names:
        made, number = f"{name[:29]}_{number}", number + 1
    names.add(made)
    return made


def supply_modes(work: Work, compositions: Compositions) -> None:
    """Rule 14: who requires modes has a provider. What is not connected is led to the environment, which then switches."""
    for held in compositions.held.values():
        lead_up(work, compositions, held, needs_modes, "which requires modes and is not connected: the environment switches")


def drop_outer_calls(work: Work, root: Held) -> None:
    """Rule 13: no R-port of the root is for calls, since the environment serves nothing."""
    spare = [port for port in root.ports if asks(port)]
    names = {port.name for port in spare}
    for port in spare:
        work.report.left_out(port.part, "the environment serves no operation; calls to it answer 134")
    root.ports = [port for port in root.ports if port.name not in names]
    root.made["ports"] = [port.made for port in root.ports]
    for each in root.made["connectors"]:
        if each.get("outer") in names:
            work.report.left_out(root.sources[str(each)], f"the outer port {each['outer']} is left out")
    root.made["connectors"] = [each for each in root.made["connectors"] if each.get("outer") not in names]


def made_root(work: Work, compositions: Compositions) -> Held | None:
    """A root of all components of the files, each once, whose ports lead to the environment."""
    parts = work.tree.all(*KINDS)
    if not parts:
        return None
    part = Part(work.tree, Element(COMPOSITION), f"/{MADE_ROOT}")
    root = Held(part, {"shortName": work.names.distinct("components", MADE_ROOT), "ports": [], "connectors": []})
    root.made["prototypes"] = []
    for each in parts:
        made = compositions.components.of(each)
        prototype = f"{part.path}/{made['shortName']}"
        name = work.names.declare("prototypes of the made root", made["shortName"], prototype, ("env",))
        root.made["prototypes"].append({"shortName": name, "type": made["shortName"]})
        root.prototypes[prototype] = each.path
    compositions.held[part.path] = root
    work.report.added(part.path, "a root with each component once, since no composition is in the files")
    lead_up(work, compositions, root, lambda port: not asks(port), "so that the environment is at its other end")
    return root
