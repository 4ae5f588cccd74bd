"""Ports of ARXML with their com specs."""

from __future__ import annotations

from dataclasses import dataclass, field

from rte_tools.arxml_interfaces import Interfaces
from rte_tools.arxml_report import LeftOut, Work
from rte_tools.arxml_skeleton import zeros
from rte_tools.arxml_tree import Part
from rte_tools.arxml_types import Types
from rte_tools.arxml_values import whole

SIDES = {
    "P-PORT-PROTOTYPE": ("PPortPrototype", "PROVIDED-INTERFACE-TREF", "PROVIDED-COM-SPECS"),
    "R-PORT-PROTOTYPE": ("RPortPrototype", "REQUIRED-INTERFACE-TREF", "REQUIRED-COM-SPECS"),
}
OF_ELEMENT = ("DATA-ELEMENT-REF", "OPERATION-REF", "MODE-GROUP-REF")
OF_QUEUE = ("QUEUED-RECEIVER-COM-SPEC", "SERVER-COM-SPEC", "MODE-SWITCH-SENDER-COM-SPEC")
LONGEST_QUEUE = 1024
OF_PROTOTYPES = ("TARGET-", "OUTER-")  # references of connectors, whose ports are not of the one that refers
# What com specs of the root say here and no com spec of ARXML can, in special data of the port.
SPECIAL = "rte-com-spec"


@dataclass(frozen=True, eq=False)
class Port:
    """A port as the description has it, with its interface."""

    made: dict
    interface: dict
    part: Part

    @property
    def name(self) -> str:
        return self.made["shortName"]

    @property
    def provides(self) -> bool:
        return self.made["kind"] == "PPortPrototype"

    def items(self, key: str) -> list[dict]:
        """Its data elements, its operations or, in a list, its mode element."""
        held = self.interface.get(key, [])
        return held if isinstance(held, list) else [held]


@dataclass
class Ports:
    """The ports of components and compositions, by their path."""

    work: Work
    types: Types
    interfaces: Interfaces
    made: dict[str, Port] = field(default_factory=dict)
    updates: set[tuple[str, str]] = field(default_factory=set)  # the paths of a port and an element with ENABLE-UPDATE

    def of(self, holder: Part, com_specs: str) -> list[Port]:
        """The ports of a component or composition. Com specs are of a `component`, of the `root`, or not taken."""
        found = []
        for part in holder.children("PORTS", *SIDES):
            kind, interface_tag, specs_tag = SIDES[part.tag]
            try:
                interface = self.interfaces.of(part, interface_tag)
            except LeftOut as why:
                self.work.report.left_out(part, str(why))
                continue
            name = self.work.names.item(part.name, part.path)
            port = Port({"kind": kind, "shortName": name, "interface": interface["shortName"]}, interface, part)
            self.made[part.path] = port
            specs = self.com_specs(port, part.children(specs_tag)) if com_specs == "component" else []
            if com_specs == "root":
                specs = self.root_specs(port, part, specs_tag)
            if specs:
                port.made["comSpecs"] = specs
            found.append(port)
        return found

    def at(self, part: Part, *way: str) -> Port:
        """The port that a reference names, on the side that its last tag says, if it says one. Raises LeftOut."""
        path = part.text(*way)
        if path not in self.made:
            raise LeftOut(f"its port {path or '(none)'} is not there, or left out")
        port = self.made[path]
        if ("-P-PORT-" in way[-1] and not port.provides) or ("-R-PORT-" in way[-1] and port.provides):
            raise LeftOut(f"the port {path} is of the other side")
        holder = path.rpartition("/")[0]
        if not way[-1].startswith(OF_PROTOTYPES) and not part.path.startswith(f"{holder}/"):
            raise LeftOut(f"the port {path} is of another component")
        return port

    def item(self, part: Part, port: Port, key: str, *way: str) -> dict:
        """The item of a port that a reference names. Raises LeftOut."""
        path = part.text(*way)
        item = self.interfaces.items.get(path)
        if item is None or not any(item is held for held in port.items(key)):
            raise LeftOut(f"{path or 'what it names'} is no item of the port {port.name}, or left out")
        return item

    # ---- com specs of a component

    def com_specs(self, port: Port, parts: list[Part]) -> list[dict]:
        made: dict[str, dict] = {}
        for part in parts:
            try:
                item, spec = self.item_of(port, part), {}
                if part.tag == "NONQUEUED-RECEIVER-COM-SPEC":
                    spec = self.value_keys(port, item, part)
                elif part.tag in OF_QUEUE and part.text("QUEUE-LENGTH"):
                    length = self.length(part)
                    spec = {"queueLength": length} if length > 1 else {}
                elif part.is_true("SUPPORTS-ASYNCHRONOUS-MODE-SWITCH"):
                    spec = {"supportsAsynchronousModeSwitch": True}
                part.pass_over("ENHANCED-MODE-API", "USES-END-TO-END-PROTECTION", "HANDLE-OUT-OF-RANGE")
                acknowledged = part.child("MODE-SWITCHED-ACK")
                if acknowledged:
                    acknowledged.skip()  # each switch is acknowledged
            except LeftOut as why:
                self.work.report.left_out(part, str(why))
                continue
            if spec and item["shortName"] in made:
                self.work.report.left_out(part, "the port has another com spec of this item")
            elif spec:
                made[item["shortName"]] = {"element": item["shortName"], **spec}
        return list(made.values())

    def item_of(self, port: Port, part: Part) -> dict:
        """The item that a com spec is about."""
        for tag, key in zip(OF_ELEMENT, ("dataElements", "operations", "modeGroup")):
            if part.text(tag):
                return self.item(part, port, key, tag)
        raise LeftOut("it names no item of the port")

    def value_keys(self, port: Port, item: dict, part: Part) -> dict:
        spec: dict = {}
        part.pass_over("ALIVE-TIMEOUT", "HANDLE-TIMEOUT-TYPE", "HANDLE-OUT-OF-RANGE", "USES-END-TO-END-PROTECTION")
        if part.is_true("ENABLE-UPDATE"):
            self.updates.add((port.part.path, part.text("DATA-ELEMENT-REF")))
        kind = self.types.named[item["type"]]
        words = self.types.init_value(part, kind)
        if words is not None and words != zeros(kind):
            spec["initValue"] = words
        if part.is_true("HANDLE-NEVER-RECEIVED"):
            spec["handleNeverReceived"] = True
        return spec

    def length(self, part: Part) -> int:
        said = whole(part.text("QUEUE-LENGTH"))
        held = max(1, min(said, LONGEST_QUEUE))
        if held != said:
            self.work.report.changed(part, f"the QUEUE-LENGTH {said} becomes {held}")
        return held

    # ---- com specs of the root, which serve the environment

    def root_specs(self, port: Port, part: Part, specs_tag: str) -> list[dict]:
        """A P-port's first values are those of its senders' com specs; the rest is in special data."""
        made: dict[str, dict] = {}
        for spec in part.children(specs_tag, "NONQUEUED-SENDER-COM-SPEC"):
            try:
                item = self.item_of(port, spec)
            except LeftOut as why:
                self.work.report.left_out(spec, str(why))
                continue
            words = self.types.init_value(spec, self.types.named[item["type"]])
            if words is not None:
                made[item["shortName"]] = {"element": item["shortName"], "initValue": words}
        for group in part.children("ADMIN-DATA/SDGS", "SDG"):
            if group.element.get("GID") == SPECIAL:
                said = {held.get("GID"): (held.text or "").strip() for held in group.element}
                self.special(port, said, made)
        return list(made.values())

    def special(self, port: Port, said: dict, made: dict[str, dict]) -> None:
        element = said.get("element", "")
        names = [item["shortName"] for key in ("dataElements", "operations", "modeGroup") for item in port.items(key)]
        if element not in names:
            return
        spec = made.setdefault(element, {"element": element})
        if "handleNeverReceived" in said:
            spec["handleNeverReceived"] = said["handleNeverReceived"] == "true"
        if said.get("queueLength", "").isdigit():
            spec["queueLength"] = max(1, min(int(said["queueLength"]), LONGEST_QUEUE))
