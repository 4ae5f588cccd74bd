"""Writes components with their ports and com specs as ARXML."""

from __future__ import annotations

from dataclasses import dataclass, field
from xml.etree.ElementTree import Element

from rte_tools.arxml_ports import SPECIAL
from rte_tools.arxml_skeleton import zeros
from rte_tools.arxml_write_types import Written, write_value
from rte_tools.arxml_writing import Place, add, list_in, refer

TAGS = {
    "SenderReceiverInterface": "SENDER-RECEIVER-INTERFACE",
    "ClientServerInterface": "CLIENT-SERVER-INTERFACE",
    "ModeSwitchInterface": "MODE-SWITCH-INTERFACE",
}


@dataclass
class PortsWritten:
    """The ports of a component or composition, by name: their paths, tags and interfaces."""

    written: Written
    paths: dict[str, str] = field(default_factory=dict)
    made: dict[str, dict] = field(default_factory=dict)

    def tag(self, name: str) -> str:
        return "P-PORT-PROTOTYPE" if self.made[name]["kind"] == "PPortPrototype" else "R-PORT-PROTOTYPE"

    def refer(self, parent: Element, tag: str, name: str) -> None:
        refer(parent, tag, self.tag(name), self.paths[name])

    def interface(self, name: str) -> dict:
        return self.written.interface_named[self.made[name]["interface"]]

    def item(self, name: str, item: str) -> str:
        return self.written.items[self.made[name]["interface"], item]

    def mode_element(self, name: str) -> str:
        return self.item(name, self.interface(name)["modeGroup"]["shortName"])

    def mode_group(self, name: str) -> str:
        return self.interface(name)["modeGroup"]["type"]


def write_ports(written: Written, place: Place, holder: dict, specs) -> PortsWritten:
    """The ports of a holder. `specs` writes the com specs of a port into its element."""
    ports = PortsWritten(written)
    for port in holder.get("ports", []):
        name, provides = port["shortName"], port["kind"] == "PPortPrototype"
        ports.made[name] = port
        made = place.make(list_in(place.element, "PORTS"), ports.tag(name), name)
        written.note_name(f"the port of {holder['shortName']}", name, made)
        ports.paths[name] = made.path
        specs(ports, made.element, port)
        tag = "PROVIDED-INTERFACE-TREF" if provides else "REQUIRED-INTERFACE-TREF"
        refer(made.element, tag, TAGS[ports.interface(name)["kind"]], written.interfaces[port["interface"]])
    return ports


# ---- com specs of components


@dataclass(frozen=True)
class Used:
    """What a component's runnables and events do with its ports beside their accesses."""

    updated: frozenset[tuple[str, str]]  # port and element, of which Rte_IsUpdated is asked
    acknowledged: frozenset[str]  # ports whose switches are acknowledged


def used_by(component: dict) -> Used:
    behaviour = component["behavior"]
    accesses = [access for runnable in behaviour.get("runnables", []) for access in runnable.get("accesses", [])]
    updated = frozenset((access[1], access[2]) for access in accesses if access[0] == "isUpdated")
    events = behaviour.get("events", [])
    return Used(updated, frozenset(event["port"] for event in events if event["kind"] == "ModeSwitchedAckEvent"))


def component_specs(used: Used):
    """Writes a com spec for each item of a component's port, as ARXML wants it; what is not said has its default."""

    def write(ports: PortsWritten, element: Element, port: dict) -> None:
        name, provides = port["shortName"], port["kind"] == "PPortPrototype"
        said = {spec["element"]: spec for spec in port.get("comSpecs", [])}
        interface = ports.interface(name)
        listed = add(element, "PROVIDED-COM-SPECS" if provides else "REQUIRED-COM-SPECS")
        for item in interface.get("dataElements", []):
            write_data_spec(ports, listed, port, item, said.get(item["shortName"], {}), used)
        for item in interface.get("operations", []):
            spec = add(listed, "SERVER-COM-SPEC" if provides else "CLIENT-COM-SPEC")
            refer(spec, "OPERATION-REF", "CLIENT-SERVER-OPERATION", ports.item(name, item["shortName"]))
            if provides:
                add(spec, "QUEUE-LENGTH", said.get(item["shortName"], {}).get("queueLength", 1))
        if "modeGroup" in interface:
            write_mode_spec(ports, listed, port, said.get(interface["modeGroup"]["shortName"], {}), used)
        if not len(listed):
            element.remove(listed)

    return write


def write_data_spec(ports: PortsWritten, listed: Element, port: dict, item: dict, said: dict, used: Used) -> None:
    name, provides, queued = port["shortName"], port["kind"] == "PPortPrototype", item["swImplPolicy"] == "queued"
    spec = add(listed, f"{'QUEUED' if queued else 'NONQUEUED'}-{'SENDER' if provides else 'RECEIVER'}-COM-SPEC")
    refer(spec, "DATA-ELEMENT-REF", "VARIABLE-DATA-PROTOTYPE", ports.item(name, item["shortName"]))
    if provides:
        return
    if queued:
        add(spec, "QUEUE-LENGTH", said.get("queueLength", 1))
        return
    kind = ports.written.type_named[item["type"]]
    add(spec, "ALIVE-TIMEOUT", 0)
    add(spec, "ENABLE-UPDATE", "true" if (name, item["shortName"]) in used.updated else "false")
    add(spec, "HANDLE-NEVER-RECEIVED", "true" if said.get("handleNeverReceived") else "false")
    add(spec, "HANDLE-TIMEOUT-TYPE", "NONE")
    write_value(spec, kind, said.get("initValue", zeros(kind)))


def write_mode_spec(ports: PortsWritten, listed: Element, port: dict, said: dict, used: Used) -> None:
    name, provides = port["shortName"], port["kind"] == "PPortPrototype"
    spec = add(listed, "MODE-SWITCH-SENDER-COM-SPEC" if provides else "MODE-SWITCH-RECEIVER-COM-SPEC")
    add(spec, "ENHANCED-MODE-API", "false")
    refer(spec, "MODE-GROUP-REF", "MODE-DECLARATION-GROUP-PROTOTYPE", ports.mode_element(name))
    if not provides:
        add(spec, "SUPPORTS-ASYNCHRONOUS-MODE-SWITCH", "true" if said.get("supportsAsynchronousModeSwitch") else "false")
        return
    if name in used.acknowledged:
        add(add(spec, "MODE-SWITCHED-ACK"), "TIMEOUT", 0)
    add(spec, "QUEUE-LENGTH", said.get("queueLength", 1))


# ---- com specs of compositions: those of the root serve the environment


def root_specs(ports: PortsWritten, element: Element, port: dict) -> None:
    """A P-port's initial values are those of senders; all else is special data, since no com spec has it."""
    interface, values = ports.interface(port["shortName"]), []
    policies = {item["shortName"]: item for item in interface.get("dataElements", [])}
    for said in port.get("comSpecs", []):
        keys = {key: said[key] for key in ("handleNeverReceived", "queueLength") if key in said}
        if "initValue" in said and port["kind"] == "PPortPrototype":
            values.append(said)
        elif set(said) - set(keys) - {"element"}:
            ports.written.notes.append(f"the com spec of {port['shortName']}.{said['element']} of the root is not used, and is left out")
        if keys:
            group = add(list_in(list_in(element, "ADMIN-DATA"), "SDGS"), "SDG", GID=SPECIAL)
            add(group, "SD", said["element"], GID="element")
            for key, value in keys.items():
                add(group, "SD", str(value).lower(), GID=key)
    for said in values:
        spec = add(list_in(element, "PROVIDED-COM-SPECS"), "NONQUEUED-SENDER-COM-SPEC")
        refer(spec, "DATA-ELEMENT-REF", "VARIABLE-DATA-PROTOTYPE", ports.item(port["shortName"], said["element"]))
        write_value(spec, ports.written.type_named[policies[said["element"]]["type"]], said["initValue"])


def no_specs(ports: PortsWritten, element: Element, port: dict) -> None:
    """Com specs of other compositions are not used."""
    if port.get("comSpecs"):
        ports.written.notes.append(f"the com specs of the port {port['shortName']} are not used, and are left out")
