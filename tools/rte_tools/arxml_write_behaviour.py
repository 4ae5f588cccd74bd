"""Writes internal behaviours as ARXML: areas, variables, runnables with their accesses, events."""

from __future__ import annotations

from dataclasses import dataclass, field
from decimal import Decimal
from xml.etree.ElementTree import Element

from rte_tools.arxml_skeleton import zeros
from rte_tools.arxml_write_components import PortsWritten, component_specs, used_by, write_ports
from rte_tools.arxml_write_types import Written, write_value
from rte_tools.arxml_writing import Place, add, list_in, refer

# The list and the tag of each access, in the order in which ARXML has the lists of a runnable.
LISTS = (
    ("enter", "CAN-ENTER-EXCLUSIVE-AREA-REFS"),
    ("result", "ASYNCHRONOUS-SERVER-CALL-RESULT-POINTS"),
    ("", "CAN-BE-INVOKED-CONCURRENTLY"),
    ("iread", "DATA-READ-ACCESSS"),
    ("read receive isUpdated", "DATA-RECEIVE-POINT-BY-ARGUMENTS"),
    ("write send invalidate", "DATA-SEND-POINTS"),
    ("iwrite", "DATA-WRITE-ACCESSS"),
    ("mode", "MODE-ACCESS-POINTS"),
    ("switch", "MODE-SWITCH-POINTS"),
    ("irvRead irvIRead", "READ-LOCAL-VARIABLES"),
    ("call acall", "SERVER-CALL-POINTS"),
    ("", "SYMBOL"),
    ("irvWrite irvIWrite", "WRITTEN-LOCAL-VARIABLES"),
)
EVENTS = {
    "TimingEvent": "TIMING-EVENT",
    "InitEvent": "INIT-EVENT",
    "DataReceivedEvent": "DATA-RECEIVED-EVENT",
    "OperationInvokedEvent": "OPERATION-INVOKED-EVENT",
    "AsynchronousServerCallReturnsEvent": "ASYNCHRONOUS-SERVER-CALL-RETURNS-EVENT",
    "SwcModeSwitchEvent": "SWC-MODE-SWITCH-EVENT",
    "ModeSwitchedAckEvent": "MODE-SWITCHED-ACK-EVENT",
}
ACTIVATIONS = {"onEntry": "ON-ENTRY", "onExit": "ON-EXIT", "onTransition": "ON-TRANSITION"}
COMPONENT = "APPLICATION-SW-COMPONENT-TYPE"


@dataclass
class Behaviour:
    """One component that is written."""

    written: Written
    ports: PortsWritten
    place: Place
    made: dict
    events: dict[str, tuple[str, str]] = field(default_factory=dict)  # the tag and the path by name
    names: dict[tuple[str, str], str] = field(default_factory=dict)  # that were asked for, by kind and name
    areas: dict[str, str] = field(default_factory=dict)
    variables: dict[str, str] = field(default_factory=dict)
    runnables: dict[str, Place] = field(default_factory=dict)
    asked: dict[tuple[str, str], str] = field(default_factory=dict)  # the point of each call that does not wait
    results: dict[tuple[str, str], str] = field(default_factory=dict)
    switches: dict[str, str] = field(default_factory=dict)  # a mode switch point of each port

    def write(self) -> None:
        element, made = self.place.element, self.made
        self.keep_names()
        if self.written.maps:
            refer(add(element, "DATA-TYPE-MAPPING-REFS"), "DATA-TYPE-MAPPING-REF", "DATA-TYPE-MAPPING-SET", self.written.maps)
        for area in made.get("exclusiveAreas", []):
            self.areas[area] = self.named(list_in(element, "EXCLUSIVE-AREAS"), "EXCLUSIVE-AREA", "area", area).path
        events = add(element, "EVENTS") if made.get("events") else None
        self.write_variables()
        if made.get("runnables"):
            listed = add(element, "RUNNABLES")
            for runnable in made["runnables"]:
                self.note_lists(runnable)
                self.runnables[runnable["shortName"]] = self.named(listed, "RUNNABLE-ENTITY", "runnable", runnable["shortName"])
            for pass_over in (False, True):  # results refer to calls, which may be of another runnable
                for runnable in made["runnables"]:
                    self.write_runnable(runnable, pass_over)
        add(element, "SUPPORTS-MULTIPLE-INSTANTIATION", "true")
        for event in made.get("events", []):
            self.write_event(events, event)

    # ---- names: in ARXML all that a behaviour holds has distinct ones; events keep theirs, which a plan shows

    def keep_names(self) -> None:
        for kind, key in (("event", "events"), ("runnable", "runnables"), ("variable", "variables"), ("area", "exclusiveAreas")):
            for held in self.made.get(key, []):
                name = held if isinstance(held, str) else held["shortName"]
                self.names[kind, name] = self.place.name(name)

    def named(self, holder: Element, tag: str, kind: str, name: str) -> Place:
        place = self.place.put(holder, tag, self.names[kind, name])
        self.written.note_name(f"the {kind} of {self.place.path.split('/')[-2]}", name, place)
        return place

    # ---- variables

    def write_variables(self) -> None:
        """A variable is implicit if all accesses to it are."""
        accesses = [access for runnable in self.made.get("runnables", []) for access in runnable.get("accesses", [])]
        explicit = {access[1] for access in accesses if access[0] in ("irvRead", "irvWrite")}
        implicit = {access[1] for access in accesses if access[0] in ("irvIRead", "irvIWrite")}
        for name in sorted(explicit & implicit):
            self.written.notes.append(f"the variable {name} becomes explicit for all, since ARXML has it explicit or implicit")
        for wrapper, is_implicit in (("EXPLICIT-INTER-RUNNABLE-VARIABLES", False), ("IMPLICIT-INTER-RUNNABLE-VARIABLES", True)):
            for held in self.made.get("variables", []):
                name = held["shortName"]
                if (name in implicit - explicit) != is_implicit:
                    continue
                place = self.named(list_in(self.place.element, wrapper), "VARIABLE-DATA-PROTOTYPE", "variable", name)
                self.variables[name] = place.path
                self.written.refer_type(place.element, held["type"])
                kind = self.written.type_named[held["type"]]
                write_value(place.element, kind, held.get("initValue", zeros(kind)))

    # ---- runnables

    def write_runnable(self, runnable: dict, is_second: bool) -> None:
        """The lists of a runnable in the order of ARXML. Results are filled in a second pass."""
        place, done = self.runnables[runnable["shortName"]], set()
        for keywords, wrapper in LISTS:
            if keywords == "":
                if not is_second:
                    text = {"SYMBOL": runnable["shortName"]}.get(wrapper, str(runnable.get("canBeInvokedConcurrently", False)).lower())
                    add(place.element, wrapper, text)
                continue
            for access in runnable.get("accesses", []):
                if access[0] not in keywords.split() or (wrapper, *access[1:]) in done:
                    continue
                done.add((wrapper, *access[1:]))  # Rte_IsUpdated and Rte_Invalidate need no point beside the first
                listed = list_in(place.element, wrapper)
                if (access[0] == "result") == is_second:
                    self.write_access(place, listed, access)

    def note_lists(self, runnable: dict) -> None:
        """ARXML says of groups of elements and of runnables that they need coherency, which is not the same."""
        if runnable.get("coherent"):
            self.written.notes.append(f"the coherent lists of the runnable {runnable['shortName']} are left out")

    def write_access(self, place: Place, listed: Element, access: list[str]) -> None:
        keyword, wanted = access[0], "_".join(access)
        if keyword == "enter":
            refer(listed, "CAN-ENTER-EXCLUSIVE-AREA-REF", "EXCLUSIVE-AREA", self.areas[access[1]])
        elif keyword.startswith("irv"):
            held = add(place.make(listed, "VARIABLE-ACCESS", wanted).element, "ACCESSED-VARIABLE")
            refer(held, "LOCAL-VARIABLE-REF", "VARIABLE-DATA-PROTOTYPE", self.variables[access[1]])
        elif keyword in ("call", "acall"):
            self.write_call(place, listed, access)
        elif keyword == "result":
            self.write_result(place, listed, (access[1], access[2]))
        elif keyword == "switch":
            self.write_switch(place, listed, access[1])
        elif keyword == "mode":
            held = add(add(add(listed, "MODE-ACCESS-POINT"), "MODE-GROUP-IREF"), "R-MODE-GROUP-IN-ATOMIC-SWC-INSTANCE-REF")
            self.refer_modes(held, "CONTEXT-R-PORT-REF", access[1])
        else:
            held = add(place.make(listed, "VARIABLE-ACCESS", wanted).element, "ACCESSED-VARIABLE")
            iref = add(held, "AUTOSAR-VARIABLE-IREF")
            self.ports.refer(iref, "PORT-PROTOTYPE-REF", access[1])
            refer(iref, "TARGET-DATA-PROTOTYPE-REF", "VARIABLE-DATA-PROTOTYPE", self.ports.item(access[1], access[2]))

    def write_call(self, place: Place, listed: Element, access: list[str]) -> None:
        waits = access[0] == "call"
        tag = "SYNCHRONOUS-SERVER-CALL-POINT" if waits else "ASYNCHRONOUS-SERVER-CALL-POINT"
        made = place.make(listed, tag, "_".join(access))
        iref = add(made.element, "OPERATION-IREF")
        self.ports.refer(iref, "CONTEXT-R-PORT-REF", access[1])
        refer(iref, "TARGET-REQUIRED-OPERATION-REF", "CLIENT-SERVER-OPERATION", self.ports.item(access[1], access[2]))
        add(made.element, "TIMEOUT", 0)
        if not waits:
            self.asked[access[1], access[2]] = made.path

    def write_result(self, place: Place, listed: Element, operation: tuple[str, str]) -> None:
        made = place.make(listed, "ASYNCHRONOUS-SERVER-CALL-RESULT-POINT", "_".join(("result", *operation)))
        refer(made.element, "ASYNCHRONOUS-SERVER-CALL-POINT-REF", "ASYNCHRONOUS-SERVER-CALL-POINT", self.asked[operation])
        self.results.setdefault(operation, made.path)

    def write_switch(self, place: Place, listed: Element, port: str) -> None:
        made = place.make(listed, "MODE-SWITCH-POINT", f"switch_{port}")
        self.refer_modes(add(made.element, "MODE-GROUP-IREF"), "CONTEXT-P-PORT-REF", port)
        self.switches.setdefault(port, made.path)

    def refer_modes(self, parent: Element, tag: str, port: str) -> None:
        self.ports.refer(parent, tag, port)
        refer(parent, "TARGET-MODE-GROUP-REF", "MODE-DECLARATION-GROUP-PROTOTYPE", self.ports.mode_element(port))

    # ---- events

    def write_event(self, listed: Element, event: dict) -> None:
        place = self.named(listed, EVENTS[event["kind"]], "event", event["shortName"])
        self.events[event["shortName"]] = (EVENTS[event["kind"]], place.path)
        disabled = event.get("disabledInModes", {})
        for mode in disabled.get("modes", []):
            self.refer_mode(list_in(place.element, "DISABLED-MODE-IREFS"), "DISABLED-MODE-IREF", disabled["port"], mode)
        refer(place.element, "START-ON-EVENT-REF", "RUNNABLE-ENTITY", self.runnables[event["runnable"]].path)
        self.write_keys(place.element, event)

    def write_keys(self, element: Element, event: dict) -> None:
        kind, port = event["kind"], event.get("port", "")
        if kind == "TimingEvent":
            add(element, "PERIOD", seconds(event["period"]))
        elif kind == "DataReceivedEvent":
            iref = add(element, "DATA-IREF")
            self.ports.refer(iref, "CONTEXT-R-PORT-REF", port)
            refer(iref, "TARGET-DATA-ELEMENT-REF", "VARIABLE-DATA-PROTOTYPE", self.ports.item(port, event["element"]))
        elif kind == "OperationInvokedEvent":
            iref = add(element, "OPERATION-IREF")
            self.ports.refer(iref, "CONTEXT-P-PORT-REF", port)
            refer(iref, "TARGET-PROVIDED-OPERATION-REF", "CLIENT-SERVER-OPERATION", self.ports.item(port, event["operation"]))
        elif kind == "AsynchronousServerCallReturnsEvent":
            refer(element, "EVENT-SOURCE-REF", "ASYNCHRONOUS-SERVER-CALL-RESULT-POINT", self.result_point(event))
        elif kind == "SwcModeSwitchEvent":
            add(element, "ACTIVATION", ACTIVATIONS[event["activation"]])
            for mode in event["modes"]:
                self.refer_mode(list_in(element, "MODE-IREFS"), "MODE-IREF", port, mode)
        elif kind == "ModeSwitchedAckEvent":
            refer(element, "EVENT-SOURCE-REF", "MODE-SWITCH-POINT", self.switch_point(event))

    def result_point(self, event: dict) -> str:
        """A result point of the operation; the event's runnable gets one if nobody has one."""
        operation, place = (event["port"], event["operation"]), self.runnables[event["runnable"]]
        if operation not in self.results:
            listed = list_in(place.element, "ASYNCHRONOUS-SERVER-CALL-RESULT-POINTS")
            self.write_result(place, listed, operation)
            what = f"may take the result of {operation[0]}.{operation[1]}"
            self.written.notes.append(f"the runnable {event['runnable']} {what}, since the event {event['shortName']} needs it")
        return self.results[operation]

    def switch_point(self, event: dict) -> str:
        port, place = event["port"], self.runnables[event["runnable"]]
        if port not in self.switches:
            self.write_switch(place, list_in(place.element, "MODE-SWITCH-POINTS"), port)
            self.written.notes.append(f"the runnable {event['runnable']} may switch {port}, since the event {event['shortName']} needs it")
        return self.switches[port]

    def refer_mode(self, listed: Element, tag: str, port: str, mode: str) -> None:
        iref = add(listed, tag)
        self.ports.refer(iref, "CONTEXT-PORT-REF", port)
        element, group = self.ports.mode_element(port), self.ports.mode_group(port)
        refer(iref, "CONTEXT-MODE-DECLARATION-GROUP-PROTOTYPE-REF", "MODE-DECLARATION-GROUP-PROTOTYPE", element)
        refer(iref, "TARGET-MODE-DECLARATION-REF", "MODE-DECLARATION", self.written.modes[group, mode])


def seconds(milliseconds: int) -> str:
    return format(Decimal(milliseconds) / 1000, "f")


def write_component(written: Written, component: dict) -> tuple[str, PortsWritten, dict[str, tuple[str, str]]]:
    """Gives the path of the component, its ports, and the tags and paths of its events."""
    place = written.file.make("ComponentTypes", COMPONENT, component["shortName"])
    ports = write_ports(written, place, component, component_specs(used_by(component)))
    listed = add(place.element, "INTERNAL-BEHAVIORS")
    inner = place.make(listed, "SWC-INTERNAL-BEHAVIOR", f"{component['shortName']}_InternalBehavior")
    behaviour = Behaviour(written, ports, inner, component["behavior"])
    behaviour.write()
    return place.path, ports, behaviour.events
