"""Software components of ARXML: their ports and their internal behaviour, with programs that are skeletons."""

from __future__ import annotations

from dataclasses import dataclass, field

from rte_tools.arxml_events import Events
from rte_tools.arxml_ports import Port, Ports
from rte_tools.arxml_report import LeftOut, Work
from rte_tools.arxml_runnables import Runnables, Variables
from rte_tools.arxml_skeleton import Component, Skeleton, zeros
from rte_tools.arxml_tree import Part

KINDS = (
    "APPLICATION-SW-COMPONENT-TYPE",
    "SENSOR-ACTUATOR-SW-COMPONENT-TYPE",
    "SERVICE-SW-COMPONENT-TYPE",
    "COMPLEX-DEVICE-DRIVER-SW-COMPONENT-TYPE",
    "ECU-ABSTRACTION-SW-COMPONENT-TYPE",
    "SERVICE-PROXY-SW-COMPONENT-TYPE",
)
SERVER = "OperationInvokedEvent"


@dataclass
class Components:
    """The components that compositions name, by their path."""

    work: Work
    ports: Ports
    made: dict[str, dict] = field(default_factory=dict)
    ports_of: dict[str, list[Port]] = field(default_factory=dict)

    def of(self, part: Part) -> dict:
        if part.path not in self.made:
            self.made[part.path] = self.make(part)
        return self.made[part.path]

    def make(self, part: Part) -> dict:
        name = self.work.names.declare("components", part.take().name, part.path)
        if part.tag != KINDS[0]:
            self.work.report.changed(part, "it becomes a component like any other")
        ports = self.ports_of[part.path] = self.ports.of(part, "component")
        behaviours = part.children("INTERNAL-BEHAVIORS", "SWC-INTERNAL-BEHAVIOR")
        for spare in behaviours[1:]:
            self.work.report.left_out(spare, "a component has one internal behaviour")
        behaviour = self.behaviour(part, behaviours[0], ports) if behaviours else {}
        self.serve_all(part, ports, behaviour)
        made = {"shortName": name, "ports": [port.made for port in ports], "behavior": behaviour}
        self.fill_programs(ports, behaviour)
        return made

    # ---- the behaviour

    def behaviour(self, component: Part, part: Part, ports: list[Port]) -> dict:
        names = self.work.names
        areas = {held.path: names.item(held.name, held.path) for held in part.children("EXCLUSIVE-AREAS", "EXCLUSIVE-AREA")}
        for held in part.children("DATA-TYPE-MAPPING-REFS", "DATA-TYPE-MAPPING-REF"):
            held.take()  # all maps of the files are taken together
        part.child("SUPPORTS-MULTIPLE-INSTANTIATION")
        part.child("HANDLE-TERMINATION-AND-RESTART")
        variables, stored = self.variables(part)
        runnables = Runnables(self.work, self.ports, variables, areas)
        made, named = [], {}
        for held in part.children("RUNNABLES", "RUNNABLE-ENTITY"):
            name = names.declare(f"runnables of {component.path}", held.name, held.path)
            named[held.path] = name
            runnable: dict = {"shortName": name}
            if held.is_true("CAN-BE-INVOKED-CONCURRENTLY"):
                runnable["canBeInvokedConcurrently"] = True
            runnable["accesses"] = runnables.accesses(held)
            made.append(runnable)
        self.drop_results(part, made, runnables)
        scope = f"events of {component.path}"
        events = Events(self.work, self.ports, runnables, named, scope).read(part)
        behaviour = {"exclusiveAreas": list(areas.values()), "variables": stored, "runnables": made, "events": events}
        self.part_servers(component, behaviour)
        return behaviour

    def variables(self, part: Part) -> tuple[Variables, list[dict]]:
        """The inter-runnable variables, explicit ones first."""
        found, stored = Variables(), []
        for wrapper in ("EXPLICIT-INTER-RUNNABLE-VARIABLES", "IMPLICIT-INTER-RUNNABLE-VARIABLES"):
            for held in part.children(wrapper, "VARIABLE-DATA-PROTOTYPE"):
                try:
                    kind = self.ports.types.of(held)
                except LeftOut as why:
                    self.work.report.left_out(held, str(why))
                    continue
                name = self.work.names.item(held.name, held.path)
                found.names[held.path] = name
                if wrapper.startswith("IMPLICIT"):
                    found.implicit.add(held.path)
                words = self.ports.types.init_value(held, kind)
                made = {"shortName": name, "type": kind["shortName"]}
                stored.append(made if words in (None, zeros(kind)) else {**made, "initValue": words})
        return found, stored

    def drop_results(self, part: Part, made: list[dict], runnables: Runnables) -> None:
        """Rule 23: a result is that of a call that does not wait, and such a call was taken."""
        for runnable in made:
            kept = []
            for access in runnable["accesses"]:
                if access[0] == "result" and tuple(access[1:]) not in runnables.asked:
                    what = f"{access[1]}.{access[2]}, which nobody asks without waiting"
                    self.work.report.changed(part, f"{runnable['shortName']} takes no result of {what}")
                else:
                    kept.append(access)
            runnable["accesses"] = kept

    # ---- rule 22: each operation is served once, by a runnable of its own

    def part_servers(self, part: Part, behaviour: dict) -> None:
        """A runnable that serves and has other events gets a copy for each further operation."""
        by_runnable: dict[str, list[dict]] = {}
        for event in behaviour["events"]:
            by_runnable.setdefault(event["runnable"], []).append(event)
        for runnable in list(behaviour["runnables"]):
            events = by_runnable.get(runnable["shortName"], [])
            servers = [event for event in events if event["kind"] == SERVER]
            spare = servers if len(servers) < len(events) else servers[1:]
            for event in spare:
                name = self.work.names.distinct(f"runnables of {part.path}", runnable["shortName"])
                kept = [access for access in runnable["accesses"] if access[0] != "acall"]
                behaviour["runnables"].append({**runnable, "shortName": name, "accesses": kept})
                event["runnable"] = name
                what = f"starts {name}, a copy of {runnable['shortName']}, which has other events"
                self.work.report.changed(part, f"the event {event['shortName']} {what}")

    def serve_all(self, part: Part, ports: list[Port], behaviour: dict) -> None:
        """An operation of a P-port that nobody serves gets a server, which returns 0; of two servers one stays."""
        served: set[tuple[str, str]] = set()
        events = behaviour.setdefault("events", [])
        for event in list(events):
            if event["kind"] == SERVER:
                if (event["port"], event["operation"]) in served:
                    events.remove(event)
                    self.work.report.changed(part, f"the event {event['shortName']} is left out, since its operation has another server")
                served.add((event["port"], event["operation"]))
        for port in ports:
            for item in port.items("operations") if port.provides else []:
                if (port.name, item["shortName"]) not in served:
                    self.add_server(part, port, item, behaviour)

    def add_server(self, part: Part, port: Port, item: dict, behaviour: dict) -> None:
        names = self.work.names
        word = f"{port.name}_{item['shortName']}"
        runnable = names.distinct(f"runnables of {part.path}", names.form(f"Serve_{word}"))
        event = names.distinct(f"events of {part.path}", names.form(f"On_{word}"))
        made = {"kind": SERVER, "shortName": event, "runnable": runnable, "port": port.name, "operation": item["shortName"]}
        behaviour["events"].append(made)
        behaviour.setdefault("runnables", []).append({"shortName": runnable, "canBeInvokedConcurrently": True, "accesses": []})
        self.work.report.added(part.path, f"the server {runnable} of {port.name}.{item['shortName']}, which has none in the files; it returns 0")

    # ---- programs

    def fill_programs(self, ports: list[Port], behaviour: dict) -> None:
        known = Component(areas=behaviour.get("exclusiveAreas", []))
        known.types = self.ports.types.named
        for port in ports:
            for item in port.items("dataElements"):
                known.kinds[port.name, item["shortName"]] = known.types[item["type"]]
            for item in port.items("operations"):
                known.operations[port.name, item["shortName"]] = item
            for item in port.items("modeGroup"):
                known.modes[port.name] = self.ports.interfaces.group_named[item["type"]]["initialMode"]
        for variable in behaviour.get("variables", []):
            known.kinds[(variable["shortName"],)] = known.types[variable["type"]]
        serves = {
            event["runnable"]: known.operations[event["port"], event["operation"]]
            for event in behaviour["events"]
            if event["kind"] == SERVER
        }
        for runnable in behaviour.get("runnables", []):
            runnable["program"] = Skeleton(known, runnable["accesses"], serves.get(runnable["shortName"])).program()
            for key in ("accesses", "program"):
                if not runnable[key]:
                    del runnable[key]
        for key in ("exclusiveAreas", "variables", "runnables", "events"):
            if not behaviour.get(key):
                behaviour.pop(key, None)
