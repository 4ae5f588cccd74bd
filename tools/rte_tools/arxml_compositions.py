"""Compositions of ARXML: prototypes, connectors, and the root."""

from __future__ import annotations

from dataclasses import dataclass, field

from rte_tools import arxml_components
from rte_tools.arxml_components import Components
from rte_tools.arxml_fitting import misfit
from rte_tools.arxml_ports import Port, Ports
from rte_tools.arxml_report import LeftOut, Work
from rte_tools.arxml_tree import Part

COMPOSITION = "COMPOSITION-SW-COMPONENT-TYPE"
ENVIRONMENT = "env"  # no prototype of the root may have this name
INNER = {
    "R-PORT-IN-COMPOSITION-INSTANCE-REF": "TARGET-R-PORT-REF",
    "P-PORT-IN-COMPOSITION-INSTANCE-REF": "TARGET-P-PORT-REF",
}


@dataclass
class Held:
    """A composition, with what its prototypes are and the ports of it and of them."""

    part: Part
    made: dict
    prototypes: dict[str, str] = field(default_factory=dict)  # the path of the type, by the path of the prototype
    ports: list[Port] = field(default_factory=list)
    sources: dict[str, Part] = field(default_factory=dict)  # of the connectors, by their text


@dataclass
class Compositions:
    """The compositions below the root, each before those that hold it, and the components in them."""

    work: Work
    ports: Ports
    components: Components
    held: dict[str, Held] = field(default_factory=dict)  # by path
    open: list[str] = field(default_factory=list)  # those around the one that is read

    def of(self, part: Part, com_specs: str = "") -> Held:
        """Raises LeftOut where the composition contains itself."""
        if part.path in self.open:
            raise LeftOut("a composition does not contain itself")
        if part.path not in self.held:
            self.open.append(part.path)
            self.held[part.path] = self.make(part.take(), com_specs)
            self.open.pop()
        return self.held[part.path]

    def make(self, part: Part, com_specs: str) -> Held:
        name = self.work.names.declare("components", part.name, part.path)
        held = Held(part, {"shortName": name}, ports=self.ports.of(part, com_specs))
        for maps in part.children("DATA-TYPE-MAPPING-REFS", "DATA-TYPE-MAPPING-REF"):
            maps.take()  # all maps of the files are taken together
        held.made["ports"] = [port.made for port in held.ports]
        held.made["prototypes"] = [made for each in part.children("COMPONENTS", "SW-COMPONENT-PROTOTYPE") for made in self.prototype(held, each)]
        held.made["connectors"] = self.connectors(held)
        return held

    def prototype(self, held: Held, part: Part) -> list[dict]:
        """The prototype, or nothing if its type is left out."""
        kind = self.work.tree.at(part.text("TYPE-TREF"))
        try:
            if not kind:
                raise LeftOut(f"its type {part.text('TYPE-TREF')} is not in the files")
            made = self.type_named(kind)
        except LeftOut as why:
            self.work.report.left_out(part, str(why))
            return []
        held.prototypes[part.path] = kind.path
        name = self.work.names.declare(f"prototypes of {held.part.path}", part.name, part.path, (ENVIRONMENT,))
        return [{"shortName": name, "type": made["shortName"]}]

    def type_named(self, part: Part) -> dict:
        if part.tag == COMPOSITION:
            return self.of(part).made
        if part.tag not in arxml_components.KINDS:
            raise LeftOut(f"there is no {part.tag} here")
        return self.components.of(part)

    # ---- connectors

    def connectors(self, held: Held) -> list[dict]:
        ways = {"ASSEMBLY-SW-CONNECTOR": self.assembly, "DELEGATION-SW-CONNECTOR": self.delegation}
        made: dict[str, dict] = {}
        for part in held.part.children("CONNECTORS", *ways):
            try:
                connector = ways[part.tag](held, part)
                if str(connector) in made:
                    raise LeftOut("another connector has the same ends")
                if part.text("MAPPING-REF"):
                    raise LeftOut("ports are connected by the names of their items, without a port interface mapping")
            except LeftOut as why:
                self.work.report.left_out(part, str(why))
                continue
            made[str(connector)] = connector
            held.sources[str(connector)] = part
        return list(made.values())

    def assembly(self, held: Held, part: Part) -> dict:
        prototype, provider = self.end(held, part.child("PROVIDER-IREF"), "TARGET-P-PORT-REF")
        user, requester = self.end(held, part.child("REQUESTER-IREF"), "TARGET-R-PORT-REF")
        if not provider.provides or requester.provides:
            raise LeftOut("an assembly leads from a P-port to an R-port")
        self.see_fit(provider, requester)
        ends = {"provider": [prototype, provider.name], "requester": [user, requester.name]}
        return {"kind": "AssemblySwConnector", **ends}

    def delegation(self, held: Held, part: Part) -> dict:
        inner, target = None, ""
        for tag, port_tag in INNER.items():
            found = part.child("INNER-PORT-IREF", tag)
            inner, target = (found, port_tag) if found else (inner, target)
        prototype, port = self.end(held, inner, target)
        outer = self.ports.at(part, "OUTER-PORT-REF")
        if not any(outer is each for each in held.ports) or outer.provides != port.provides:
            raise LeftOut("a delegation leads to an outer port of the same kind")
        self.see_fit(*((port, outer) if port.provides else (outer, port)))
        return {"kind": "DelegationSwConnector", "inner": [prototype, port.name], "outer": outer.name}

    def end(self, held: Held, part: Part | None, target: str) -> tuple[str, Port]:
        """The name of a prototype and the port of its type."""
        if not part:
            raise LeftOut("an end of it is missing")
        context = part.text("CONTEXT-COMPONENT-REF")
        if context not in held.prototypes:
            raise LeftOut(f"its prototype {context or '(none)'} is not there, or left out")
        port = self.ports.at(part, target)
        if port.part.path.rpartition("/")[0] != held.prototypes[context]:
            raise LeftOut(f"{port.part.path} is no port of {held.prototypes[context]}")
        return self.work.names.given[context], port

    def see_fit(self, provided: Port, required: Port) -> None:
        why = misfit(provided.interface, required.interface, self.ports.types.named, self.ports.interfaces.group_named)
        if why:
            raise LeftOut(f"its ports are not compatible: {why}")


def root_of(work: Work, wanted: str) -> Part | None:
    """The composition that is run: the one asked for, that of the system, or one that no other holds."""
    compositions = work.tree.all(COMPOSITION)
    if wanted:
        return next((part for part in compositions if wanted in (part.path, part.name)), None)
    for system in work.tree.all("ROOT-SW-COMPOSITION-PROTOTYPE"):
        root = system.target("SOFTWARE-COMPOSITION-TREF")
        if root:
            take_system(work, system.take())
            return root
    used = {part.element.findtext("TYPE-TREF", "").strip() for part in work.tree.all("SW-COMPONENT-PROTOTYPE")}
    outermost = [part for part in compositions if part.path not in used]
    return outermost[0] if outermost else None


def take_system(work: Work, prototype: Part) -> None:
    system = work.tree.at(prototype.path.rpartition("/")[0])
    if system:
        system.take().child("ROOT-SOFTWARE-COMPOSITIONS")
