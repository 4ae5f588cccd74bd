"""Writes compositions, the system and the ECU configuration as ARXML."""

from __future__ import annotations

from dataclasses import dataclass, field
from xml.etree.ElementTree import Element

from rte_tools.arxml_write_behaviour import COMPONENT, write_component
from rte_tools.arxml_write_components import PortsWritten, no_specs, root_specs, write_ports
from rte_tools.arxml_write_types import Written, write_groups, write_interfaces, write_types
from rte_tools.arxml_writing import File, Place, add, list_in, refer

COMPOSITION, PROTOTYPE = "COMPOSITION-SW-COMPONENT-TYPE", "SW-COMPONENT-PROTOTYPE"
DEFINITIONS = "/AUTOSAR/EcucDefs"


@dataclass
class Held:
    """A component or composition that is written: its tag, its path, its ports, and its events or prototypes by name."""

    tag: str
    path: str
    ports: PortsWritten
    events: dict[str, tuple[str, str]] = field(default_factory=dict)
    prototypes: dict[str, tuple[str, str]] = field(default_factory=dict)  # the path, and the name of the type


def exported(value: dict) -> tuple[str, list[str]]:
    """The ARXML of a description, which breaks no rule, and what it does not say as the description does."""
    written = Written(File(), value)
    write_types(written)
    write_groups(written)
    write_interfaces(written, invalidated_in(value))
    held: dict[str, Held] = {}
    for component in value.get("components", []):
        path, ports, events = write_component(written, component)
        held[component["shortName"]] = Held(COMPONENT, path, ports, events)
    write_compositions(written, value, held)
    write_system(written.file, held[value["root"]], value["root"])
    write_configuration(written.file, value, held)
    return written.file.text(), written.notes


def invalidated_in(value: dict) -> set[tuple[str, str]]:
    found = set()
    for component in value.get("components", []):
        interfaces = {port["shortName"]: port["interface"] for port in component.get("ports", [])}
        for runnable in component["behavior"].get("runnables", []):
            found |= {(interfaces[access[1]], access[2]) for access in runnable.get("accesses", []) if access[0] == "invalidate"}
    return found


# ---- compositions


def write_compositions(written: Written, value: dict, held: dict[str, Held]) -> None:
    """All compositions with their ports first, since prototypes refer to later ones too."""
    places = {}
    for composition in value.get("compositions", []):
        name = composition["shortName"]
        places[name] = written.file.make("ComponentTypes", COMPOSITION, name)
        specs = root_specs if name == value["root"] else no_specs
        held[name] = Held(COMPOSITION, places[name].path, write_ports(written, places[name], composition, specs))
    for composition in value.get("compositions", []):
        write_prototypes(written, places[composition["shortName"]], composition, held)
        write_connectors(places[composition["shortName"]], composition, held)


def write_prototypes(written: Written, place: Place, composition: dict, held: dict[str, Held]) -> None:
    for prototype in composition.get("prototypes", []):
        made = place.make(list_in(place.element, "COMPONENTS"), PROTOTYPE, prototype["shortName"])
        written.note_name(f"the prototype of {composition['shortName']}", prototype["shortName"], made)
        of = held[prototype["type"]]
        refer(made.element, "TYPE-TREF", of.tag, of.path)
        held[composition["shortName"]].prototypes[prototype["shortName"]] = (made.path, prototype["type"])


def write_connectors(place: Place, composition: dict, held: dict[str, Held]) -> None:
    own = held[composition["shortName"]]
    for connector in composition.get("connectors", []):
        listed = list_in(place.element, "CONNECTORS")
        if connector["kind"] == "AssemblySwConnector":
            provider, requester = connector["provider"], connector["requester"]
            made = place.make(listed, "ASSEMBLY-SW-CONNECTOR", "_".join([*provider, *requester]))
            write_end(add(made.element, "PROVIDER-IREF"), "P", provider, own, held)
            write_end(add(made.element, "REQUESTER-IREF"), "R", requester, own, held)
        else:
            made = place.make(listed, "DELEGATION-SW-CONNECTOR", "_".join([*connector["inner"], connector["outer"]]))
            side = own.ports.tag(connector["outer"])[0]
            iref = add(add(made.element, "INNER-PORT-IREF"), f"{side}-PORT-IN-COMPOSITION-INSTANCE-REF")
            write_end(iref, side, connector["inner"], own, held)
            own.ports.refer(made.element, "OUTER-PORT-REF", connector["outer"])


def write_end(iref: Element, side: str, end: list[str], own: Held, held: dict[str, Held]) -> None:
    path, kind = own.prototypes[end[0]]
    refer(iref, "CONTEXT-COMPONENT-REF", PROTOTYPE, path)
    held[kind].ports.refer(iref, f"TARGET-{side}-PORT-REF", end[1])


def write_system(file: File, root: Held, name: str) -> None:
    system = file.make("System", "SYSTEM", "System")
    add(system.element, "CATEGORY", "ECU_EXTRACT")
    made = system.make(add(system.element, "ROOT-SOFTWARE-COMPOSITIONS"), "ROOT-SW-COMPOSITION-PROTOTYPE", name)
    refer(made.element, "SOFTWARE-COMPOSITION-TREF", COMPOSITION, root.path)


# ---- the ECU configuration


def write_configuration(file: File, value: dict, held: dict[str, Held]) -> None:
    mapping = value["mapping"]
    cores = write_cores(file, mapping["cores"])
    tasks = write_tasks(file, mapping, cores)
    module = write_module(file, "Rte")
    listed = add(module.element, "CONTAINERS")
    instances: dict[str, tuple[Place, Held]] = {}
    for event in mapping.get("events", []):
        if event["instance"] not in instances:
            instances[event["instance"]] = write_instance(module, listed, event["instance"], value["root"], held)
        place, of = instances[event["instance"]]
        definition = "Rte/RteSwComponentInstance/RteEventToTaskMapping"
        made = write_container(place, list_in(place.element, "SUB-CONTAINERS"), definition, event["event"])
        write_number(made, f"{definition}/RtePositionInTask", event["position"])
        write_reference(made, f"{definition}/RteEventRef", "ECUC-FOREIGN-REFERENCE-DEF", *of.events[event["event"]])
        write_reference(made, f"{definition}/RteMappedToTaskRef", "ECUC-REFERENCE-DEF", "ECUC-CONTAINER-VALUE", tasks[event["task"]])


def write_module(file: File, name: str) -> Place:
    made = file.make("EcuConfiguration", "ECUC-MODULE-CONFIGURATION-VALUES", name)
    refer(made.element, "DEFINITION-REF", "ECUC-MODULE-DEF", f"{DEFINITIONS}/{name}")
    return made


def write_container(place: Place, listed: Element, definition: str, name: str) -> Place:
    made = place.make(listed, "ECUC-CONTAINER-VALUE", name)
    refer(made.element, "DEFINITION-REF", "ECUC-PARAM-CONF-CONTAINER-DEF", f"{DEFINITIONS}/{definition}")
    return made


def write_number(place: Place, definition: str, number: int) -> None:
    held = add(list_in(place.element, "PARAMETER-VALUES"), "ECUC-NUMERICAL-PARAM-VALUE")
    refer(held, "DEFINITION-REF", "ECUC-INTEGER-PARAM-DEF", f"{DEFINITIONS}/{definition}")
    add(held, "VALUE", number)


def write_reference(place: Place, definition: str, kind: str, tag: str, path: str) -> None:
    held = add(list_in(place.element, "REFERENCE-VALUES"), "ECUC-REFERENCE-VALUE")
    refer(held, "DEFINITION-REF", kind, f"{DEFINITIONS}/{definition}")
    refer(held, "VALUE-REF", tag, path)


def write_cores(file: File, count: int) -> list[str]:
    """The definitions of the cores, and their paths."""
    module = write_module(file, "EcuC")
    hardware = write_container(module, add(module.element, "CONTAINERS"), "EcuC/EcucHardware", "EcucHardware")
    listed, paths = add(hardware.element, "SUB-CONTAINERS"), []
    for number in range(count):
        made = write_container(hardware, listed, "EcuC/EcucHardware/EcucCoreDefinition", f"Core{number}")
        write_number(made, "EcuC/EcucHardware/EcucCoreDefinition/EcucCoreId", number)
        paths.append(made.path)
    return paths


def write_tasks(file: File, mapping: dict, cores: list[str]) -> dict[str, str]:
    """The tasks, and an OS application for each core that has some; gives the paths of the tasks."""
    module = write_module(file, "Os")
    listed, paths = add(module.element, "CONTAINERS"), {}
    for task in mapping.get("tasks", []):
        paths[task["shortName"]] = write_container(module, listed, "Os/OsTask", task["shortName"]).path
    whole = write_container(module, listed, "Os/OsOS", "OsOS")
    write_number(whole, "Os/OsOS/OsNumberOfCores", mapping["cores"])
    for number, core in enumerate(cores):
        held = [paths[task["shortName"]] for task in mapping.get("tasks", []) if task["core"] == number]
        if not held:
            continue
        made = write_container(module, listed, "Os/OsApplication", f"OsApplication_Core{number}")
        for path in held:
            write_reference(made, "Os/OsApplication/OsAppTaskRef", "ECUC-REFERENCE-DEF", "ECUC-CONTAINER-VALUE", path)
        write_reference(made, "Os/OsApplication/OsApplicationCoreRef", "ECUC-REFERENCE-DEF", "ECUC-CONTAINER-VALUE", core)
    return paths


def write_instance(module: Place, listed: Element, path: str, root: str, held: dict[str, Held]) -> tuple[Place, Held]:
    """An instance: a reference to its prototype, with the prototypes around it if it is deeper than the root."""
    made = write_container(module, listed, "Rte/RteSwComponentInstance", path.replace("/", "_"))
    chain, of = [], held[root]
    for name in path.split("/"):
        prototype, kind = of.prototypes[name]
        chain, of = [*chain, prototype], held[kind]
    definition = "Rte/RteSwComponentInstance/RteSoftwareComponentInstanceRef"
    if len(chain) == 1:
        write_reference(made, definition, "ECUC-FOREIGN-REFERENCE-DEF", PROTOTYPE, chain[0])
        return made, of
    holder = add(add(made.element, "REFERENCE-VALUES"), "ECUC-INSTANCE-REFERENCE-VALUE")
    refer(holder, "DEFINITION-REF", "ECUC-INSTANCE-REFERENCE-DEF", f"{DEFINITIONS}/{definition}")
    iref = add(holder, "VALUE-IREF")
    for around in chain[:-1]:
        refer(iref, "CONTEXT-ELEMENT-REF", PROTOTYPE, around)
    refer(iref, "TARGET-REF", PROTOTYPE, chain[-1])
    return made, of
