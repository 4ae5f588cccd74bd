"""Writes data types, mode groups and interfaces as ARXML."""

from __future__ import annotations

from dataclasses import dataclass, field
from xml.etree.ElementTree import Element

from rte_tools.arxml_types import RANGES
from rte_tools.arxml_writing import File, Place, add, list_in, refer

NATIVE = {"8": "char", "16": "short", "32": "long"}
PRIMITIVE, ARRAY = "APPLICATION-PRIMITIVE-DATA-TYPE", "APPLICATION-ARRAY-DATA-TYPE"


@dataclass
class Written:
    """The paths of what was written, by the names in the description."""

    file: File
    value: dict
    types: dict[str, str] = field(default_factory=dict)
    groups: dict[str, str] = field(default_factory=dict)
    modes: dict[tuple[str, str], str] = field(default_factory=dict)
    interfaces: dict[str, str] = field(default_factory=dict)
    items: dict[tuple[str, str], str] = field(default_factory=dict)  # by interface and item
    maps: str = ""
    notes: list[str] = field(default_factory=list)

    def __post_init__(self) -> None:
        self.type_named = {held["shortName"]: held for held in self.value.get("dataTypes", [])}
        self.interface_named = {held["shortName"]: held for held in self.value.get("interfaces", [])}

    def type_kind(self, name: str) -> str:
        return PRIMITIVE if self.type_named[name]["words"] == 1 else ARRAY

    def refer_type(self, parent: Element, name: str) -> None:
        refer(parent, "TYPE-TREF", self.type_kind(name), self.types[name])

    def note_name(self, what: str, wanted: str, place: Place) -> None:
        """Notes a name that could not stay, since ARXML wants it distinct from more than a description does."""
        made = place.path.rpartition("/")[2]
        if made != wanted:
            self.notes.append(f"{what} {wanted} is {made} in ARXML, since something beside it has its name")


def properties(parent: Element) -> Element:
    held = add(add(parent, "SW-DATA-DEF-PROPS"), "SW-DATA-DEF-PROPS-VARIANTS")
    return add(held, "SW-DATA-DEF-PROPS-CONDITIONAL")


# ---- data types


def write_types(written: Written) -> None:
    bases = sorted({held["baseType"] for held in written.value.get("dataTypes", [])})
    platform = {base: write_base(written.file, base) for base in bases}
    maps: list[tuple[str, str, str]] = []
    for held in written.value.get("dataTypes", []):
        maps += write_type(written, held, platform[held["baseType"]])
    if maps:
        mapping = written.file.make("DataTypeMappings", "DATA-TYPE-MAPPING-SET", "Maps")
        written.maps = mapping.path
        listed = add(mapping.element, "DATA-TYPE-MAPS")
        for kind, application, implementation in maps:
            entry = add(listed, "DATA-TYPE-MAP")
            refer(entry, "APPLICATION-DATA-TYPE-REF", kind, application)
            refer(entry, "IMPLEMENTATION-DATA-TYPE-REF", "IMPLEMENTATION-DATA-TYPE", implementation)


def write_base(file: File, base: str) -> str:
    """The platform type of a base type, with its SW-BASE-TYPE; gives the path of the former."""
    size = "8" if base == "boolean" else base[4:]
    coded = file.make("BaseTypes", "SW-BASE-TYPE", base)
    add(coded.element, "CATEGORY", "FIXED_LENGTH")
    add(coded.element, "BASE-TYPE-SIZE", size)
    add(coded.element, "BASE-TYPE-ENCODING", "BOOLEAN" if base == "boolean" else "2C" if base.startswith("s") else "NONE")
    add(coded.element, "NATIVE-DECLARATION", f"{'signed' if base.startswith('s') else 'unsigned'} {NATIVE[size]}")
    made = file.make("ImplementationDataTypes", "IMPLEMENTATION-DATA-TYPE", base)
    add(made.element, "CATEGORY", "VALUE")
    held = properties(made.element)
    refer(held, "BASE-TYPE-REF", "SW-BASE-TYPE", coded.path)
    refer(held, "DATA-CONSTR-REF", "DATA-CONSTR", write_limits(file, "PlatformDataConstrs", base, *RANGES[base]))
    return made.path


def write_limits(file: File, package: str, name: str, lower: int, upper: int) -> str:
    made = file.make(package, "DATA-CONSTR", name)
    rule = add(add(made.element, "DATA-CONSTR-RULES"), "DATA-CONSTR-RULE")
    held = add(rule, "INTERNAL-CONSTRS")
    add(held, "LOWER-LIMIT", lower, **{"INTERVAL-TYPE": "CLOSED"})
    add(held, "UPPER-LIMIT", upper, **{"INTERVAL-TYPE": "CLOSED"})
    return made.path


def write_type(written: Written, held: dict, platform: str) -> list[tuple[str, str, str]]:
    """The application type; gives the maps of it and of its elements."""
    file, name = written.file, held["shortName"]
    limits = write_limits(file, "DataConstrs", name, held["lower"], held["upper"])
    if held["words"] == 1:
        written.types[name] = write_primitive(file, "ApplicationDataTypes", held, limits)
        return [(PRIMITIVE, written.types[name], platform)]
    element = write_primitive(file, "ApplicationArrayElements", held, limits)
    made = file.make("ApplicationDataTypes", ARRAY, name)
    written.types[name] = made.path
    add(made.element, "CATEGORY", "ARRAY")
    inner = made.put(made.element, "ELEMENT", "Element")
    add(inner.element, "CATEGORY", "VALUE")
    refer(inner.element, "TYPE-TREF", PRIMITIVE, element)
    add(inner.element, "ARRAY-SIZE-SEMANTICS", "FIXED-SIZE")
    add(inner.element, "MAX-NUMBER-OF-ELEMENTS", held["words"])
    return [(PRIMITIVE, element, platform), (ARRAY, made.path, write_array(file, held, platform))]


def write_primitive(file: File, package: str, held: dict, limits: str) -> str:
    made = file.make(package, PRIMITIVE, held["shortName"])
    add(made.element, "CATEGORY", "BOOLEAN" if held["baseType"] == "boolean" else "VALUE")
    refer(properties(made.element), "DATA-CONSTR-REF", "DATA-CONSTR", limits)
    return made.path


def write_array(file: File, held: dict, platform: str) -> str:
    """The implementation type of an array."""
    made = file.make("ImplementationArrays", "IMPLEMENTATION-DATA-TYPE", held["shortName"])
    add(made.element, "CATEGORY", "ARRAY")
    inner = made.put(add(made.element, "SUB-ELEMENTS"), "IMPLEMENTATION-DATA-TYPE-ELEMENT", "Element")
    add(inner.element, "CATEGORY", "TYPE_REFERENCE")
    add(inner.element, "ARRAY-SIZE", held["words"])
    add(inner.element, "ARRAY-SIZE-SEMANTICS", "FIXED-SIZE")
    refer(properties(inner.element), "IMPLEMENTATION-DATA-TYPE-REF", "IMPLEMENTATION-DATA-TYPE", platform)
    return made.path


def write_value(holder: Element, kind: dict, words: list[int]) -> None:
    """An INIT-VALUE of an application type; its physical values are its numbers."""
    held = add(holder, "INIT-VALUE")
    if kind["words"] > 1:
        held = add(add(held, "ARRAY-VALUE-SPECIFICATION"), "ELEMENTS")
    for word in words:
        value = add(held, "APPLICATION-VALUE-SPECIFICATION")
        add(value, "CATEGORY", "BOOLEAN" if kind["baseType"] == "boolean" else "VALUE")
        add(add(add(value, "SW-VALUE-CONT"), "SW-VALUES-PHYS"), "V", word)


# ---- mode groups and interfaces


def write_groups(written: Written) -> None:
    """A mode's VALUE is its number; that between two modes is the number of modes."""
    for held in written.value.get("modeGroups", []):
        made = written.file.make("ModeDeclarationGroups", "MODE-DECLARATION-GROUP", held["shortName"])
        written.groups[held["shortName"]] = made.path
        add(made.element, "CATEGORY", "EXPLICIT_ORDER")
        initial = refer(made.element, "INITIAL-MODE-REF", "MODE-DECLARATION", "")
        listed = add(made.element, "MODE-DECLARATIONS")
        for number, mode in enumerate(held["modes"]):
            place = made.make(listed, "MODE-DECLARATION", mode)
            add(place.element, "VALUE", number)
            written.modes[held["shortName"], mode] = place.path
        initial.text = written.modes[held["shortName"], held["initialMode"]]
        add(made.element, "ON-TRANSITION-VALUE", len(held["modes"]))


def write_interfaces(written: Written, invalidated: set[tuple[str, str]]) -> None:
    """`invalidated` are the elements, by interface, that a runnable may invalidate."""
    tags = {"SenderReceiverInterface": "SENDER-RECEIVER", "ClientServerInterface": "CLIENT-SERVER", "ModeSwitchInterface": "MODE-SWITCH"}
    for held in written.value.get("interfaces", []):
        made = written.file.make("PortInterfaces", f"{tags[held['kind']]}-INTERFACE", held["shortName"])
        written.interfaces[held["shortName"]] = made.path
        add(made.element, "IS-SERVICE", "false")
        if held.get("dataElements"):
            write_elements(written, made, held, invalidated)
        if held.get("operations"):
            write_operations(written, made, held)
        if "modeGroup" in held:
            mode = held["modeGroup"]
            place = made.make(made.element, "MODE-GROUP", mode["shortName"])
            refer(place.element, "TYPE-TREF", "MODE-DECLARATION-GROUP", written.groups[mode["type"]])
            written.items[held["shortName"], mode["shortName"]] = place.path


def write_elements(written: Written, made: Place, held: dict, invalidated: set[tuple[str, str]]) -> None:
    listed = add(made.element, "DATA-ELEMENTS")
    policies: list[str] = []
    for element in held["dataElements"]:
        place = made.make(listed, "VARIABLE-DATA-PROTOTYPE", element["shortName"])
        add(properties(place.element), "SW-IMPL-POLICY", element["swImplPolicy"].upper())
        written.refer_type(place.element, element["type"])
        written.items[held["shortName"], element["shortName"]] = place.path
        policies += [place.path] if (held["shortName"], element["shortName"]) in invalidated else []
    for path in policies:
        policy = add(list_in(made.element, "INVALIDATION-POLICYS"), "INVALIDATION-POLICY")
        refer(policy, "DATA-ELEMENT-REF", "VARIABLE-DATA-PROTOTYPE", path)
        add(policy, "HANDLE-INVALID", "KEEP")


def write_operations(written: Written, made: Place, held: dict) -> None:
    """The operations, and their errors, which belong to the interface."""
    listed, errors = add(made.element, "OPERATIONS"), {}
    for operation in held["operations"]:
        place = made.make(listed, "CLIENT-SERVER-OPERATION", operation["shortName"])
        written.items[held["shortName"], operation["shortName"]] = place.path
        for argument in operation.get("arguments", []):
            inner = place.make(list_in(place.element, "ARGUMENTS"), "ARGUMENT-DATA-PROTOTYPE", argument["shortName"])
            written.refer_type(inner.element, argument["type"])
            add(inner.element, "DIRECTION", argument["direction"].upper())
    for operation, element in zip(held["operations"], listed):
        for error in operation.get("errors", []):
            key = (error["shortName"], error["code"])
            if key not in errors:
                place = made.make(list_in(made.element, "POSSIBLE-ERRORS"), "APPLICATION-ERROR", error["shortName"])
                written.note_name(f"the error of {held['shortName']}", error["shortName"], place)
                add(place.element, "ERROR-CODE", error["code"])
                errors[key] = place.path
            refer(list_in(element, "POSSIBLE-ERROR-REFS"), "POSSIBLE-ERROR-REF", "APPLICATION-ERROR", errors[key])
