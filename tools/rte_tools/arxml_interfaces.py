"""Interfaces and mode groups of ARXML, and what a description needs to know of their items."""

from __future__ import annotations

from dataclasses import dataclass, field

from rte_tools.arxml_report import LeftOut, Work
from rte_tools.arxml_tree import Part
from rte_tools.arxml_types import PROPERTIES, Types
from rte_tools.arxml_values import whole

MOST_ARGUMENTS, MOST_MODES, LAST_ERROR = 16, 32, 63
RESERVED = "error"  # the variable of a server's program that gives its code
KINDS = {
    "SENDER-RECEIVER-INTERFACE": "SenderReceiverInterface",
    "CLIENT-SERVER-INTERFACE": "ClientServerInterface",
    "MODE-SWITCH-INTERFACE": "ModeSwitchInterface",
}


@dataclass
class Interfaces:
    """The interfaces and mode groups that ports name, by their path."""

    work: Work
    types: Types
    made: dict[str, dict] = field(default_factory=dict)
    groups: dict[str, dict] = field(default_factory=dict)
    group_named: dict[str, dict] = field(default_factory=dict)  # by the name in the description
    refused: dict[str, str] = field(default_factory=dict)
    items: dict[str, dict] = field(default_factory=dict)  # by path: data elements, operations and mode elements
    invalidated: set[str] = field(default_factory=set)  # the paths of elements that may be invalidated

    def of(self, port: Part, tag: str) -> dict:
        """The interface of a port. Raises LeftOut."""
        path = port.text(tag)
        if path not in self.made and path not in self.refused:
            part = self.work.tree.at(path)
            try:
                self.made[path] = self.make(part, path)
            except LeftOut as why:
                self.refused[path] = str(why)
                if part:
                    self.work.report.left_out(part, str(why))
        if path in self.refused:
            raise LeftOut(f"its interface {path or '(none)'} is left out: {self.refused[path]}")
        return self.made[path]

    def make(self, part: Part | None, path: str) -> dict:
        if not part:
            raise LeftOut("it is not in the files")
        if part.tag not in KINDS:
            raise LeftOut(f"there is no {part.tag} here")
        part.take().child("IS-SERVICE")
        part.child("SERVICE-KIND")
        made: dict = {"kind": KINDS[part.tag], "shortName": self.work.names.declare("interfaces", part.name, path)}
        if part.tag == "SENDER-RECEIVER-INTERFACE":
            made["dataElements"] = self.gathered(part, "DATA-ELEMENTS", self.element)
            self.read_policies(part)
        elif part.tag == "CLIENT-SERVER-INTERFACE":
            errors = self.errors(part)
            made["operations"] = self.gathered(part, "OPERATIONS", lambda held: self.operation(held, errors))
        else:
            made["modeGroup"] = self.mode_element(part)
        return made

    def gathered(self, part: Part, wrapper: str, read) -> list[dict]:
        """What is read of the parts of a list; what cannot be read is left out."""
        made = []
        for held in part.children(wrapper):
            try:
                item = read(held)
            except LeftOut as why:
                self.work.report.left_out(held, str(why))
                continue
            self.items[held.path] = item
            made.append(item)
        return made

    # ---- data elements

    def element(self, part: Part) -> dict:
        policy = part.text(*PROPERTIES, "SW-IMPL-POLICY").lower() or "standard"
        if policy not in ("standard", "queued"):
            raise LeftOut(f"the SW-IMPL-POLICY {policy} is neither standard nor queued")
        kind = self.types.of(part)
        name = self.work.names.item(part.name, part.path)
        return {"shortName": name, "type": kind["shortName"], "swImplPolicy": policy}

    def read_policies(self, part: Part) -> None:
        for policy in part.children("INVALIDATION-POLICYS", "INVALIDATION-POLICY"):
            path, handled = policy.text("DATA-ELEMENT-REF"), policy.text("HANDLE-INVALID").upper()
            if handled == "REPLACE":
                self.work.report.changed(policy, f"{path} is replaced when invalid; here it keeps its last value")
            if handled in ("KEEP", "REPLACE"):
                self.invalidated.add(path)

    # ---- operations

    def errors(self, part: Part) -> dict[str, dict]:
        """The errors of an interface by their path."""
        made = {}
        for held in part.children("POSSIBLE-ERRORS", "APPLICATION-ERROR"):
            try:
                code = whole(held.text("ERROR-CODE"))
            except LeftOut as why:
                self.work.report.left_out(held, str(why))
                continue
            if 1 <= code <= LAST_ERROR:
                made[held.path] = {"shortName": self.work.names.item(held.name, held.path), "code": code}
            elif code:
                self.work.report.left_out(held, f"the code {code} is not from 1 to {LAST_ERROR}")
        return made

    def operation(self, part: Part, errors: dict[str, dict]) -> dict:
        name = self.work.names.item(part.name, part.path)
        made: dict = {"shortName": name, "arguments": self.gathered(part, "ARGUMENTS", self.argument)}
        for spare in made["arguments"][MOST_ARGUMENTS:]:
            self.work.report.changed(part, f"the argument {spare['shortName']} is left out, since at most {MOST_ARGUMENTS} may be")
        del made["arguments"][MOST_ARGUMENTS:]
        codes: set[int] = set()
        made["errors"] = []
        for reference in part.children("POSSIBLE-ERROR-REFS", "POSSIBLE-ERROR-REF"):
            error = errors.get((reference.element.text or "").strip())
            if error and error["code"] not in codes:
                codes.add(error["code"])
                made["errors"].append(error)
            elif error:
                self.work.report.changed(part, f"the error {error['shortName']} is left out, since another has its code {error['code']}")
        return {key: value for key, value in made.items() if value}

    def argument(self, part: Part) -> dict:
        direction, kind = part.text("DIRECTION").lower(), self.types.of(part)
        part.child("SERVER-ARGUMENT-IMPL-POLICY")
        if direction not in ("in", "out"):
            raise LeftOut(f"the direction of an argument is IN or OUT, and not {direction.upper() or 'missing'}")
        if kind["words"] > 1:
            raise LeftOut("an argument has one word")
        holder = part.path.rpartition("/")[0]
        name = self.work.names.declare(f"arguments of {holder}", part.name, part.path, (RESERVED,))
        return {"shortName": name, "type": kind["shortName"], "direction": direction}

    # ---- modes

    def mode_element(self, part: Part) -> dict:
        held = part.child("MODE-GROUP")
        group = held.target("TYPE-TREF") if held else None
        if not held or not group:
            raise LeftOut("its mode declaration group is not in the files")
        if group.path not in self.groups:
            self.groups[group.path] = self.group(group)
        made = {"shortName": self.work.names.item(held.name, held.path), "type": self.groups[group.path]["shortName"]}
        self.items[held.path] = made
        return made

    def group(self, part: Part) -> dict:
        """A mode's number is its position: by VALUE if the order is explicit, else in the order of the alphabet."""
        modes = part.children("MODE-DECLARATIONS", "MODE-DECLARATION")
        if not 1 <= len(modes) <= MOST_MODES:
            raise LeftOut(f"a mode declaration group has 1 to {MOST_MODES} modes, and it has {len(modes)}")
        values = [mode.text("VALUE") for mode in modes]
        part.child("ON-TRANSITION-VALUE")
        if part.text("CATEGORY") == "EXPLICIT_ORDER" and all(values):
            numbers = [whole(value) for value in values]
            modes = [mode for _, mode in sorted(zip(numbers, modes), key=lambda pair: pair[0])]
            if sorted(numbers) != list(range(len(modes))):
                self.work.report.changed(part, "its modes are numbered from 0 in the order of their values")
        else:
            modes.sort(key=lambda mode: mode.name)
        names = [self.work.names.item(mode.name, mode.path) for mode in modes]
        initial = self.work.names.given.get(part.text("INITIAL-MODE-REF"))
        if initial not in names:
            self.work.report.changed(part, f"it names no initial mode of its own, so {names[0]} is taken")
            initial = names[0]
        name = self.work.names.declare("modeGroups", part.name, part.path)
        self.group_named[name] = {"shortName": name, "modes": names, "initialMode": initial}
        return self.group_named[name]
