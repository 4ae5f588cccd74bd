"""Runnables of ARXML: the accesses of each, in the order in which a skeleton makes them."""

from __future__ import annotations

from dataclasses import dataclass, field

from rte_tools.arxml_ports import Port, Ports
from rte_tools.arxml_report import LeftOut, Work
from rte_tools.arxml_tree import Part

DATA, LOCAL = ("ACCESSED-VARIABLE", "AUTOSAR-VARIABLE-IREF"), ("ACCESSED-VARIABLE", "LOCAL-VARIABLE-REF")
# The list of accesses to data elements, whether the port provides, and the access to an unqueued and to a queued one.
TO_DATA = (
    ("DATA-RECEIVE-POINT-BY-ARGUMENTS", False, "read", "receive"),
    ("DATA-RECEIVE-POINT-BY-VALUES", False, "read", ""),
    ("DATA-READ-ACCESSS", False, "iread", ""),
    ("DATA-SEND-POINTS", True, "write", "send"),
    ("DATA-WRITE-ACCESSS", True, "iwrite", ""),
)
TO_VARIABLES = (("READ-LOCAL-VARIABLES", "irvRead", "irvIRead"), ("WRITTEN-LOCAL-VARIABLES", "irvWrite", "irvIWrite"))
# The areas that a runnable enters, and those in which it runs, as the releases name them.
AREAS = (
    ("CAN-ENTER-EXCLUSIVE-AREA-REFS", "CAN-ENTER-EXCLUSIVE-AREA-REF", ""),
    ("RUNS-INSIDE-EXCLUSIVE-AREA-REFS", "RUNS-INSIDE-EXCLUSIVE-AREA-REF", ""),
    ("CAN-ENTERS", "EXCLUSIVE-AREA-REF-CONDITIONAL", "EXCLUSIVE-AREA-REF"),
    ("RUNS-INSIDES", "EXCLUSIVE-AREA-REF-CONDITIONAL", "EXCLUSIVE-AREA-REF"),
)


@dataclass
class Variables:
    """The inter-runnable variables of a component, by path: their names, and which of them are implicit."""

    names: dict[str, str] = field(default_factory=dict)
    implicit: set[str] = field(default_factory=set)


@dataclass
class Runnables:
    """Reads the accesses of one component's runnables."""

    work: Work
    ports: Ports
    variables: Variables
    areas: dict[str, str]  # by path
    asked: dict[tuple[str, str], str] = field(default_factory=dict)  # who asks an operation without waiting: its runnable
    called: set[tuple[str, str]] = field(default_factory=set)

    def accesses(self, part: Part) -> list[list[str]]:
        """The accesses of a runnable, each once. What cannot be taken is left out."""
        found: list[list[str]] = []
        part.pass_over("MINIMUM-START-INTERVAL")
        for wrapper, provides, plain, queued in TO_DATA:
            for access in part.children(wrapper, "VARIABLE-ACCESS"):
                self.add(found, access, lambda: self.to_data(access, wrapper, provides, (plain, queued)))
        for wrapper, explicit, implicit in TO_VARIABLES:
            for access in part.children(wrapper, "VARIABLE-ACCESS"):
                self.add(found, access, lambda: self.to_variable(access, explicit, implicit))
        for wrapper, tag, below in AREAS:
            for held in part.children(wrapper, tag):
                self.add(found, held, lambda: self.to_area(held, below))
        for call in part.children("SERVER-CALL-POINTS"):
            self.add(found, call, lambda: self.to_operation(part, call))
        for result in part.children("ASYNCHRONOUS-SERVER-CALL-RESULT-POINTS"):
            self.add(found, result, lambda: [["result", *self.result_of(result)]])
        for point in part.children("MODE-SWITCH-POINTS", "MODE-SWITCH-POINT"):
            self.add(found, point, lambda: [["switch", self.switched(point).name]])
        for point in part.children("MODE-ACCESS-POINTS", "MODE-ACCESS-POINT"):
            self.add(found, point, lambda: [["mode", self.looked_at(point).name]])
        return found

    def add(self, found: list[list[str]], part: Part, read) -> None:
        try:
            found += [access for access in read() if access not in found]
        except LeftOut as why:
            self.work.report.left_out(part, str(why))

    # ---- data

    def to_data(self, part: Part, wrapper: str, provides: bool, keywords: tuple[str, str]) -> list[list[str]]:
        held = part.child(*DATA)
        if not held:
            raise LeftOut("it names no data element of a port")
        port = self.ports.at(held, "PORT-PROTOTYPE-REF")
        item = self.ports.item(held, port, "dataElements", "TARGET-DATA-PROTOTYPE-REF")
        if port.provides != provides:
            raise LeftOut(f"the port {port.name} is of the other side")
        keyword = keywords[item["swImplPolicy"] == "queued"]
        if not keyword:
            raise LeftOut("a queued element is sent and received alone")
        if wrapper == "DATA-RECEIVE-POINT-BY-VALUES":
            self.work.report.changed(part, "Rte_DRead becomes a read, which has a code as well")
        names = [port.name, item["shortName"]]
        path = held.text("TARGET-DATA-PROTOTYPE-REF")
        more = ["isUpdated"] if keyword == "read" and (port.part.path, path) in self.ports.updates else []
        more += ["invalidate"] if keyword == "write" and path in self.ports.interfaces.invalidated else []
        return [[keyword, *names], *([each, *names] for each in more)]

    def to_variable(self, part: Part, explicit: str, implicit: str) -> list[list[str]]:
        path = part.text(*LOCAL)
        if path not in self.variables.names:
            raise LeftOut(f"{path or 'what it names'} is no inter-runnable variable that was taken")
        return [[implicit if path in self.variables.implicit else explicit, self.variables.names[path]]]

    def to_area(self, part: Part, below: str) -> list[list[str]]:
        path = part.text(below) if below else (part.element.text or "").strip()
        if path not in self.areas:
            raise LeftOut(f"{path} is no exclusive area of the component")
        if "RUNS-INSIDE" in part.tag:
            self.work.report.changed(part, "the runnable enters the area, and does not run in it as a whole")
        return [["enter", self.areas[path]]]

    # ---- operations

    def operation(self, part: Part) -> tuple[str, str]:
        """The port and the operation that a call names."""
        held = part.child("OPERATION-IREF")
        if not held:
            raise LeftOut("it names no operation")
        port = self.ports.at(held, "CONTEXT-R-PORT-REF")
        item = self.ports.item(held, port, "operations", "TARGET-REQUIRED-OPERATION-REF")
        return port.name, item["shortName"]

    def to_operation(self, runnable: Part, part: Part) -> list[list[str]]:
        """A call. An operation that is asked without waiting has one runnable that does so, and no other call."""
        asks = part.tag == "ASYNCHRONOUS-SERVER-CALL-POINT"
        if not asks and part.tag != "SYNCHRONOUS-SERVER-CALL-POINT":
            raise LeftOut(f"there is no {part.tag} here")
        operation = self.operation(part)
        part.pass_over("TIMEOUT")
        name = f"{operation[0]}.{operation[1]}"
        if self.asked.get(operation, runnable.path) != runnable.path or (not asks and operation in self.asked):
            raise LeftOut(f"another call of {name} does not wait, and such a call stands alone in its component")
        if asks and operation in self.called:
            raise LeftOut(f"another call of {name} waits, and a call that does not stands alone in its component")
        if asks:
            self.asked[operation] = runnable.path
        else:
            self.called.add(operation)
        return [["acall" if asks else "call", *operation]]

    def result_of(self, part: Part) -> tuple[str, str]:
        """The operation whose result a result point, or an event, is about."""
        source = part.target("ASYNCHRONOUS-SERVER-CALL-POINT-REF") or part.target("EVENT-SOURCE-REF")
        if source and source.tag == "ASYNCHRONOUS-SERVER-CALL-RESULT-POINT":
            return self.result_of(source)
        if not source or source.tag != "ASYNCHRONOUS-SERVER-CALL-POINT":
            raise LeftOut("the call whose result it is about is not in the files")
        return self.operation(source)

    # ---- modes

    def switched(self, part: Part) -> Port:
        held = part.child("MODE-GROUP-IREF")
        if not held:
            raise LeftOut("it names no mode element")
        port = self.ports.at(held, "CONTEXT-P-PORT-REF")
        self.ports.item(held, port, "modeGroup", "TARGET-MODE-GROUP-REF")
        return port

    def looked_at(self, part: Part) -> Port:
        held = part.child("MODE-GROUP-IREF", "R-MODE-GROUP-IN-ATOMIC-SWC-INSTANCE-REF")
        if not held:
            raise LeftOut("it names no mode element of an R-port")
        port = self.ports.at(held, "CONTEXT-R-PORT-REF")
        self.ports.item(held, port, "modeGroup", "TARGET-MODE-GROUP-REF")
        return port
