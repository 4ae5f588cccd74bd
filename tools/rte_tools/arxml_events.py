"""Events of ARXML: what each kind names, and in which modes it is disabled."""

from __future__ import annotations

from dataclasses import dataclass
from fractions import Fraction

from rte_tools.arxml_ports import Ports
from rte_tools.arxml_report import LeftOut, Work
from rte_tools.arxml_runnables import Runnables
from rte_tools.arxml_tree import Part
from rte_tools.arxml_values import number

LONGEST = 1_000_000  # milliseconds
ACTIVATIONS = {"ON-ENTRY": "onEntry", "ON-EXIT": "onExit", "ON-TRANSITION": "onTransition"}
# Which events of a description may be disabled.
DISABLED = ("TimingEvent", "InitEvent", "DataReceivedEvent", "AsynchronousServerCallReturnsEvent")


@dataclass
class Events:
    """Reads the events of one component, whose runnables are given by path."""

    work: Work
    ports: Ports
    runnables: Runnables
    names: dict[str, str]  # of the runnables
    scope: str  # the list in which the names of the events are distinct

    def read(self, holder: Part) -> list[dict]:
        ways = {
            "TIMING-EVENT": ("TimingEvent", self.timing),
            "INIT-EVENT": ("InitEvent", lambda part: {}),
            "DATA-RECEIVED-EVENT": ("DataReceivedEvent", self.data_received),
            "OPERATION-INVOKED-EVENT": ("OperationInvokedEvent", self.operation_invoked),
            "ASYNCHRONOUS-SERVER-CALL-RETURNS-EVENT": ("AsynchronousServerCallReturnsEvent", self.returns),
            "SWC-MODE-SWITCH-EVENT": ("SwcModeSwitchEvent", self.mode_switch),
            "MODE-SWITCHED-ACK-EVENT": ("ModeSwitchedAckEvent", self.acknowledged),
        }
        made = []
        for part in holder.children("EVENTS", *ways):
            kind, read = ways[part.tag]
            try:
                runnable = self.runnable(part)
                keys = read(part)
                disabled = self.disabled(part, kind)
            except LeftOut as why:
                self.work.report.left_out(part, str(why))
                continue
            name = self.work.names.declare(self.scope, part.name, part.path)
            made.append({"kind": kind, "shortName": name, "runnable": runnable, **keys, **disabled})
        return made

    def runnable(self, part: Part) -> str:
        path = part.text("START-ON-EVENT-REF")
        if path not in self.names:
            raise LeftOut(f"its runnable {path or '(none)'} is not there")
        return self.names[path]

    # ---- the keys of each kind

    def timing(self, part: Part) -> dict:
        """Milliseconds, where ARXML has seconds."""
        part.pass_over("OFFSET")
        said = number(part.text("PERIOD") or "0") * 1000
        period = max(1, min(round(said), LONGEST))
        if Fraction(period) != said:
            self.work.report.changed(part, f"its PERIOD of {part.text('PERIOD') or '(none)'} s becomes {period} ms")
        return {"period": period}

    def data_received(self, part: Part) -> dict:
        held = part.child("DATA-IREF")
        if not held:
            raise LeftOut("it names no data element")
        port = self.ports.at(held, "CONTEXT-R-PORT-REF")
        item = self.ports.item(held, port, "dataElements", "TARGET-DATA-ELEMENT-REF")
        return {"port": port.name, "element": item["shortName"]}

    def operation_invoked(self, part: Part) -> dict:
        held = part.child("OPERATION-IREF")
        if not held:
            raise LeftOut("it names no operation")
        port = self.ports.at(held, "CONTEXT-P-PORT-REF")
        item = self.ports.item(held, port, "operations", "TARGET-PROVIDED-OPERATION-REF")
        return {"port": port.name, "operation": item["shortName"]}

    def returns(self, part: Part) -> dict:
        operation = self.runnables.result_of(part)
        if operation not in self.runnables.asked:
            raise LeftOut(f"no call of {operation[0]}.{operation[1]} that does not wait was taken")
        return {"port": operation[0], "operation": operation[1]}

    def mode_switch(self, part: Part) -> dict:
        activation = ACTIVATIONS.get(part.text("ACTIVATION"))
        held = [self.mode(iref) for iref in part.children("MODE-IREFS", "MODE-IREF")]
        if not activation or len(held) != (2 if activation == "onTransition" else 1) or held[0][0] != held[-1][0]:
            raise LeftOut("it names no mode on entry or exit, and no two of one port on a transition")
        return {"port": held[0][0], "activation": activation, "modes": [mode for _, mode in held]}

    def acknowledged(self, part: Part) -> dict:
        point = part.target("EVENT-SOURCE-REF")
        if not point or point.tag != "MODE-SWITCH-POINT":
            raise LeftOut("its mode switch point is not in the files")
        return {"port": self.runnables.switched(point).name}

    # ---- modes

    def mode(self, part: Part) -> tuple[str, str]:
        """The R-port and the mode that a reference into a mode group names."""
        port = self.ports.at(part, "CONTEXT-PORT-REF")
        element = self.ports.item(part, port, "modeGroup", "CONTEXT-MODE-DECLARATION-GROUP-PROTOTYPE-REF")
        modes = self.ports.interfaces.group_named[element["type"]]["modes"]
        mode = self.work.names.given.get(part.text("TARGET-MODE-DECLARATION-REF"))
        if port.provides or mode not in modes:
            raise LeftOut(f"it names no mode of an R-port that was taken: {part.text('TARGET-MODE-DECLARATION-REF')}")
        return port.name, mode

    def disabled(self, part: Part, kind: str) -> dict:
        """The modes of one port in which the event is disabled; those of other ports are left out."""
        port, modes = "", []
        for held in part.children("DISABLED-MODE-IREFS", "DISABLED-MODE-IREF"):
            try:
                if kind not in DISABLED:
                    raise LeftOut(f"no mode disables a {kind}")
                named, mode = self.mode(held)
                if port not in ("", named):
                    raise LeftOut(f"modes of one port disable an event, and {port} does")
            except LeftOut as why:
                self.work.report.left_out(held, str(why))
                continue
            port = named
            modes += [mode] if mode not in modes else []
        return {"disabledInModes": {"port": port, "modes": modes}} if port else {}
