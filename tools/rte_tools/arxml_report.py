"""What an import left out, changed or added, each with its ARXML path, and what its parts have in common."""

from __future__ import annotations

from dataclasses import dataclass, field

from rte_tools.arxml_names import Names
from rte_tools.arxml_tree import Part, Tree

NOT_HERE = "there is none here"
# Why a part that nothing took was not taken, by its tag.
REASONS = {
    "PR-PORT-PROTOTYPE": "a port provides or requires here, not both",
    "PARAMETER-INTERFACE": NOT_HERE,
    "NV-DATA-INTERFACE": NOT_HERE,
    "TRIGGER-INTERFACE": NOT_HERE,
    "PASS-THROUGH-SW-CONNECTOR": NOT_HERE,
    "MINIMUM-START-INTERVAL": "no time passes within a run line",
    "INIT-VALUE": "the initial value of a receiver's com spec counts",
    "OFFSET": "a TimingEvent is first pending after its period",
    "TIMEOUT": "nothing has a timeout",
    "ALIVE-TIMEOUT": "nothing has a timeout",
    "FILTER": "each value that is written counts",
    "HANDLE-OUT-OF-RANGE": "each value is clamped to its limits",
    "WAIT-POINT": "a runnable does not wait but in a call",
    "ECUC-MODULE-CONFIGURATION-VALUES": "of an ECU configuration the modules Os, Rte and EcuC are read",
    "ECUC-CONTAINER-VALUE": "it says nothing of tasks, cores or mapped events of components",
    "BACKGROUND-EVENT": NOT_HERE,
    "OsTaskPriority": "tasks have no priority",
    "OsTaskActivation": "a pending start is a flag",
    "OsTaskSchedule": "nothing is preempted",
    "OsTaskTYPE": "a task runs one activation after the other",
    "RteActivationOffset": "a TimingEvent is first pending after its period",
    "RteUsedOsAlarmRef": "there are no alarms",
    "RteUsedOsEventRef": "there are no events of the operating system",
    "RteBswModuleInstance": "basic software is left out",
}
OTHERWISE = "not used"


class LeftOut(Exception):
    """A part cannot be described here; the message says why."""


@dataclass
class Report:
    """The notes, in the order in which they were made. `kind` is `left out`, `changed` or `added`."""

    notes: list[tuple[str, str, str]] = field(default_factory=list)  # kind, path with tag, why

    def left_out(self, part: Part, why: str) -> None:
        part.skip()
        self.notes.append(("left out", spelled(part), why))

    def changed(self, part: Part, what: str) -> None:
        self.notes.append(("changed", spelled(part), what))

    def added(self, place: str, what: str) -> None:
        self.notes.append(("added", place, what))

    def list_left(self, tree: Tree) -> None:
        """Adds what nothing took of the files."""
        for part in tree.left():
            inside = part.count()
            many = f"; so are {inside} named parts below it" if inside else ""
            why = REASONS.get(kind_of(part)) or REASONS.get(part.tag, OTHERWISE)
            self.notes.append(("left out", spelled(part), why + many))

    def number(self, kind: str) -> int:
        return sum(note[0] == kind for note in self.notes)

    def text(self) -> str:
        """The notes as lines of fields with tabs between them."""
        return "\n".join(["what\tpath in ARXML\twhy", *("\t".join(note) for note in self.notes)]) + "\n"


@dataclass
class Work:
    """What the parts of an import share."""

    tree: Tree
    names: Names
    report: Report = field(default_factory=Report)

    @classmethod
    def on(cls, tree: Tree) -> Work:
        return cls(tree, Names.of(tree.short_names()))


def spelled(part: Part) -> str:
    """The path and the tag; of an ECU configuration what defines the part, which is its kind there."""
    return f"{part.path or '/'} {kind_of(part)}"


def kind_of(part: Part) -> str:
    defined = part.element.findtext("DEFINITION-REF", "").strip()
    return defined.rpartition("/")[2] or part.tag
