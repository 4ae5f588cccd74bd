"""ECU configurations: the tasks of the module Os with their cores, and the mapped events of the module Rte."""

from __future__ import annotations

from dataclasses import dataclass, field

from rte_tools.arxml_report import LeftOut, Work, kind_of
from rte_tools.arxml_tree import Part
from rte_tools.arxml_values import whole

MODULES = ("Os", "Rte", "EcuC")
MOST_CORES = 8


@dataclass(frozen=True, eq=False)
class Task:
    name: str
    core: int
    part: Part


@dataclass(frozen=True, eq=False)
class Mapped:
    """A RteEventToTaskMapping. The prototypes lead from the root to the instance, or are the last one alone."""

    part: Part
    prototypes: tuple[str, ...]
    event: str
    task: str
    position: int | None


@dataclass
class Configuration:
    """What ECU configurations say of the mapping; tasks are by path."""

    tasks: dict[str, Task] = field(default_factory=dict)
    mapped: list[Mapped] = field(default_factory=list)
    cores: int = 1


def read_configuration(work: Work) -> Configuration:
    return Reader(work).read()


@dataclass
class Reader:
    work: Work
    cores: dict[str, int] = field(default_factory=dict)  # of tasks, by path
    said: int = 0  # OsNumberOfCores

    def read(self) -> Configuration:
        made, containers = Configuration(), self.containers()
        for part in containers:
            if kind_of(part) == "OsApplication":
                self.application(part)
            elif kind_of(part) == "OsOS":
                self.said = self.number(part, "OsNumberOfCores") or 0
        numbers = self.renumbered()
        for part in containers:
            if kind_of(part) == "OsTask" and part.path not in made.tasks:
                self.passed(part, "PARAMETER-VALUES", "REFERENCE-VALUES")
                name = self.work.names.declare("tasks", part.name, part.path)
                made.tasks[part.path] = Task(name, numbers.get(self.cores.get(part.path, 0), 0), part)
            elif kind_of(part) == "RteSwComponentInstance":
                made.mapped += self.instance(part)
        used = [task.core + 1 for task in made.tasks.values()]
        made.cores = min(MOST_CORES, max([1, self.said, *used]))
        return made

    def containers(self) -> list[Part]:
        """The containers of the modules that are read. They are not taken by that, but their modules are."""
        found = []
        for module in self.work.tree.all("ECUC-MODULE-CONFIGURATION-VALUES"):
            if kind_of(module) in MODULES:
                self.passed(module, "IMPLEMENTATION-CONFIG-VARIANT", "MODULE-DESCRIPTION-REF", "ECUC-DEF-EDITION")
                listed = module.child("CONTAINERS")
                found += [listed.below(each) for each in listed.element] if listed else []
        return found

    def passed(self, part: Part, *more: str) -> None:
        """Takes a part and what each has that says only what it is."""
        part.take()
        for tag in ("DEFINITION-REF", *more):
            part.child(tag)

    # ---- parameters and references by the last name of their definition

    def number(self, part: Part, name: str) -> int | None:
        self.passed(part)
        held = part.child("PARAMETER-VALUES")
        for element in held.element if held else []:
            each = held.below(element)
            if kind_of(each) == name:
                self.passed(each)
                try:
                    return whole(each.text("VALUE"))
                except LeftOut as why:
                    self.work.report.left_out(each, str(why))
        return None

    def references(self, part: Part, name: str) -> list[Part]:
        self.passed(part)
        held = part.child("REFERENCE-VALUES")
        found = [held.below(element) for element in held.element] if held else []
        found = [each for each in found if kind_of(each) == name]
        for each in found:
            self.passed(each)
        return found

    def reference(self, part: Part, name: str) -> str:
        return next((each.text("VALUE-REF") for each in self.references(part, name)), "")

    # ---- cores

    def application(self, part: Part) -> None:
        """All tasks of an OS application are on its core."""
        core = self.number(part, "OsApplicationCoreAssignment")
        defined = self.work.tree.at(self.reference(part, "OsApplicationCoreRef"))
        if defined:
            self.take_around(defined)
            core = self.number(defined, "EcucCoreId")
        for task in self.references(part, "OsAppTaskRef"):
            path = task.text("VALUE-REF")
            if core is not None:
                self.cores[path] = core

    def take_around(self, part: Part) -> None:
        """Takes the containers around a core's definition, so that they are not listed."""
        path = part.path
        while path.count("/") > 1:
            path = path.rpartition("/")[0]
            around = self.work.tree.at(path)
            if around:
                self.passed(around)
                around.child("SUB-CONTAINERS")

    def renumbered(self) -> dict[int, int]:
        """The number here of each core: its own, unless one is beyond the eighth."""
        numbers = sorted(set(self.cores.values()))
        if not numbers or 0 <= numbers[0] and numbers[-1] < MOST_CORES:
            return {number: number for number in range(MOST_CORES)}
        made = {number: place % MOST_CORES for place, number in enumerate(numbers)}
        shown = ", ".join(f"{number} is {place}" for number, place in made.items())
        self.work.report.added("cores", f"their numbers are 0 to {MOST_CORES - 1} here: {shown}")
        return made

    # ---- mapped events

    def instance(self, part: Part) -> list[Mapped]:
        chain: tuple[str, ...] = ()
        for each in self.references(part, "RteSoftwareComponentInstanceRef"):
            iref = each.child("VALUE-IREF")
            if iref:
                steps = [held for held in iref.element if held.tag in ("CONTEXT-ELEMENT-REF", "TARGET-REF")]
                chain = tuple((iref.below(held).take().element.text or "").strip() for held in steps)
            else:
                chain = (each.text("VALUE-REF"),)
        found = []
        for held in part.children("SUB-CONTAINERS", "ECUC-CONTAINER-VALUE"):
            if kind_of(held) != "RteEventToTaskMapping":
                self.work.report.left_out(held, "it maps no event")
                continue
            event, task = self.reference(held, "RteEventRef"), self.reference(held, "RteMappedToTaskRef")
            position = self.number(held, "RtePositionInTask")
            if task and chain:
                found.append(Mapped(held, chain, event, task, position))
            else:
                self.work.report.left_out(held, f"it names no {'task' if chain else 'component instance'}")
        return found
