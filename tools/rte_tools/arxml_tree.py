"""ARXML files as one tree of parts. What is taken of a part is marked, so that the rest can be listed as left out."""

from __future__ import annotations

from dataclasses import dataclass, field
from typing import Iterator
from xml.etree import ElementTree
from xml.etree.ElementTree import Element

SCHEMA = "http://autosar.org/schema/r4.0"  # the name space of all releases 4.x and of those named by years
PREFIX = "{" + SCHEMA + "}"
STRUCTURE = {"AUTOSAR", "AR-PACKAGES", "AR-PACKAGE", "ELEMENTS"}
# Texts for people, and names for the C code that a generator makes: nothing here could become of them.
QUIET = {
    *("SHORT-NAME", "SHORT-NAME-FRAGMENTS", "LONG-NAME", "DESC", "CATEGORY", "INTRODUCTION", "ADMIN-DATA", "ANNOTATIONS"),
    *("FILE-INFO-COMMENT", "SYMBOL", "TYPE-EMITTER", "NATIVE-DECLARATION", "DISPLAY-FORMAT", "UNIT-REF", "IDENT"),
}


class NotArxml(Exception):
    """A file is not ARXML of release 4; the message says why."""


@dataclass
class Tree:
    """The elements of all files, without their name space, and where each named one stands."""

    roots: list[Element] = field(default_factory=list)
    paths: dict[Element, str] = field(default_factory=dict)  # of the elements that have a short name
    named: dict[str, Element] = field(default_factory=dict)
    taken: set[Element] = field(default_factory=set)
    skipped: set[Element] = field(default_factory=set)  # said to be left out, with all below

    def read(self, file: str) -> None:
        """Adds a file. Raises NotArxml and OSError."""
        try:
            root = ElementTree.parse(file).getroot()
        except ElementTree.ParseError as error:
            raise NotArxml(f"{file} is not XML: {error}") from error
        except (LookupError, ValueError) as error:
            raise NotArxml(f"{file} has an encoding that is not known: {error}") from error
        if root.tag != f"{PREFIX}AUTOSAR":
            raise NotArxml(f"{file} is not ARXML of the name space {SCHEMA}; its first element is {root.tag}")
        self.add(root)

    def add(self, root: Element) -> None:
        self.roots.append(root)
        waiting = [(root, "")]
        while waiting:
            element, path = waiting.pop()
            element.tag = element.tag.removeprefix(PREFIX)
            name = element.find(f"{PREFIX}SHORT-NAME")
            if name is not None and name.text:
                path = f"{path}/{name.text.strip()}"
                self.paths[element] = path
                self.named.setdefault(path, element)
            waiting += [(below, path) for below in reversed(element)]

    def at(self, path: str) -> Part | None:
        """What stands at an ARXML path."""
        element = self.named.get(path)
        return Part(self, element, path) if element is not None else None

    def all(self, *tags: str) -> list[Part]:
        """All named elements with one of the tags, in their order. They are not taken by that."""
        return [Part(self, element, path) for element, path in self.paths.items() if element.tag in tags]

    def short_names(self) -> Iterator[str]:
        for path in self.paths.values():
            yield path.rpartition("/")[2]

    def left(self) -> Iterator[Part]:
        """What nothing took: the topmost parts, in their order."""
        waiting = [(root, "") for root in reversed(self.roots)]
        while waiting:
            element, path = waiting.pop()
            path = self.paths.get(element, path)
            if element in self.skipped or element.tag in QUIET:
                continue
            if element in self.taken or element.tag in STRUCTURE:
                waiting += [(below, path) for below in reversed(element)]
            elif element not in self.paths and any(below in self.paths for below in element):
                waiting += [(below, path) for below in reversed(element)]
            else:
                yield Part(self, element, path)


@dataclass(frozen=True, eq=False)
class Part:
    """An element, and the ARXML path of the nearest that has a name: its own, if it has one."""

    tree: Tree
    element: Element
    path: str

    @property
    def tag(self) -> str:
        return self.element.tag

    @property
    def name(self) -> str:
        return self.path.rpartition("/")[2]

    def take(self) -> Part:
        self.tree.taken.add(self.element)
        return self

    def skip(self) -> None:
        """Nothing of it is listed, since what is left out of it is said."""
        self.tree.skipped.add(self.element)

    def below(self, element: Element) -> Part:
        return Part(self.tree, element, self.tree.paths.get(element, self.path))

    def child(self, *way: str) -> Part | None:
        """The first part down this way, which is taken."""
        part: Part = self
        for tag in way:
            element = part.element.find(tag)
            if element is None:
                return None
            part = part.below(element).take()
        return part

    def children(self, wrapper: str, *tags: str) -> list[Part]:
        """The parts with these tags (with any, if none is given) in a list down this way, `A/B`, which are taken."""
        held = self.child(*wrapper.split("/"))
        if held is None:
            return []
        return [held.below(each).take() for each in held.element if not tags or each.tag in tags]

    def text(self, *way: str) -> str:
        """The text down this way, or nothing."""
        part = self.child(*way)
        return (part.element.text or "").strip() if part else ""

    def target(self, *way: str) -> Part | None:
        """What the reference down this way names, which is taken, if the files have it."""
        part = self.tree.at(self.text(*way))
        return part.take() if part else None

    def is_true(self, *way: str) -> bool:
        return self.text(*way).lower() in ("true", "1")

    def pass_over(self, *tags: str) -> None:
        """Takes the parts that say that there is nothing: no time, no handling."""
        for tag in tags:
            if self.element.findtext(tag, "").strip() in ("0", "0.0", "NONE", "false"):
                self.child(tag)

    def count(self) -> int:
        """How many named parts stand in it."""
        return sum(below in self.tree.paths for below in self.element.iter()) - (self.element in self.tree.paths)
