"""ARXML that is written: elements with short names and the paths by which others refer to them."""

from __future__ import annotations

from dataclasses import dataclass, field
from xml.etree import ElementTree
from xml.etree.ElementTree import Element, SubElement

from rte_tools.arxml_tree import SCHEMA

INSTANCE = "http://www.w3.org/2001/XMLSchema-instance"
RELEASE = "AUTOSAR_4-2-2.xsd"


def add(parent: Element, tag: str, text: object = "", **attributes: str) -> Element:
    """A new element at the end of its parent."""
    made = SubElement(parent, tag, attributes)
    if text != "":
        made.text = str(text)
    return made


def refer(parent: Element, tag: str, kind: str, path: str) -> Element:
    return add(parent, tag, path, DEST=kind)


@dataclass(eq=False)
class Place:
    """An element with a short name. What is made in it has a path below its own, and a name that is distinct there."""

    element: Element
    path: str
    used: set[str] = field(default_factory=set)

    def name(self, wanted: str) -> str:
        """The name, or one with a number behind it that nothing else here has."""
        made, number = wanted, 2
        while made in self.used:
            made, number = f"{wanted}_{number}", number + 1
        self.used.add(made)
        return made

    def make(self, holder: Element, tag: str, wanted: str) -> Place:
        """A named element at the end of a list of this one."""
        return self.put(holder, tag, self.name(wanted))

    def put(self, holder: Element, tag: str, name: str) -> Place:
        """The same with a name that was asked for before."""
        made = Place(add(holder, tag), f"{self.path}/{name}")
        add(made.element, "SHORT-NAME", name)
        return made


class File:
    """One ARXML file; its packages are made when they are asked for."""

    def __init__(self) -> None:
        self.root = Element("AUTOSAR", {"xmlns": SCHEMA, "xmlns:xsi": INSTANCE, "xsi:schemaLocation": f"{SCHEMA} {RELEASE}"})
        self.top = Place(self.root, "")
        self.packages: dict[str, tuple[Place, Element]] = {}
        self.listed = add(self.root, "AR-PACKAGES")

    def make(self, package: str, tag: str, wanted: str) -> Place:
        """A named element in a package."""
        if package not in self.packages:
            place = self.top.put(self.listed, "AR-PACKAGE", package)
            self.packages[package] = (place, add(place.element, "ELEMENTS"))
        place, elements = self.packages[package]
        return place.make(elements, tag, wanted)

    def text(self) -> str:
        ElementTree.indent(self.root)
        body = ElementTree.tostring(self.root, encoding="unicode")
        return f'<?xml version="1.0" encoding="UTF-8"?>\n{body}\n'


def list_in(holder: Element, tag: str) -> Element:
    """The list with this tag, at the end of its holder if it is new."""
    held = holder.find(tag)
    return add(holder, tag) if held is None else held
