"""A refused description of the right shape, as the hints look at it, and what a hint may give beside sentences."""

from __future__ import annotations

from dataclasses import dataclass
from functools import cached_property
from typing import Any, Callable, Iterable, Iterator

from rte_tools.description import Component, DataType, Description, Item, Named
from rte_tools.joins import Joins
from rte_tools.located import Node
from rte_tools.refusal import pointer_of
from rte_tools.source import Source


class Mend(str):
    """The mend of this case, in place of that of the page, which is for all cases of the rule."""


class Spot(str):
    """The pointer of what is shown, in place of what the refusal names."""


@dataclass
class Case:
    """A refused description: its text, its value with places, and the refusal's place."""

    source: Source
    root: Node
    place: str
    description: Description

    @cached_property
    def value(self) -> Any:
        return self.root.plain()

    @cached_property
    def joins(self) -> Joins:
        return Joins(self.description)

    @cached_property
    def node(self) -> Node:
        """What the place names."""
        named = self.place if self.place.startswith("/") else pointer_of(self.description, self.place)
        return self.root.find(named) or self.root

    @property
    def way(self) -> list[str]:
        """The parts of a place that is a pointer."""
        return self.place.split("/")[1:]

    def line(self, pointer: str) -> str:
        """The line and column of another place."""
        line, column = self.source.position(self.root.at(pointer).start)
        return f"line {line}, column {column}"

    def component(self) -> Component:
        """The component in which the place is."""
        return self.description.components[self.value["components"][int(self.way[1])]["shortName"]]

    def runnable(self) -> str:
        """The pointer of the runnable in which the place is."""
        return "/" + "/".join(self.way[:5])

    def around(self) -> Iterator[tuple[str, list]]:
        """The statements around the one that the place names, from the outer ones to it, with their places."""
        parts = self.way
        for last in range(7, len(parts) + 1, 2):
            pointer = "/" + "/".join(parts[:last])
            yield pointer, self.root.at(pointer).plain()

    def data_type(self, held: Item | Named | None) -> DataType | None:
        """The data type of an element or an inter-runnable variable."""
        name = held.type if isinstance(held, Item) else held.of if held else ""
        return self.description.types.get(name)


Hint = Callable[[Case], Iterator[str]]


def quoted(names: Iterable[Any]) -> str:
    """Names in a sentence: `a`, `b`; or `none`."""
    return ", ".join(f"`{name}`" for name in names) or "none"


def counted(number: int, one: str) -> str:
    """`one word`, `2 words`."""
    return f"one {one}" if number == 1 else f"{number:,} {one}s"


def limits_text(held: DataType) -> str:
    """`2 words, each from 0 to 9`."""
    return f"{counted(held.words, 'word')}, each from {held.lower} to {held.upper}"
