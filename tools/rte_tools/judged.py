"""A description that is judged by the rules from 4 on. A rule is a function that gives the places at which it is broken, in order."""

from __future__ import annotations

from dataclasses import dataclass
from functools import cached_property
from typing import Any, Callable, Iterator

from rte_tools.description import Component, Description, described
from rte_tools.joins import Joins


@dataclass
class Judged:
    """A description of the right shape."""

    value: dict[str, Any]

    @cached_property
    def description(self) -> Description:
        return described(self.value)

    @cached_property
    def joins(self) -> Joins:
        return Joins(self.description)

    @cached_property
    def data_types(self) -> dict[str, dict]:
        return {held["shortName"]: held for held in self.value.get("dataTypes", [])}

    @cached_property
    def directions(self) -> dict[tuple[str, str], list[str]]:
        """The directions of the arguments of each operation of an interface."""
        return {
            (interface["shortName"], operation["shortName"]): [held["direction"] for held in operation.get("arguments", [])]
            for interface in self.value.get("interfaces", [])
            for operation in interface.get("operations", [])
        }

    def objects(self, key: str, within: dict | None = None, place: str = "") -> Iterator[tuple[str, Any]]:
        for number, held in enumerate((self.value if within is None else within).get(key, [])):
            yield f"{place}/{key}/{number}", held

    def runnables(self) -> Iterator[tuple[str, dict, Component]]:
        for place, behavior, component in self.behaviors():
            for below, runnable in self.objects("runnables", behavior, place):
                yield below, runnable, component

    def behaviors(self) -> Iterator[tuple[str, dict, Component]]:
        for place, held in self.objects("components"):
            yield f"{place}/behavior", held["behavior"], self.description.components[held["shortName"]]


Rule = Callable[[Judged], Iterator[str]]


def unless(holds: Any, place: str) -> Iterator[str]:
    if not holds:
        yield place
