"""Which elements of two nodes are linked, and why others are not (docs/FORMAT.md, 'Links')."""

from __future__ import annotations

from typing import Iterator

from rte_tools.description import Description, Item, Port
from rte_tools.hint_case import quoted
from rte_tools.names import nearest
from rte_tools.scripts import limits_of, named, outer_items

Outer = dict[str, tuple[Port, Item]]  # what stands at outer ports, by `PORT.ELEMENT`


def sent_out(description: Description) -> Outer:
    """The queued elements of the root's P-ports, in declared order."""
    outer = outer_items(description).items()
    return {name: (port, item) for name, (port, item) in outer if port.provides and item.queued}


def is_linked(one: Description, sent: Item, two: Description, other: tuple[Port, Item] | None) -> bool:
    if other is None:
        return False
    port, item = other
    return not port.provides and item.queued and spans_of(one, sent) == spans_of(two, item)


def linked(one: Description, two: Description) -> list[str]:
    """The linked elements, `PORT.ELEMENT`, by the numbers of their links."""
    others = outer_items(two)
    return [name for name, (_, item) in sent_out(one).items() if is_linked(one, item, two, others.get(name))]


def why_unlinked(one: Description, two: Description) -> Iterator[str]:
    """A sentence for each element that node one sends out, where none is linked."""
    others = outer_items(two)
    sent = sent_out(one)
    if not sent:
        yield "The root of the first description has no P-port with a queued element, so it sends nothing out."
    for name, (_, item) in sent.items():
        yield why(one, name, item, two, others)


def why(one: Description, name: str, sent: Item, two: Description, others: Outer) -> str:
    if name not in others:
        takes = [other for other, (port, item) in others.items() if not port.provides and item.queued]
        there = f"It takes in {quoted(takes)}." if takes else "It takes in no queued element."
        return f"`{name}` goes out at the first node, and the root of the second has no `{name}`{nearest(name, takes)}. {there}"
    port, item = others[name]
    if port.provides or not item.queued:
        side = "a P-port" if port.provides else "an R-port"
        return f"`{name}` of the second node is {named(item)} of {side}; a queued element of an R-port is wanted."
    first, second = shown(spans_of(one, sent)), shown(spans_of(two, item))
    return f"`{name}` has {first} at the first node, and {second} at the second."


def spans_of(description: Description, item: Item) -> list[tuple[int, int]]:
    """The limits of each word."""
    return [(low, high) for _, low, high in limits_of(description, item)]


def shown(spans: list[tuple[int, int]]) -> str:
    """As `2 words from 0 to 9`."""
    if not spans:
        return "no known type"
    low, high = spans[0]
    return f"{len(spans)} word{'s' if len(spans) > 1 else ''} from {low} to {high}"
