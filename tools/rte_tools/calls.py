"""The calls of the RTE that the code of a component may use, as its accesses allow them.

It is what `rte header` lists; here it is computed a second time, with what each call works on.
"""

from __future__ import annotations

from dataclasses import dataclass, field
from typing import Iterator

from rte_tools.description import Component, Description, Runnable

AT_ITEM = {  # named by a port and an item of its interface
    "write": "Rte_Write",
    "read": "Rte_Read",
    "invalidate": "Rte_Invalidate",
    "isUpdated": "Rte_IsUpdated",
    "send": "Rte_Send",
    "receive": "Rte_Receive",
    "call": "Rte_Call",
    "acall": "Rte_Call",
    "result": "Rte_Result",
    "switch": "Rte_Switch",
    "mode": "Rte_Mode",
}
IMPLICIT = {"iread": "Rte_IRead", "iwrite": "Rte_IWrite"}  # named by the runnable too
OF_VARIABLE = {  # named by the runnable and the variable
    "irvRead": "Rte_IrvRead",
    "irvWrite": "Rte_IrvWrite",
    "irvIRead": "Rte_IrvIRead",
    "irvIWrite": "Rte_IrvIWrite",
}


@dataclass(frozen=True)
class Call:
    """A call: its word and the names in it, which make it what it is, and the access that allows it."""

    word: str
    parts: tuple[str, ...]
    access: tuple[str, ...] = field(compare=False)

    @property
    def name(self) -> str:
        return "_".join((self.word, *self.parts))


def calls_of(description: Description, component: Component) -> list[Call]:
    """The calls that a component may use, each once, in the order of its runnables and their accesses."""
    return list(dict.fromkeys(all_calls(description, component)))


def all_calls(description: Description, component: Component) -> Iterator[Call]:
    for runnable in component.runnables.values():
        for access in runnable.accesses:
            yield from allowed_by(description, component, runnable, access)


def allowed_by(
    description: Description, component: Component, runnable: Runnable, access: tuple[str, ...]
) -> Iterator[Call]:
    keyword, *names = access
    if keyword == "enter":
        yield Call("Rte_Enter", tuple(names), access)
        yield Call("Rte_Exit", tuple(names), access)
    elif keyword in OF_VARIABLE:
        yield Call(OF_VARIABLE[keyword], (runnable.name, *names), access)
    else:
        if keyword in ("switch", "mode"):
            names += description.items(component.ports[names[0]])
        if keyword in IMPLICIT:
            yield Call(IMPLICIT[keyword], (runnable.name, *names), access)
        else:
            yield Call(AT_ITEM[keyword], tuple(names), access)


def clash_of(calls: list[Call]) -> str | None:
    """The first name that two different calls have, in the order of the later one; or none."""
    seen: set[str] = set()
    for call in calls:
        if call.name in seen:
            return call.name
        seen.add(call.name)
    return None


def listing(name: str, calls: list[Call]) -> list[str]:
    """The lines that `rte header` prints."""
    return [f"/* Rte_{name}.h */", *(call.name for call in calls)]
