"""Hints to rules 4 to 8: names, what they refer to, types and initial values."""

from __future__ import annotations

from typing import Any, Iterator

from rte_tools.description import BASES
from rte_tools.hint_case import Case, Mend, counted, limits_text
from rte_tools.names import candidates, nearest

MOST_ARGUMENTS = 16


def doubled(case: Case) -> Iterator[str]:
    """Rule 4: where the first one is."""
    for pointer in places_of_list(case):
        if pointer != case.place and key_of(case, pointer) == key_of(case, case.place):
            yield f"The first one is at {case.line(pointer)}."
            break
    if case.place.endswith("/position"):
        yield Mend("give each event of a task a position of its own.")
    elif case.place.endswith("/element") or "/accesses/" in case.place:
        yield Mend("drop one of them.")
    else:
        yield Mend("rename the second one, with all that refer to it.")


def places_of_list(case: Case) -> Iterator[str]:
    """The places of the list in which the place is, up to it; components and compositions are one list."""
    way = case.place.split("/")
    last = max(at for at, part in enumerate(way) if part.isdigit())
    own = "/".join(way[:last])
    for held in ["/components", own] if own == "/compositions" else [own]:
        found = case.root.find(held)
        for number in range(len(found.value) if found else 0):
            pointer = "/".join([held, str(number), *way[last + 1 :]])
            if case.root.find(pointer):
                yield pointer
            if pointer == case.place:
                return


def key_of(case: Case, pointer: str) -> Any:
    """What must be distinct: a name, an access, or a position with its task."""
    value = case.root.at(pointer).plain()
    if pointer.endswith("/position"):
        return case.root.at(pointer.removesuffix("position") + "task").plain(), value
    return value


def undeclared(case: Case) -> Iterator[str]:
    """Rule 5: what may stand there."""
    if case.place.endswith("/core"):
        yield f"`cores` is {case.description.cores}, so a core is at most {case.description.cores - 1}."
        yield Mend("take another core, or more `cores`, which are at most 8.")
        return
    found = candidates(case.description, case.place, case.value)
    if found:
        kind, names = found
        name = str(case.node.plain())
        yield f"There is no {kind} `{name}`{nearest(name, names)}."
        yield Mend("correct the name, or declare what it names.")


def limits(case: Case) -> Iterator[str]:
    """Rule 6: which limit is wrong."""
    held = case.node.plain()
    low, high = BASES[held["baseType"]]
    for key in ("lower", "upper"):
        if not low <= held[key] <= high:
            yield f"`{key}` is {held[key]}, and `{held['baseType']}` goes from {low} to {high}."
    if held["lower"] > held["upper"]:
        yield f"`lower` is {held['lower']}, more than `upper`, which is {held['upper']}."
        yield Mend("exchange the limits, or take others.")


def operation(case: Case) -> Iterator[str]:
    """Rule 7: which argument or error does not fit."""
    held = case.node.plain()
    arguments, errors = held.get("arguments", []), held.get("errors", [])
    if len(arguments) > MOST_ARGUMENTS:
        yield f"It has {len(arguments)} arguments, and at most {MOST_ARGUMENTS} may be there."
        yield Mend("make two operations of it, or pass data by ports.")
    for argument in arguments:
        data_type = case.description.types.get(argument["type"])
        if data_type and data_type.words != 1:
            yield f"The argument `{argument['shortName']}` has the type `{data_type.name}` of {data_type.words} words."
            yield Mend("give an argument of a type of one word for each word.")
        if argument["shortName"] == "error":
            yield "An argument has the name `error`, which is that of the variable that a server returns as its code."
            yield Mend("rename the argument.")
    first: dict[int, str] = {}
    for error in errors:
        if error["code"] in first:
            yield f"The errors `{first[error['code']]}` and `{error['shortName']}` both have the code {error['code']}."
            yield Mend("give each error a code of its own, from 1 to 63.")
        first.setdefault(error["code"], error["shortName"])


def initial_value(case: Case) -> Iterator[str]:
    """Rule 8: the type, and which word is outside of it."""
    data_type = case.description.types.get(type_at(case))
    if not data_type:
        return
    words = case.node.plain()
    yield f"Its type is `{data_type.name}`: {limits_text(data_type)}."
    if len(words) != data_type.words:
        yield f"`initValue` has {counted(len(words), 'word')}."
    outside = [word for word in words if not data_type.lower <= word <= data_type.upper]
    if outside:
        yield f"{outside[0]} is {'less' if outside[0] < data_type.lower else 'more'} than that."


def type_at(case: Case) -> str:
    """The data type to which an `initValue` belongs."""
    holder = case.root.at(case.place.removesuffix("/initValue")).plain()
    if "type" in holder:
        return holder["type"]
    port = case.root.at("/" + "/".join(case.way[:4])).plain()
    interface = case.description.interfaces.get(port["interface"])
    item = interface.items.get(holder["element"]) if interface else None
    return item.type if item else ""
