"""What is wrong with a refused line of a script."""

from __future__ import annotations

import re
from typing import Iterator

from rte_tools.description import Description, Item, Port
from rte_tools.hint_case import counted, quoted
from rte_tools.names import nearest
from rte_tools.reference import read_format, section
from rte_tools.script_forms import Remark, form_remarks, forms

NEED = re.compile(r"^\| `([a-z]+) P\.[EO][^|]*\| (an? [^|]+?) \|", re.MULTILINE)
# By whether the port provides and by the kind of the item: with which words a line may name it.
VERBS = {
    (False, "data"): ("write",),
    (False, "queued"): ("send",),
    (True, "data"): ("read",),
    (True, "queued"): ("receive",),
    (True, "operation"): ("ask", "result"),
    (False, "mode"): ("switch",),
    (True, "mode"): ("mode",),
}


def remark(cause: int, line: str, path: str, text: str, description: Description | None) -> Remark:
    """What is to be said of a line that is refused with a cause. `text` is that of docs/FORMAT.md."""
    whole = Remark(0, len(line), "")
    names = outer_items(description) if description else {}
    if cause == 1:
        return next(form_remarks(line, path, forms(text), names), whole)
    if not description or not re.match(r"[a-z]+ [^ ]+", line):
        return whole
    word, target, *rest = line.split(" ")
    start = len(word) + 1
    if cause == 2:
        return wrong_name(description, names, Remark(start, start + len(target), ""), line)
    if cause == 3 and target in names and rest:
        return wrong_value(description, names[target], Remark(start + len(target) + 1, len(line), ""), line)
    return whole


def outer_items(description: Description) -> dict[str, tuple[Port, Item]]:
    """What stands at the outer ports of the root, by `PORT.ITEM`."""
    root = description.compositions.get(description.root)
    ports = root.ports.values() if root else []
    return {f"{port.name}.{name}": (port, item) for port in ports for name, item in description.items(port).items()}


def verbs(port: Port, item: Item) -> tuple[str, ...]:
    """The words with which a script line may name an item."""
    return VERBS.get((port.provides, "queued" if item.queued else item.kind), ())


# ---- cause 2


def wrong_name(description: Description, names: dict[str, tuple[Port, Item]], place: Remark, line: str) -> Remark:
    """Which names the script may use, or what the line needs."""
    verb, target, *rest = line.split(" ")
    if target not in names:
        text = f"There is no `{target}`{nearest(target, names)}. {may(names)}"
        return Remark(place.start, place.end, text)
    port, item = names[target]
    if verb == "switch" and verb in verbs(port, item) and rest:
        group = description.mode_groups.get(item.type)
        modes = group.modes if group else ()
        text = f"`{target}` has no mode `{rest[0]}`{nearest(rest[0], modes)}. Its modes are {quoted(modes)}."
        return Remark(place.end + 1, len(line), text)
    need = needs(read_format()).get(verb)
    fits = " or ".join(f"`{word}`" for word in verbs(port, item))
    side = "a P-port" if port.provides else "an R-port"
    text = f"`{target}` is {named(item)} of {side}" + (f", which is for {fits}." if fits else ".")
    return Remark(place.start, place.end, text + (f" `{verb}` needs {need}." if need else ""))


def named(item: Item) -> str:
    kinds = {"data": "an unqueued element", "operation": "an operation", "mode": "a mode element"}
    return "a queued element" if item.queued else kinds[item.kind]


def needs(text: str) -> dict[str, str]:
    """What the lines that name a thing of an outer port need, by their words, by docs/FORMAT.md."""
    return dict(NEED.findall(section(text, "The script")))


def may(names: dict[str, tuple[Port, Item]]) -> str:
    """What the script may do: `write` of these, `read` of those."""
    by_verb: dict[str, list[str]] = {}
    for name, (port, item) in names.items():
        for verb in verbs(port, item)[:1]:
            by_verb.setdefault(verb, []).append(name)
    said = "; ".join(f"{verb} {quoted(found)}" for verb, found in by_verb.items())
    return f"The script may {said}." if said else "The root has no outer port, so the script may name nothing."


# ---- cause 3


def wrong_value(description: Description, named_thing: tuple[Port, Item], place: Remark, line: str) -> Remark:
    """How many words a value has to have, or which word is outside of its limits."""
    _, target, value = line.split(" ")[:3]
    port, item = named_thing
    limits = list(limits_of(description, item))
    words = [] if value == "-" else value.split(",")
    what = "`in` argument" if item.kind == "operation" else "word"
    text = f"`{target}` has {counted(len(limits), what)}: {'; '.join(spans(limits)) or 'its value is `-`'}."
    if len(words) != len(limits):
        return Remark(place.start, place.end, f"{text} The line gives {len(words)}.")
    at = place.start
    for word, (_, low, high) in zip(words, limits):
        if not low <= int(word) <= high:
            return Remark(at, at + len(word), f"{text} {word} is {'less' if int(word) < low else 'more'} than that.")
        at += len(word) + 1
    return Remark(place.start, place.end, text)


def limits_of(description: Description, item: Item) -> Iterator[tuple[str, int, int]]:
    """The name of the argument, or of the type, and the limits of each word."""
    arguments = item.names("in") if item.kind == "operation" else [""]
    for argument in arguments:
        held = description.types.get(item.arguments[argument] if argument else item.type)
        for _ in range(held.words if held else 0):
            yield argument or held.name, held.lower, held.upper


def spans(limits: list[tuple[str, int, int]]) -> list[str]:
    """`T` from 0 to 9; of a type its words are told once."""
    return [f"`{name}` from {low} to {high}" for name, low, high in dict.fromkeys(limits)]
