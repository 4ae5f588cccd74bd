"""Hints to rules 16 to 20: accesses, statements, the cost of programs, and areas."""

from __future__ import annotations

import json
from typing import Any, Iterator, Sequence

from rte_tools.description import Item, Named, Port
from rte_tools.hint_case import Case, Mend, counted, limits_text, quoted
from rte_tools.names import nearest
from rte_tools.programs import PARTS, needed_access, use_of

ITEM_KINDS = {"data": "unqueued element", "operation": "operation", "mode": "mode element"}
GIVING = {"write", "invalidate", "iwrite", "send", "switch"}  # accesses of P-ports
TAKING = {"read", "isUpdated", "iread", "receive", "call", "acall", "result", "mode"}  # accesses of R-ports
MOST_COST, MOST_VARIABLES = 100_000, 256
# By whether the port provides and by the kind of the item: the accesses that fit.
FITTING = {
    (True, "unqueued element"): ("write", "invalidate", "iwrite"),
    (False, "unqueued element"): ("read", "isUpdated", "iread"),
    (True, "queued element"): ("send",),
    (False, "queued element"): ("receive",),
    (False, "operation"): ("call", "acall", "result"),
    (True, "mode element"): ("switch",),
    (False, "mode element"): ("mode",),
}


def wrong_side(case: Case) -> Iterator[str]:
    """Rule 16: which port it is."""
    access = case.node.plain()
    port = case.component().ports.get(access[1])
    items = case.description.items(port) if port else {}
    item = items.get(access[2]) if len(access) > 2 else next(iter(items.values()), None)
    if not port:
        return
    side = "a P-port, which provides" if port.provides else "an R-port, which requires"
    yield f"`{port.name}` is {side}" + (f" the {kind_of(item)} `{item.name}`." if item else ".")
    fitting = FITTING.get((port.provides, kind_of(item)), ()) if item else ()
    if fitting:
        yield Mend(f"use {' or '.join(f'`{name}`' for name in fitting)} there, name another port, or turn the port's `kind`.")
    elif item:
        yield Mend("serve the operation by an OperationInvokedEvent, or name an R-port.")


def kind_of(item: Item) -> str:
    return "queued element" if item.queued else ITEM_KINDS[item.kind]


def unfit_statement(case: Case) -> Iterator[str]:
    """Rule 17: which access is missing, or what does not fit the one that is there."""
    statement = case.node.plain()
    access = needed_access(statement)
    held = case.root.at(case.runnable()).plain()
    if access and list(access) not in held.get("accesses", []):
        yield from missing_access(case, access, held)
    elif statement[0] == "switch":
        yield from unknown_mode(case, case.component().ports.get(statement[1]), [statement[2]])
    elif statement[0] in ("call", "acall", "result"):
        yield from wrong_arguments(case, statement)
    else:
        yield from wrong_words(case, statement)


def missing_access(case: Case, access: Sequence[str], held: dict) -> Iterator[str]:
    where = case.line(case.runnable() + ("/accesses" if "accesses" in held else ""))
    spelled = json.dumps(access, separators=(",", ":"))
    yield f"The `accesses` of `{held['shortName']}` ({where}) lack {spelled}."
    port = case.component().ports.get(access[1])
    if port and access[0] in GIVING | TAKING and port.provides != (access[0] in GIVING):
        has, needs = ("a P-port", "an R-port") if port.provides else ("an R-port", "a P-port")
        yield f"But `{port.name}` is {has}, and `{access[0]}` needs {needs}, so declaring it is no mend."
        yield Mend("name another port, or write another statement.")
    else:
        yield Mend("declare the access, or write a statement whose access is declared.")


def unknown_mode(case: Case, port: Port | None, modes: list[str]) -> Iterator[str]:
    """Which modes the group of a port has. Its sentences name one that it has not."""
    item = next(iter(case.description.items(port).values()), None) if port else None
    group = case.description.mode_groups.get(item.type) if item and item.kind == "mode" else None
    unknown = [mode for mode in modes if group and mode not in group.modes]
    if unknown:
        yield f"The mode group `{group.name}` has no mode `{unknown[0]}`{nearest(unknown[0], group.modes)}."
        yield Mend(f"name a mode of the group: {quoted(group.modes)}, or add one to its `modes`.")


def wrong_arguments(case: Case, statement: list) -> Iterator[str]:
    """How many arguments an operation has, and how many values a statement gives and takes."""
    port = case.component().ports.get(statement[1])
    operation = case.description.items(port).get(statement[2]) if port else None
    if not operation:
        return
    yield "Its access is declared."
    parts = dict(zip(PARTS[statement[0]], statement[1:]))
    for key, way, what, verb in (("values", "in", "expression", "gives"), ("takes", "out", "variable", "takes")):
        wanted = operation.names(way)
        if key in parts and len(parts[key]) != len(wanted):
            names = f" ({quoted(wanted)})" if wanted else ""
            yield f"`{operation.name}` has {counted(len(wanted), f'`{way}` argument')}{names}."
            yield f"The statement {verb} {len(parts[key])}."
            yield Mend(f"give one {what} for each `{way}` argument.")


def wrong_words(case: Case, statement: list) -> Iterator[str]:
    """How many words an element or inter-runnable variable has."""
    data_type = case.data_type(touched(case, statement))
    given = next((part for part in statement[2:] if isinstance(part, list)), None)
    if data_type and given is not None:
        has = counted(data_type.words, "word")
        yield f"Its access is declared. The statement has {len(given)} in place of {has}, as its type `{data_type.name}`."
        yield f"The type: {limits_text(data_type)}."
        yield Mend("give one expression or variable for each word.")


def touched(case: Case, statement: list) -> Item | Named | None:
    """The element or inter-runnable variable that a statement gives or takes."""
    component = case.component()
    if statement[0].startswith("irv"):
        return component.variables.get(statement[1])
    port = component.ports.get(statement[1])
    return case.description.items(port).get(statement[2]) if port and isinstance(statement[2], str) else None


# ---- rule 18


def operators(expression: Any) -> int:
    """How many operators an expression has."""
    return 1 + operators(expression[1]) + operators(expression[2]) if isinstance(expression, list) else 0


def cost(statement: list) -> int:
    """What a statement costs, by the section on cost of docs/FORMAT.md."""
    keyword = statement[0]
    if keyword == "repeat":
        return 1 + statement[1] * sum(map(cost, statement[2]))
    total = 2 if keyword == "area" else 1
    for part, kind in zip(statement[1:], PARTS[keyword]):
        if kind == "body":
            total += sum(map(cost, part))
        elif kind == "value":
            total += operators(part)
        elif kind == "values":
            total += sum(map(operators, part))
    return total


def too_costly(case: Case) -> Iterator[str]:
    """Rule 18: what the program costs, and which statement costs most; or how many variables it has."""
    program = case.node.plain()
    costs = [cost(statement) for statement in program]
    if sum(costs) > MOST_COST:
        most = costs.index(max(costs))
        yield f"It costs {sum(costs):,}, and at most {MOST_COST:,} are allowed."
        yield f"The statement at {case.line(f'{case.place}/{most}')} costs {costs[most]:,} of it."
        yield Mend("repeat less in one activation, or spread the work over several.")
        return
    use = use_of(program, "")
    names = {*use.reads, *use.sets, *of_server(case)}
    yield f"It has {len(names)} variables, with those of the operation that it serves; {MOST_VARIABLES} may be there."
    yield Mend("use variables again.")


def of_server(case: Case) -> set[str]:
    """The variables that the program has since its runnable serves operations."""
    component, name = case.component(), case.root.at(case.runnable()).plain()["shortName"]
    names: set[str] = set()
    for event in component.events.values():
        if event.kind == "OperationInvokedEvent" and event.runnable == name:
            port = component.ports.get(event.keys["port"])
            operation = case.description.items(port).get(event.keys["operation"]) if port else None
            names |= {"error", *(operation.arguments if operation else ())}
    return names


# ---- rules 19 and 20


def areas_around(case: Case) -> list[tuple[str, str]]:
    """The areas in which the statement stands, the inner one last: their places and names."""
    return [(at, held[1]) for at, held in case.around() if held[0] == "area" and at != case.place]


def wrong_order(case: Case) -> Iterator[str]:
    """Rule 19: which area is around, and in which order they are declared."""
    inner, around = case.node.plain()[1], areas_around(case)
    if not around:
        return
    at, outer = next(((at, name) for at, name in around if name == inner), around[-1])
    if outer == inner:
        yield f"The area `{inner}` is entered already, at {case.line(at)}."
        yield Mend("take the inner `area` out and keep its statements.")
        return
    yield f"`{inner}` is entered within `{outer}` ({case.line(at)}), and declared before it."
    yield f"The `exclusiveAreas` of `{case.component().name}` are {quoted(case.component().areas)}."


def call_inside(case: Case) -> Iterator[str]:
    """Rule 20: the area in which the call stands."""
    for at, name in areas_around(case)[-1:]:
        yield f"It stands in the area `{name}`, which is entered at {case.line(at)}."
