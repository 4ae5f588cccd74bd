"""What can be said of a refused description beside its rule: which name was meant, which key is missing, and the like.

Each hint is a function of a case that gives sentences. It may give a mend that fits better than that of the page, and
another place that is shown.
"""

from __future__ import annotations

from dataclasses import dataclass, field
from typing import Any, Iterator

from rte_tools import hints_events, hints_joins, hints_lists, hints_mapping, hints_programs, hints_types
from rte_tools.description import described
from rte_tools.hint_case import Case, Hint, Mend, Spot
from rte_tools.located import Node
from rte_tools.shape import Shape
from rte_tools.shape_hints import shape_hints
from rte_tools.source import Source

CHANGED = "This is not the description that was refused: it was changed since, or another one was."
# What a hint may raise where the description is not the one that was refused.
NOT_THIS_ONE = (LookupError, TypeError, ValueError, AttributeError, RecursionError)

# Rule 1 is told by the reader of JSON, and rules 2 and 3 by the schema.
HINTS: dict[int, Hint] = {
    4: hints_types.doubled,
    5: hints_types.undeclared,
    6: hints_types.limits,
    7: hints_types.operation,
    8: hints_types.initial_value,
    9: hints_joins.contains_itself,
    10: hints_joins.too_large,
    11: hints_joins.wrong_ends,
    12: hints_joins.incompatible,
    13: hints_joins.caller_of_outside,
    14: hints_joins.providers,
    15: hints_joins.members,
    16: hints_programs.wrong_side,
    17: hints_programs.unfit_statement,
    18: hints_programs.too_costly,
    19: hints_programs.wrong_order,
    20: hints_programs.call_inside,
    21: hints_events.wrong_port,
    22: hints_events.not_served_once,
    23: hints_events.called_in_two_ways,
    24: hints_events.not_disabled,
    25: hints_mapping.not_there,
    26: hints_mapping.mapped_wrongly,
    27: hints_mapping.mapped_wrongly,
    28: hints_mapping.not_in_its_caller,
    29: hints_mapping.circle,
    30: hints_mapping.too_many,
    31: hints_lists.not_coherent,
}


@dataclass
class Said:
    """The node to show, the sentences, and the mend that fits, or none where that of the page does."""

    node: Node
    sentences: list[str] = field(default_factory=list)
    mend: str = ""


def hints(rule: int, source: Source, root: Node, place: str, shape: Shape) -> Said:
    """What the place names, and what can be said of it."""
    value = root.plain()
    faults = list(shape.faults(value))
    if faults or rule in (2, 3):
        node = root.find(place)
        sentences = list(shape_hints(shape, value, faults, place)) if node else []
        return Said(node or root, sentences or [CHANGED])
    case = Case(source, root, place, described(value))
    try:
        return gathered(case, HINTS[rule](case) if rule in HINTS else iter(()))
    except NOT_THIS_ONE:
        return Said(root, [CHANGED])


def gathered(case: Case, given: Iterator[Any]) -> Said:
    """Parts what a hint gives."""
    said = Said(case.node)
    for sentence in given:
        if isinstance(sentence, Mend):
            said.mend = str(sentence)
        elif isinstance(sentence, Spot):
            said.node = case.root.at(sentence)
        else:
            said.sentences.append(sentence)
    return said
