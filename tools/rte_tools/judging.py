"""The least rule that a description breaks.

A place is as in a refusal, and the places of a rule are looked at in the order of docs/FORMAT.md.
"""

from __future__ import annotations

from typing import Any, Iterable

from rte_tools import judging_behavior as behavior
from rte_tools import judging_size as size
from rte_tools import judging_structure as structure
from rte_tools.judged import Judged, Rule
from rte_tools.refusal import Refusal
from rte_tools.shape import Fault

RULES: dict[int, Rule] = {
    4: structure.distinct_names,
    5: structure.declared_names,
    6: structure.limits_in_range,
    7: structure.fitting_operations,
    8: structure.initial_values,
    9: structure.no_circles,
    10: structure.not_too_large,
    11: structure.connected_sides,
    12: structure.compatible_ports,
    13: structure.no_calls_outwards,
    14: structure.one_provider,
    15: structure.no_many_to_many,
    16: behavior.fitting_accesses,
    17: behavior.fitting_statements,
    18: behavior.not_too_costly,
    19: behavior.areas_in_order,
    20: behavior.no_calls_in_areas,
    21: behavior.fitting_events,
    22: behavior.served_once,
    23: behavior.asynchronous_alone,
    24: behavior.fitting_disabling,
    25: behavior.mapped_events_are_there,
    26: behavior.mapped_once,
    27: behavior.in_one_task,
    28: behavior.direct_servers,
    29: behavior.no_waiting_in_circles,
    30: size.plan_not_too_large,
    31: size.fitting_lists,
}


def judge(value: dict[str, Any]) -> Refusal | None:
    """The refusal by the least rule that does not hold, or none. The value has its shape (rules 2 and 3)."""
    held = Judged(value)
    for number, rule in RULES.items():
        place = next(rule(held), None)
        if place is not None:
            return Refusal("rule", number, place)
    return None


def first_of_shape(faults: Iterable[Fault]) -> Refusal | None:
    """The refusal by rule 2, or by rule 3 where names alone have not their form."""
    found = list(faults)
    shapes = [fault for fault in found if " is not a name; " not in fault.message]
    if not found:
        return None
    places = [place_of(fault) for fault in shapes or found]
    around = [place for place in places if places[0].startswith(f"{place}/")]  # an object comes before what it holds
    return Refusal("rule", 2 if shapes else 3, min([*around, places[0]], key=len) or "/")


def place_of(fault: Fault) -> str:
    """The place of a fault. An unknown keyword is a fault of its statement, access or expression."""
    above, _, part = fault.place.rpartition("/")
    return above if part == "0" and " is none of " in fault.message else fault.place
