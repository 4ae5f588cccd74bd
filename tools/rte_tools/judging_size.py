"""Rules 30 and 31: how large the plan is, and coherent lists. Each function gives the places at which its rule is broken."""

from __future__ import annotations

from collections import Counter
from typing import Iterator

from rte_tools.bus_plan import BusPlan, plan_of
from rte_tools.description import Component
from rte_tools.judged import Judged, unless

MOST_THINGS, MOST_QUEUED, MOST_POINTS = 16_384, 65_536, 262_144
FEWEST_LISTED, MOST_LISTED, MOST_WORDS = 2, 16, 16  # elements of a coherent list, and their words together
Pair = tuple[str, str]  # a port and an element of it


def plan_not_too_large(judged: Judged) -> Iterator[str]:
    plan = plan_of(judged.value)
    is_small = max(things(plan), len(plan.events)) <= MOST_THINGS
    yield from unless(is_small and queued(plan) <= MOST_QUEUED and len(plan.points) <= MOST_POINTS, "/mapping")


def things(plan: BusPlan) -> int:
    """Groups, servers, areas, machines and the clock. A group counts by itself, whatever lists connect."""
    return len(plan.in_group) + len(plan.servers) + len(plan.areas) + len(plan.machines) + 1


def queued(plan: BusPlan) -> int:
    """The places of all queues: of required queued elements, of mapped servers and of machines."""
    receivers = sum(held.length for held in plan.elements.values() if held.kind == "queued" and not held.provided)
    servers = sum(held.queue or 0 for held in plan.servers.values())
    return receivers + servers + sum(held.queue for held in plan.machines.values())


def fitting_lists(judged: Judged) -> Iterator[str]:
    for place, runnable, component in judged.runnables():
        lists = [[(port, element) for port, element in pairs] for pairs in runnable.get("coherent", [])]
        counts = Counter(pair for pairs in lists for pair in pairs)
        for number, pairs in enumerate(lists):
            alone = all(counts[pair] == 1 for pair in pairs)
            yield from unless(alone and is_coherent(judged, component, runnable, pairs), f"{place}/coherent/{number}")


def is_coherent(judged: Judged, component: Component, runnable: dict, pairs: list[Pair]) -> bool:
    """Whether a list has fitting accesses, not too many, and not too many words."""
    if not FEWEST_LISTED <= len(pairs) <= MOST_LISTED:
        return False
    accesses = {tuple(access) for access in runnable.get("accesses", [])}
    is_of_one_kind = any(all((kind, *pair) in accesses for pair in pairs) for kind in ("iread", "iwrite"))
    return is_of_one_kind and sum(words_of(judged, component, pair) for pair in pairs) <= MOST_WORDS


def words_of(judged: Judged, component: Component, pair: Pair) -> int:
    items = judged.description.items(component.ports[pair[0]])
    return judged.description.types[items[pair[1]].type].words
