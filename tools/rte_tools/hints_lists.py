"""Hints to rule 31: coherent lists."""

from __future__ import annotations

from collections import Counter
from typing import Iterator

from rte_tools.hint_case import Case, Mend, counted, quoted
from rte_tools.judging_size import FEWEST_LISTED, MOST_LISTED, MOST_WORDS, Pair

KINDS = ("iread", "iwrite")


def not_coherent(case: Case) -> Iterator[str]:
    """Rule 31: which pairs do not fit, which stand twice, or how many pairs or words there are."""
    runnable = case.root.at(case.runnable()).plain()
    pairs = [(port, element) for port, element in case.node.plain()]
    if not FEWEST_LISTED <= len(pairs) <= MOST_LISTED:
        yield f"It has {counted(len(pairs), 'element')}; a list has {FEWEST_LISTED} to {MOST_LISTED}."
        yield Mend("leave out a list of one element; split one of too many, or leave elements out.")
        return
    counts = Counter((port, element) for held in runnable["coherent"] for port, element in held)
    twice = [spelled(pair) for pair in dict.fromkeys(pairs) if counts[pair] > 1]
    if twice:
        yield f"In the lists of `{runnable['shortName']}` these stand more than once: {quoted(twice)}."
        yield Mend("keep each element in one list, once.")
        return
    yield from unfit_accesses(case, runnable, pairs)


def unfit_accesses(case: Case, runnable: dict, pairs: list[Pair]) -> Iterator[str]:
    accesses = {tuple(access) for access in runnable.get("accesses", [])}
    kinds = {kind: [pair for pair in pairs if (kind, *pair) in accesses] for kind in KINDS}
    none = [spelled(pair) for pair in pairs if not any(pair in held for held in kinds.values())]
    if none:
        yield f"`{runnable['shortName']}` has no implicit access to {quoted(none)}."
        yield Mend("declare the `iread` or `iwrite` access, or leave the element out of the list.")
    elif all(len(held) < len(pairs) for held in kinds.values()):
        yield f"Of reads there are {quoted(map(spelled, kinds['iread']))}, of writes {quoted(map(spelled, kinds['iwrite']))}."
        yield Mend("make two lists, one of the reads and one of the writes.")
    else:
        words = sum(words_of(case, pair) for pair in pairs)
        yield f"Its elements have {words} words together, and at most {MOST_WORDS} may be in a list."
        yield Mend("leave elements out of the list; or make types of fewer words.")


def words_of(case: Case, pair: Pair) -> int:
    data_type = case.data_type(case.description.items(case.component().ports[pair[0]])[pair[1]])
    return data_type.words if data_type else 0


def spelled(pair: Pair) -> str:
    return ".".join(pair)
