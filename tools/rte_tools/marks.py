"""The marks of calls: a letter and a colour for each verb of a trace, and what it is called in AUTOSAR."""

from __future__ import annotations

from dataclasses import dataclass


@dataclass(frozen=True)
class Sign:
    letter: str
    kind: str  # the class of its colour: what gives, what takes, and what changes a state
    said: str


PLAIN = Sign("•", "plain", "")  # a verb that is not known here
SIGNS = {
    "write": Sign("W", "out", "write: Rte_Write, Rte_IrvWrite"),
    "publish": Sign("P", "out", "publish: what Rte_IWrite wrote"),
    "publishAll": Sign("C", "out", "publishAll: what Rte_IWrite wrote, of a coherent list"),
    "send": Sign("S", "out", "send: Rte_Send"),
    "switch": Sign("K", "out", "switch: Rte_Switch"),
    "ask": Sign("A", "out", "ask: Rte_Call"),
    "return": Sign("B", "out", "return of a server"),
    "read": Sign("R", "in", "read: Rte_Read, Rte_IrvRead"),
    "fetch": Sign("F", "in", "fetch: what Rte_IRead reads"),
    "fetchAll": Sign("L", "in", "fetchAll: what Rte_IRead reads, of a coherent list"),
    "receive": Sign("V", "in", "receive: Rte_Receive"),
    "answer": Sign("N", "in", "answer to Rte_Call"),
    "result": Sign("T", "in", "result: Rte_Result"),
    "mode": Sign("M", "in", "mode: Rte_Mode"),
    "isUpdated": Sign("U", "in", "isUpdated: Rte_IsUpdated"),
    "invalidate": Sign("I", "state", "invalidate: Rte_Invalidate"),
    "enter": Sign("E", "state", "enter: Rte_Enter"),
    "exit": Sign("X", "state", "exit: Rte_Exit"),
    "admit": Sign("D", "state", "admit: whether a mode disables the event"),
    "phase": Sign("H", "state", "phase of a mode switch"),
}


def sign_of(verb: str) -> Sign:
    return SIGNS.get(verb, PLAIN)


def in_order(verbs: set[str]) -> list[str]:
    """The verbs in the order of the table; those that are not known come last."""
    known = [verb for verb in SIGNS if verb in verbs]
    return known + sorted(verbs - set(known))
