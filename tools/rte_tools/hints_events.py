"""Hints to rules 21 to 24: events, servers, calls that do not wait, and what modes disable."""

from __future__ import annotations

from typing import Iterator

from rte_tools.description import Component, Event, Port
from rte_tools.hint_case import Case, Mend, Spot, quoted
from rte_tools.hints_programs import kind_of, unknown_mode
from rte_tools.names import nearest

SERVER_EVENT = "OperationInvokedEvent"
RETURNS_EVENT = "AsynchronousServerCallReturnsEvent"
# Of each kind of event: whether it wants a P-port, and of which kind the item is.
WANTS = {
    "DataReceivedEvent": (False, "data", "an R-port with data elements"),
    SERVER_EVENT: (True, "operation", "a P-port with operations"),
    RETURNS_EVENT: (False, "operation", "an R-port with operations"),
    "SwcModeSwitchEvent": (False, "mode", "an R-port with modes"),
    "ModeSwitchedAckEvent": (True, "mode", "a P-port with modes"),
}
DISABLED = ("TimingEvent", "InitEvent", "DataReceivedEvent", RETURNS_EVENT)  # the events that modes may disable


def event_at(case: Case) -> Event:
    """The event that the place names."""
    return case.component().events[case.node.plain()["shortName"]]


def article(kind: str) -> str:
    return "an" if kind[0] in "AIO" else "a"


def port_text(case: Case, port: Port) -> str:
    """`in` is an R-port with the queued element `v`."""
    side = "a P-port" if port.provides else "an R-port"
    items = case.description.items(port).values()
    held = f" with {', '.join(f'the {kind_of(item)} `{item.name}`' for item in items)}" if items else ""
    return f"`{port.name}` is {side}{held}."


def wrong_port(case: Case) -> Iterator[str]:
    """Rule 21: which port the event names and which it needs, or which mode the group has not."""
    event = event_at(case)
    port = case.component().ports.get(event.keys.get("port", ""))
    if not port or event.kind not in WANTS:
        return
    provides, kind, wanted = WANTS[event.kind]
    items = case.description.items(port)
    item = items.get(event.keys.get("element", event.keys.get("operation", ""))) or next(iter(items.values()), None)
    if port.provides != provides or not item or item.kind != kind:
        yield port_text(case, port)
        yield f"{article(event.kind).capitalize()} {event.kind} needs {wanted}."
        yield Mend("name such a port, or take another kind of event.")
        return
    yield from unknown_mode(case, port, event.keys.get("modes", []))


def not_served_once(case: Case) -> Iterator[str]:
    """Rule 22: which operation has no event or two, or which other event the server has."""
    component = case.component()
    if case.way[2] == "ports":
        yield from unserved(case, component)
        return
    event = event_at(case)
    others = [held for held in component.events.values() if held.runnable == event.runnable and held != event]
    for other in others:
        yield f"The event `{other.name}` at {case.line(other.place)} starts `{event.runnable}` too."
    yield Mend("give each operation a runnable that no other event starts.")


def unserved(case: Case, component: Component) -> Iterator[str]:
    """Which operations of a port have no event, or more than one."""
    port = component.ports[case.node.plain()["shortName"]]
    missing = []
    for operation in case.description.items(port):
        events = [
            event
            for event in component.events.values()
            if event.kind == SERVER_EVENT and (event.keys["port"], event.keys["operation"]) == (port.name, operation)
        ]
        if not events:
            missing.append(operation)
        elif len(events) > 1:
            yield f"The operation `{operation}` has the events {quoted(event.name for event in events)}."
            yield Mend("leave one OperationInvokedEvent for each operation.")
    if missing:
        yield f"No {SERVER_EVENT} names {quoted(missing)}."
        yield Mend("give each operation an event and a runnable of its own, or take it out of the interface.")


def called_in_two_ways(case: Case) -> Iterator[str]:
    """Rule 23: who else calls the operation, or that nobody calls it without waiting."""
    component = case.component()
    held = case.node.plain()
    port, operation = held[1:3] if isinstance(held, list) else (held["port"], held["operation"])
    calls = [
        (access[0], runnable.name, f"{runnable.place}/accesses/{number}")
        for runnable in component.runnables.values()
        for number, access in enumerate(runnable.accesses)
        if access[0] in ("call", "acall") and access[1:] == (port, operation)
    ]
    if isinstance(held, list) and held[0] == "acall":
        for keyword, name, place in calls:
            if place != case.place:
                yield f"`{name}` calls it too, by `{keyword}`, at {case.line(place)}."
        yield Mend("call the operation in one way, by one runnable.")
        return
    yield f"No runnable of `{component.name}` calls `{port}`.`{operation}` by `acall`."
    for keyword, name, place in calls:
        yield f"`{name}` calls it by `{keyword}` at {case.line(place)}."
    yield Mend("call it by `acall`, or take this out.")


def not_disabled(case: Case) -> Iterator[str]:
    """Rule 24: that the event cannot be disabled, or which port or mode does not fit."""
    event = event_at(case)
    disabled = event.keys.get("disabledInModes", {})
    yield Spot(f"{case.place}/disabledInModes")
    if event.kind not in DISABLED:
        yield f"Modes do not disable {article(event.kind)} {event.kind}."
        yield Mend("take `disabledInModes` out, and ask for the mode in the program.")
        return
    ports = case.component().ports
    port = ports.get(disabled.get("port", ""))
    if not port:
        yield f"There is no port `{disabled.get('port')}`{nearest(disabled.get('port', ''), ports)}."
        yield Mend("name an R-port with modes.")
    elif port.provides or not any(item.kind == "mode" for item in case.description.items(port).values()):
        yield port_text(case, port)
        yield Mend("name an R-port with modes.")
    else:
        yield from unknown_mode(case, port, disabled.get("modes", []))
