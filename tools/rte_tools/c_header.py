"""The header of a component in C (SWS_RTE: 'Application Header File').

What a call takes and gives follows 'API Reference' of SWS_RTE, for components of which there is one instance. A value
of one word goes in by value and out by a pointer, an array by a pointer to its first word.
"""

from __future__ import annotations

from typing import Iterator

from rte_tools.calls import Call
from rte_tools.description import Component, DataType, Description, Item, Runnable

BASES = {
    "boolean": "unsigned char",
    "uint8": "uint8_t",
    "uint16": "uint16_t",
    "uint32": "uint32_t",
    "sint8": "int8_t",
    "sint16": "int16_t",
    "sint32": "int32_t",
}
CODES = {
    "OK": 0,
    "INVALID": 1,
    "LOST_DATA": 64,
    "LIMIT": 130,
    "NO_DATA": 131,
    "NEVER_RECEIVED": 133,
    "UNCONNECTED": 134,
}
OF_C = frozenset(
    """auto break case char const continue default do double else enum extern float for goto if inline int long register
    restrict return short signed sizeof static struct switch typedef union unsigned void volatile while""".split()
)
STATUS = "Std_ReturnType"
LEAST = -(2**31)  # no literal of C is below 0


class NoHeader(Exception):
    """There is no C header of the component; the message says why."""


def c_header(description: Description, component: Component, calls: list[Call]) -> list[str]:
    """The lines of the header of a component that may use these calls."""
    return list(Header(description, component, calls).lines())


class Header:
    """The parts of the header of a component."""

    def __init__(self, description: Description, component: Component, calls: list[Call]) -> None:
        self.description = description
        self.component = component
        self.calls = calls

    def lines(self) -> Iterator[str]:
        guard = f"RTE_{self.component.name.upper()}_H"
        yield f"/* Rte_{self.component.name}.h */"
        yield from (f"#ifndef {guard}", f"#define {guard}", "")
        yield from ONE_HEADER
        for part in (standard_types(), self.data_types(), self.codes(), self.modes(), self.api(), self.runnables()):
            yield from part
            yield ""
        yield "#endif"

    # ---- types, codes and modes

    def data_types(self) -> Iterator[str]:
        yield "/* Data types, with their limits. */"
        for held in self.description.types.values():
            if held.name in BASES or held.name in OF_C:
                raise NoHeader(f"the data type `{held.name}` has a name that C has already")
            yield f"typedef {held.base} {held.name}{f'[{held.words}]' if held.words > 1 else ''};"
            yield f"#define {held.name}_LowerLimit {number(held.lower, held.base)}"
            yield f"#define {held.name}_UpperLimit {number(held.upper, held.base)}"

    def codes(self) -> Iterator[str]:
        yield "/* Codes of answers, and the errors of operations. */"
        for name, code in CODES.items():
            yield f"#define RTE_E_{name} (({STATUS}){code}U)"
        for name, code in self.errors().items():
            yield f"#define RTE_E_{name} (({STATUS}){code}U)"

    def errors(self) -> dict[str, int]:
        """The errors of the interfaces of the component's ports. Operations of one interface may share one."""
        found: dict[str, int] = {}
        for interface in self.interfaces():
            for item in self.description.interfaces[interface].items.values():
                for error, code in item.errors.items():
                    name = f"{interface}_{error}"
                    if found.setdefault(name, code) != code:
                        raise NoHeader(f"the error `{error}` of `{interface}` has two codes")
        return found

    def interfaces(self) -> list[str]:
        return list(dict.fromkeys(port.interface for port in self.component.ports.values()))

    def modes(self) -> Iterator[str]:
        yield "/* Modes, and what Rte_Mode returns between two modes. */"
        items = [item for name in self.interfaces() for item in self.description.interfaces[name].items.values()]
        groups = [item.type for item in items if item.kind == "mode"]
        for name in dict.fromkeys(groups):
            group = self.description.mode_groups[name]
            yield f"typedef uint8 {mode_type(name)};"
            for position, mode in enumerate(group.modes):
                yield f"#define RTE_MODE_{name}_{mode} (({mode_type(name)}){position}U)"
            yield f"#define RTE_TRANSITION_{name} (({mode_type(name)}){len(group.modes)}U)"

    # ---- functions

    def api(self) -> Iterator[str]:
        yield "/* What the component may call. */"
        for call in self.calls:
            yield f"{self.prototype(call)};"

    def prototype(self, call: Call) -> str:
        """The prototype of a call, without its semicolon."""
        if call.word in ("Rte_Enter", "Rte_Exit"):
            return function("void", call.name, [])
        if call.word.startswith("Rte_Irv"):
            return self.of_value(call, self.type_of(self.component.variables[call.access[1]].of))
        item = self.item(call)
        if item.kind == "operation":
            return function(STATUS, call.name, self.arguments(item, call.access[0]))
        if item.kind == "mode":
            mode = mode_type(item.type)
            if call.word == "Rte_Switch":
                return function(STATUS, call.name, [f"{mode} mode"])
            return function(mode, call.name, [])
        return self.of_value(call, self.type_of(item.type))

    def item(self, call: Call) -> Item:
        """The item of an interface that a call is of."""
        items = self.description.items(self.component.ports[call.access[1]])
        return items[call.access[2]] if len(call.access) > 2 else next(iter(items.values()))

    def type_of(self, name: str) -> DataType:
        return self.description.types[name]

    def of_value(self, call: Call, held: DataType) -> str:
        """The prototype of a call that gives or takes a value of a data element or variable, or none."""
        if call.word in ("Rte_Write", "Rte_Send"):
            return function(STATUS, call.name, [given(held, "data")])
        if call.word in ("Rte_Read", "Rte_Receive"):
            return function(STATUS, call.name, [taken(held, "data")])
        if call.word in ("Rte_IWrite", "Rte_IrvWrite", "Rte_IrvIWrite"):
            return function("void", call.name, [given(held, "data")])
        if call.word == "Rte_IrvRead" and held.words > 1:
            return function("void", call.name, [taken(held, "data")])
        if call.word in ("Rte_IRead", "Rte_IrvRead", "Rte_IrvIRead"):
            return function(held.name if held.words == 1 else f"const {held.base} *", call.name, [])
        return function("boolean" if call.word == "Rte_IsUpdated" else STATUS, call.name, [])

    def arguments(self, item: Item, keyword: str) -> list[str]:
        """The arguments of an operation, as an access gives and takes them."""
        wanted = {"call": (True, True), "acall": (True, False), "result": (False, True)}[keyword]
        found = []
        for name, of_type in item.arguments.items():
            is_out = name in item.outs
            if wanted[is_out]:
                held = self.type_of(of_type)
                found.append(taken(held, argument(name)) if is_out else given(held, argument(name)))
        return found

    def runnables(self) -> Iterator[str]:
        yield "/* What the component defines: its runnables. */"
        taken_names = {*OF_C, *BASES, *self.description.types, *(call.name for call in self.calls)}
        for runnable in self.component.runnables.values():
            if runnable.name in taken_names:
                raise NoHeader(f"the runnable `{runnable.name}` has a name that C, a data type or a call has already")
            yield from lists_of(runnable)
            yield f"{self.entry(runnable)};"

    def entry(self, runnable: Runnable) -> str:
        """The prototype of a runnable, without its semicolon. A server has the arguments of its operation."""
        for event in self.component.events.values():
            if event.kind == "OperationInvokedEvent" and event.runnable == runnable.name:
                port = self.component.ports[event.keys["port"]]
                item = self.description.items(port)[event.keys["operation"]]
                return function(STATUS if item.errors else "void", runnable.name, self.arguments(item, "call"))
        return function("void", runnable.name, [])


def lists_of(runnable: Runnable) -> Iterator[str]:
    """A comment for each coherent list of a runnable."""
    for pairs in runnable.coherent:
        is_read = any(("iread", *pair) in runnable.accesses for pair in pairs)
        word, said = ("IRead", "Fetched") if is_read else ("IWrite", "Published")
        names = ", ".join(f"Rte_{word}_{runnable.name}_{port}_{element}" for port, element in pairs)
        yield f"/* {said} at one moment: {names} */"


ONE_HEADER = [
    "#ifdef RTE_APPLICATION_HEADER_FILE",
    "#error Multiple application header files included.",
    "#endif",
    "#define RTE_APPLICATION_HEADER_FILE",
    "",
]


def standard_types() -> Iterator[str]:
    yield "#include <stdint.h>"
    yield ""
    yield "/* Platform_Types.h and Std_Types.h: a project that has them defines RTE_HAS_STD_TYPES. */"
    yield "#ifdef RTE_HAS_STD_TYPES"
    yield '#include "Std_Types.h"'
    yield "#else"
    for name, of_c in BASES.items():
        yield f"typedef {of_c} {name};"
    yield f"typedef uint8 {STATUS};"
    yield "#endif"


def number(value: int, base: str) -> str:
    """A limit as an expression of C."""
    if value == LEAST:
        return f"({LEAST + 1} - 1)"
    return f"{value}U" if base.startswith("u") or base == "boolean" else f"({value})"


def mode_type(group: str) -> str:
    return f"Rte_ModeType_{group}"


def argument(name: str) -> str:
    """The name of an argument, which only has to be none of C's words or types."""
    return f"{name}_" if name in OF_C or name in BASES else name


def given(held: DataType, name: str) -> str:
    return f"{held.name} {name}" if held.words == 1 else f"const {held.base} *{name}"


def taken(held: DataType, name: str) -> str:
    return f"{held.name if held.words == 1 else held.base} *{name}"


def function(result: str, name: str, arguments: list[str]) -> str:
    space = "" if result.endswith("*") else " "
    return f"{result}{space}{name}({', '.join(arguments) or 'void'})"
