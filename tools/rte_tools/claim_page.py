"""What each public function promises, crate by crate: its docstring and the names of the clauses that carry it."""

from __future__ import annotations

from typing import Iterator

from rte_tools.contracts import Crate, Function

HEADING = "# What each function promises"


def page_of(crates: list[Crate]) -> str:
    """The crates in the order that is given. What has no clause promises nothing but that it is safe, and is left out."""
    return "\n\n".join([HEADING, *(part for crate in crates for part in parts_of(crate))]) + "\n"


def parts_of(crate: Crate) -> Iterator[str]:
    promising = [function for function in crate.functions if function.is_public and function.clauses]
    yield f"## `{crate.name}`"
    if crate.head:
        yield "\n".join(line.replace("# ", "### ", 1) if line.startswith("# ") else line for line in crate.head)
    if promising:
        yield "\n".join(entry_of(function) for function in promising)


def entry_of(function: Function) -> str:
    said = " ".join(line for line in function.text if line)
    return " ".join(part for part in (f"- `{function.full_name}` in `{function.path}`:", said, f"{clauses_of(function)}.") if part)


def clauses_of(function: Function) -> str:
    """The names of its clauses, those without one counted."""
    names = [f"`{name}`" for name in function.clauses if name]
    nameless = function.clauses.count("")
    if not names:
        return "Its one clause" if nameless == 1 else f"{nameless} clauses"
    more = f", and {nameless} without a name" if nameless else ""
    return f"Clause{'s' if len(names) > 1 else ''} {', '.join(names)}{more}"
