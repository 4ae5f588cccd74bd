"""What a document says is proved, looked up in the sources."""

from __future__ import annotations

import re
from pathlib import Path
from typing import Iterator

from rte_tools.contracts import Crate, Function

QUOTED = re.compile(r"`([^`]+)`")
NAMES = re.compile(r"(?:`[\w:]+`(?:, | and |, and )?)+")
CLAUSE_OF = re.compile(r"[Cc]lauses? (" + NAMES.pattern + r") of `([\w:]+)`")
OF_CRATE = re.compile(r"(" + NAMES.pattern + r") of `(\w+)`")
FILE = re.compile(r"^[\w./-]+\.(?:rt|antt|py|sh|md|json|txt)$")
OPERATORS = {"==": "eq"}
ONE_CLAUSE = ("one each", "its one clause")

Finding = tuple[int, str]  # a line of the document and what is wrong there


class Document:
    """One document, read line by line. `checked` counts the names that were looked up."""

    def __init__(self, top: Path, crates: dict[str, Crate], text: str):
        self.top = top
        self.crates = crates
        self.lines = text.splitlines()
        self.checked = 0
        self.around: list[Crate] = []  # the crates that the line above names
        self.heading = ""
        self.unknown: list[str] = []  # what the line above names as a crate and is none

    def check(self) -> Iterator[Finding]:
        """All that is named and not found."""
        number = 0
        while number < len(self.lines):
            line = self.lines[number]
            if line.startswith("|"):
                rows = self.table(number)
                yield from self.check_table(number, rows)
                number += len(rows)
                continue
            self.notice(line)
            paragraph = self.paragraph(number)
            yield from self.check_sentences(number, " ".join(" ".join(paragraph).split()))
            number += len(paragraph)

    def table(self, number: int) -> list[str]:
        rows: list[str] = []
        while number + len(rows) < len(self.lines) and self.lines[number + len(rows)].startswith("|"):
            rows.append(self.lines[number + len(rows)])
        return rows

    def paragraph(self, number: int) -> list[str]:
        """The lines from here to the next empty one, heading or table; at least one."""
        end = number + 1
        while end < len(self.lines) and self.lines[end].strip() and not self.lines[end].startswith(("|", "#")):
            end += 1
        return self.lines[number:end] if self.lines[number].strip() else self.lines[number : number + 1]

    def notice(self, line: str) -> None:
        """Keeps the heading with its crates, or the crates that a line begins with: `one` and `other`: .."""
        if line.startswith("#"):
            self.heading = line
            self.unknown = []
            self.around = [self.crates[word] for word in re.findall(r"\w+", line) if word in self.crates]
        begin = NAMES.match(line)
        if begin and line[begin.end() :].startswith(":"):
            names = QUOTED.findall(begin.group())
            self.around = [self.crates[name] for name in names if name in self.crates]
            self.unknown = [name for name in names if name not in self.crates]

    # ---- tables

    def check_table(self, first: int, rows: list[str]) -> Iterator[Finding]:
        columns = [cell.lower() for cell in cells(rows[0])]
        clause = next((at for at, name in enumerate(columns) if name.startswith("clause")), None)
        function = next((at for at, name in enumerate(columns) if name.startswith("function")), None)
        crate = columns.index("crate") if "crate" in columns else None
        if function is not None:
            yield from ((first + 1, f"there is no crate `{name}`") for name in self.unknown)
        for number, row in enumerate(rows[2:], first + 3):
            held = cells(row)
            if len(held) != len(columns):
                continue
            crates = self.crates_of(held[crate]) if crate is not None else self.around
            beside = crates + self.crates_of(row) + self.crates_of_paths(row)
            yield from ((number, message) for message in self.check_files(row, beside))
            if clause is not None:
                named = held[function] if function is not None else self.function_of_heading()
                yield from ((number, message) for message in self.check_row(crates, named, held[clause]))

    def crates_of(self, cell: str) -> list[Crate]:
        return [self.crates[name] for name in QUOTED.findall(cell) if name in self.crates]

    def function_of_heading(self) -> str:
        return self.heading

    def check_row(self, crates: list[Crate], functions: str, clauses: str) -> Iterator[str]:
        """A row: its functions, then its clauses in the contracts of these functions."""
        found: list[Function] = []
        named = 0
        for part in functions.split(";"):
            part_crates = self.crates_of(part) or self.crates_of_paths(part) or crates or list(self.crates.values())
            path = path_in(part)
            for name in QUOTED.findall(part):
                if (
                    name in self.crates
                    or FILE.match(name)
                    or any((crate.folder / name).is_dir() for crate in part_crates)
                ):
                    continue
                named += 1
                held = self.functions(name, part_crates, path)
                found += held
                if not held and not self.is_type(name, part_crates):
                    yield f"there is no function `{name}`" + (f" in {path}" if path else "") + places(part_crates)
        yield from self.check_clauses(found, named, clauses)

    def crates_of_paths(self, part: str) -> list[Crate]:
        """The crates of paths that begin with a crate, such as `plan_numbers/src/source.rt`."""
        starts = [name.removeprefix("crates/").split("/")[0] for name in QUOTED.findall(part) if "/" in name]
        return [self.crates[start] for start in starts if start in self.crates]

    def functions(self, name: str, crates: list[Crate], path: str) -> list[Function]:
        self.checked += 1
        name = OPERATORS.get(name, name)
        return [function for crate in crates for function in crate.find(name, path)]

    def is_type(self, name: str, crates: list[Crate]) -> bool:
        return name[:1].isupper() and "::" not in name and any(name in crate.types for crate in crates)

    def check_clauses(self, found: list[Function], named: int, cell: str) -> Iterator[str]:
        known = {clause for function in found for clause in function.clauses}
        plain = re.sub(r"\([^)]*\)", "", cell)
        for name in QUOTED.findall(plain):
            self.checked += 1
            if name not in known:
                yield f"there is no clause `{name}` in {names_of(found)}"
        for name in QUOTED.findall(cell):
            if name[:1].isupper() and not self.is_defined(name):
                yield f"there is no definition `{name}`"
        if plain.strip() in ONE_CLAUSE and len(found) == named:
            for function in found:
                if len(function.clauses) != 1:
                    yield f"`{function.name}` has {len(function.clauses)} clauses, and the row says one"

    def is_defined(self, name: str) -> bool:
        self.checked += 1
        return any(name in crate.definitions for crate in self.crates.values())

    # ---- sentences and files

    def check_sentences(self, number: int, text: str) -> Iterator[Finding]:
        for clauses, function in CLAUSE_OF.findall(text):
            for message in self.check_row(self.around, f"`{function}`", clauses):
                yield number + 1, message
        for functions, crate in OF_CRATE.findall(text):
            if crate in self.crates and not self.is_clause_list(text, functions):
                for message in self.check_row([self.crates[crate]], functions, ""):
                    yield number + 1, message
        for message in self.check_files(text, self.around):
            yield number + 1, message

    def is_clause_list(self, text: str, names: str) -> bool:
        return re.search(r"[Cc]lauses? " + re.escape(names), text) is not None

    def check_files(self, text: str, crates: list[Crate]) -> Iterator[str]:
        """Files in backquotes: from the top of the repository, from crates/, or from one of the crates.

        What begins with no folder of these is a file of the reader's.
        """
        for name in QUOTED.findall(text):
            if not FILE.match(name) or "/" not in name:
                continue
            folders = [self.top, self.top / "crates", *(crate.folder for crate in crates)]
            if any((folder / name.split("/")[0]).is_dir() for folder in folders):
                self.checked += 1
                if not any((folder / name).exists() for folder in folders):
                    yield f"there is no file `{name}`" + places(crates)


def cells(row: str) -> list[str]:
    return [cell.strip() for cell in row.strip().strip("|").split("|")]


def path_in(part: str) -> str:
    """The path below its crate that a part of a cell names: `src/laws.rt` of `bus_laws/src/laws.rt`."""
    paths = [name for name in QUOTED.findall(part) if name.endswith(".rt")]
    return paths[0][paths[0].index("src/") :] if len(paths) == 1 and "src/" in paths[0] else ""


def places(crates: list[Crate]) -> str:
    names = ", ".join(crate.name for crate in crates[:3])
    return f" of {names}{' ..' if len(crates) > 3 else ''}" if crates else ""


def names_of(functions: list[Function]) -> str:
    return ", ".join(f"`{function.name}`" for function in functions[:3]) or "any function of the row"
