"""Which functions, clauses and types stand in the sources of the crates, and which names in their definitions."""

from __future__ import annotations

import re
from dataclasses import dataclass, field
from functools import cached_property
from pathlib import Path

OWNER = re.compile(r"^(?:pub )?(?:impl|trait)\b[^{]*?(?:\bfor )?\b([A-Z]\w*)(?:<[^{]*?>)?\s*(?:where[^{]*)?\{")
SHARED = re.compile(r"^(?:pub )?trait\b|^impl\b[^{]*\bfor\b")  # what a trait has is public with it
FUNCTION = re.compile(r"\bfn (\w+)")
CLAUSE = re.compile(r"\bensures(?: (\w+))? \{")
TYPE = re.compile(r"\b(?:struct|enum|trait|type|const|static) (\w+)")
DEFINED = re.compile(r"^(?:abbrev |data |record )?(?:pub )?(?:record )?(\w+)", re.MULTILINE)


@dataclass
class Function:
    """A function with the type or trait that it belongs to, if any, and the names of its clauses."""

    name: str
    owner: str
    path: str  # below the crate
    clauses: list[str] = field(default_factory=list)  # a clause without a name is an empty text
    text: list[str] = field(default_factory=list)  # the lines of its docstring
    is_public: bool = False

    @property
    def full_name(self) -> str:
        return f"{self.owner}::{self.name}" if self.owner else self.name


class Crate:
    """The sources of one crate."""

    def __init__(self, folder: Path):
        self.folder = folder
        self.name = folder.name

    @cached_property
    def functions(self) -> list[Function]:
        return [function for path in self.files("src", "rt") for function in functions_in(path, self.folder)]

    @cached_property
    def head(self) -> list[str]:
        """The lines of text at the head of the library or the program."""
        heads = [path for path in (self.folder / "src" / "lib.rt", self.folder / "src" / "main.rt") if path.exists()]
        return [line[3:].strip() for line in read(heads[0]).splitlines() if line.startswith("//!")] if heads else []

    @cached_property
    def types(self) -> set[str]:
        return {name for path in self.files("src", "rt") for name in TYPE.findall(read(path))}

    @cached_property
    def definitions(self) -> set[str]:
        return {name for path in self.files("specs", "antt") for name in DEFINED.findall(read(path))}

    def files(self, folder: str, ending: str) -> list[Path]:
        return sorted((self.folder / folder).rglob(f"*.{ending}"))

    def find(self, name: str, path: str = "") -> list[Function]:
        """The functions of a name, `f` or `Type::f`; of one file where a path is given."""
        owner, _, plain = name.rpartition("::")
        return [
            function
            for function in self.functions
            if function.name == plain and owner in ("", function.owner) and path in ("", function.path)
        ]


def read(path: Path) -> str:
    return path.read_text(encoding="utf-8")


def functions_in(path: Path, crate: Path) -> list[Function]:
    """The functions of a file, each with its docstring and with the clauses that stand between it and the next one."""
    found: list[Function] = []
    owner = ""
    shares = False
    docstring: list[str] = []
    for line in read(path).splitlines():
        if line.lstrip().startswith("///"):
            docstring.append(line.strip()[3:].strip())
            continue
        line = line.split("//")[0]
        opened = OWNER.match(line)
        if opened:
            owner, shares = opened.group(1), SHARED.match(line) is not None
        elif line.startswith("}"):
            owner, shares = "", False
        for function in FUNCTION.finditer(line):
            is_public = shares or line.lstrip().startswith("pub ")
            found.append(Function(function.group(1), owner, str(path.relative_to(crate)), [], docstring, is_public))
        for clause in CLAUSE.finditer(line):
            if found:
                found[-1].clauses.append(clause.group(1) or "")
        if line.strip() and not line.lstrip().startswith("#"):
            docstring = []
    return found


def crates_in(folder: Path) -> dict[str, Crate]:
    return {path.name: Crate(path) for path in sorted(folder.iterdir()) if (path / "src").is_dir()}
