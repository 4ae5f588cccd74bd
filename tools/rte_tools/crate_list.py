"""The list of crates, docs/crates.ini, and the tables that documents have of it."""

from __future__ import annotations

import configparser
import csv
import re
from dataclasses import dataclass
from pathlib import Path
from typing import Iterable

LIST = "docs/crates.ini"
COSTS = "docs/gate_times.csv"
HOMES = {"layers": "docs/ARCHITECTURE.md", "claims": "docs/PROVED.md", "costs": "docs/GATE.md"}  # of each table
BEGIN, END = "<!-- {}: written by tools/dev/crates.py -->", "<!-- end -->"
COST_COLUMNS = ("Crate", "Lines", "Proof", "Tests", "Wrong bodies", "For 1,000 lines")


@dataclass
class Listed:
    """A crate of the list, with what documents say of it; an empty text says nothing."""

    name: str
    layer: str = ""
    what: str = ""
    used: str = ""
    definitions: str = ""
    claim: str = ""
    function: str = ""
    clause: str = ""


def listed_crates(top: Path) -> list[Listed]:
    reader = configparser.ConfigParser(interpolation=None, delimiters=(":",), comment_prefixes=("#",))
    reader.read_string((top / LIST).read_text(encoding="utf-8"))
    return [Listed(name, **reader[name]) for name in reader.sections()]


def built_crates(top: Path) -> list[str]:
    """The crates as crates.txt lists them, each behind those that it stands on."""
    return [line.split(":")[0] for line in (top / "crates.txt").read_text(encoding="utf-8").splitlines() if re.match(r"\w+:", line)]


def misfits(top: Path) -> list[str]:
    """What the list lacks of crates.txt, and what it has besides."""
    listed, built = {crate.name for crate in listed_crates(top)}, set(built_crates(top))
    return [f"{LIST} lacks `{name}`" for name in sorted(built - listed)] + [
        f"{LIST} has `{name}`, which crates.txt has not" for name in sorted(listed - built)
    ]


# ---- the tables


def layers(crates: list[Listed]) -> str:
    """The crates layer by layer, each in one line."""
    names = list(dict.fromkeys(crate.layer for crate in crates))
    return "\n\n".join(
        f"### {name}\n\n" + rows_of(("Crate", "What it is"), ([quoted(it.name), it.what] for it in crates if it.layer == name)) for name in names
    )


def claims(crates: list[Listed]) -> str:
    """The claim of each crate that has one."""
    rows = ([quoted(it.name), it.claim, it.function, it.clause] for it in crates if it.claim)
    return rows_of(("Crate", "Claim", "Function", "Clause"), rows)


def costs(top: Path) -> str:
    """What each crate cost in a whole run of the gate, the dearest first; the halves of the list side by side."""
    with (top / COSTS).open(encoding="utf-8", newline="") as file:
        crates = [cost_cells(row) for row in csv.DictReader(file)]
    half = (len(crates) + 1) // 2
    beside = crates[half:] + [[""] * len(COST_COLUMNS)] * (2 * half - len(crates))
    return rows_of(COST_COLUMNS * 2, (left + right for left, right in zip(crates, beside)))


def cost_cells(row: dict[str, str]) -> list[str]:
    parts = [int(row[part] or 0) for part in ("proof", "tests", "edits")]
    lines = int(row["lines"])
    shown = [str(part) if part else "" for part in parts]
    return [quoted(row["crate"]), f"{lines:,}", *shown, str(round(1000 * sum(parts) / max(lines, 1)))]


def rows_of(columns: tuple[str, ...], rows: Iterable[list[str]]) -> str:
    lines = [row_of(columns), "|---" * len(columns) + "|", *map(row_of, rows)]
    return "\n".join(lines)


def row_of(cells: Iterable[str]) -> str:
    return "|" + "".join(f" {cell} |" if cell else " |" for cell in cells)


def quoted(name: str) -> str:
    return f"`{name}`"


# ---- in the documents


def fresh(top: Path) -> dict[Path, str]:
    """Each document with its tables as they should be."""
    crates = listed_crates(top)
    tables = {"layers": layers(crates), "claims": claims(crates), "costs": costs(top)}
    return {top / HOMES[name]: replaced((top / HOMES[name]).read_text(encoding="utf-8"), name, table) for name, table in tables.items()}


def replaced(text: str, name: str, table: str) -> str:
    """The text with this table between its two marks."""
    head, mark, rest = text.partition(BEGIN.format(name))
    if not mark or END not in rest:
        raise ValueError(f"there is no place for the table `{name}`")
    return f"{head}{mark}\n\n{table}\n\n{rest[rest.index(END):]}"
