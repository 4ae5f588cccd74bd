"""The counts of the house: how much there is, and what of it is not as CONTRIBUTING wants it."""

from __future__ import annotations

import re
from dataclasses import dataclass
from pathlib import Path
from typing import Callable

from rte_tools.crate_list import built_crates
from rte_tools.lemmas import doubled, uncited, unreached
from rte_tools.tree import Tree

LONG_FUNCTION, MANY_PARAMETERS, LONG_CLAUSE, LONG_IMPORT, SMALL_FILE = 40, 6, 140, 200, 30
OFTEN_MANY = ("end_search", "end_crossing")  # whose functions may have more parameters
FUNCTION = re.compile(r"^( *)(?:pub(?:\([a-z]+\))? )?(?:const )?fn (\w+)")
CLAUSE = re.compile(r"^ *(?:requires|ensures)\b")
IMPORT = re.compile(r"^ *(?:pub |ghost )*use ")


@dataclass
class Count:
    """A count, and where what is counted stands: `path:line name`, or nothing where it says too little."""

    number: int
    places: list[str]


def counts(top: Path) -> dict[str, Count]:
    """All counts by their names."""
    tree = Tree(top)
    listed: dict[str, Callable[[Tree], list[str]]] = {
        "functions over 40 lines": long_functions,
        "functions of more than 6 parameters": crowded_functions,
        "clauses over 140 columns": long_clauses,
        "imports over 200 columns": long_imports,
        "lemma files under 30 lines": small_files,
        "statements in several crates": doubled,
        "lemmas that no file names": uncited,
        "lemmas that nothing reaches": unreached,
    }
    sizes = {"crates": len(built_crates(top)), "files": len(tree.texts), "lines": sum(len(lines) for lines in tree.lines.values())}
    found = {name: Count(number, []) for name, number in sizes.items()}
    for name, places_in in listed.items():
        places = places_in(tree)
        found[name] = Count(len(places), places)
    return found


# ---- code


@dataclass
class Function:
    """A function of a source: the line of its `fn`, its parameters and the lines of its body."""

    name: str
    at: int
    parameters: int
    length: int


def functions(lines: list[str]) -> list[Function]:
    found = []
    for at, line in enumerate(lines):
        head = FUNCTION.match(line)
        if head:
            found.append(Function(head.group(2), at, parameters_at(lines, at), body_length(lines, at, head.group(1))))
    return found


def parameters_at(lines: list[str], at: int) -> int:
    """How many parameters the function has whose `fn` stands here: commas between them, outside of brackets."""
    text = " ".join(line.split("//")[0] for line in lines[at : at + 40])
    text = text[text.index("fn ") :].replace("->", "  ")
    depth = commas = 0
    is_begun, last = False, ""
    for letter in text:
        if letter in "([{<":
            depth += 1
            is_begun = is_begun or (letter == "(" and depth == 1)
        elif letter in ")]}>":
            depth -= 1
            if is_begun and depth == 0:
                return commas + (last not in "(,")
        elif letter == "," and is_begun and depth == 1:
            commas += 1
        if not letter.isspace():
            last = letter
    return 0


def body_length(lines: list[str], at: int, indent: str) -> int:
    """How many lines stand between the brackets of the function's body; none if it has no body."""
    end = next((n for n in range(at, len(lines)) if lines[n] in (f"{indent}}}", f"{indent}{{}}") or lines[n].endswith(("{}", ";"))), at)
    begin = next((n for n in range(at, end) if lines[n] == f"{indent}{{" or is_opened(lines[n])), end)
    while begin < end and lines[end] != f"{indent}}}":
        end = next((n for n in range(end + 1, len(lines)) if lines[n] == f"{indent}}}"), len(lines) - 1)
    return max(end - begin - 1, 0)


def is_opened(line: str) -> bool:
    """Whether a body begins at the end of this line, and no clause."""
    return line.endswith(" {") and not CLAUSE.match(line)


def long_functions(tree: Tree) -> list[str]:
    return [
        f"{path}:{it.at + 1} {it.name} {it.length}" for path in tree.sources() for it in functions(tree.lines[path]) if it.length > LONG_FUNCTION
    ]


def crowded_functions(tree: Tree) -> list[str]:
    return [
        f"{path}:{it.at + 1} {it.name} {it.parameters}"
        for path in tree.sources()
        if path.split("/")[1] not in OFTEN_MANY
        for it in functions(tree.lines[path])
        if it.parameters > MANY_PARAMETERS
    ]


def long_clauses(tree: Tree) -> list[str]:
    return [
        f"{path}:{at + 1}" for path in tree.sources() for at, line in enumerate(tree.lines[path]) if CLAUSE.match(line) and len(line) > LONG_CLAUSE
    ]


def long_imports(tree: Tree) -> list[str]:
    return [
        f"{path}:{at + 1}" for path, lines in tree.lines.items() for at, line in enumerate(lines) if IMPORT.match(line) and len(line) > LONG_IMPORT
    ]


def small_files(tree: Tree) -> list[str]:
    return [f"{path} {len(tree.lines[path])}" for path in tree.lemma_files() if len(tree.lines[path]) < SMALL_FILE]


# ---- the figures that are kept


def kept_figures(text: str) -> dict[str, int]:
    """The most that each count may be: a line `name: number` each."""
    return {name: int(number) for name, number in re.findall(r"^([^#\n]+?): *([\d,]+)$", text.replace(",", ""), re.MULTILINE)}


def worse(found: dict[str, Count], kept: dict[str, int]) -> list[str]:
    """The counts that are greater than the figure that is kept, or have none."""
    return [name for name, count in found.items() if name not in kept or count.number > kept[name]]
