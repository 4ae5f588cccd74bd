"""Lemmas: which are stated in several crates, which no file names, and which nothing reaches that is proved of code or defined."""

from __future__ import annotations

import re
from collections import Counter, defaultdict
from dataclasses import dataclass, field
from typing import Iterator

from rte_tools.tree import ANSWERS, Tree, crate_of, name_of

STATED = re.compile(r"^( *)(?:abbrev |pub )*([^\W\d][\w'≢≡-]*) : (.*)$")
DEFINED = re.compile(r"^( *)(?:abbrev )?(?:pub )?(?:abbrev )?(?!record |data |module |where\b|unfolding\b|use )([^\s(){}\[\];,.\"λ]+) : ")
AT_LEFT = re.compile(r"^(?:pub )?(?:abbrev )?(?:pub )?([A-Za-z_][\w'-]*) :", re.MULTILINE)
WORD = re.compile(r"[A-Za-z_][A-Za-z0-9_'\-]*")
TOKEN = re.compile(r"[^\s(){}\[\];,\"λ]+")
COMMENT = re.compile(r"(?:^|\s)--(?:\s.*|-.*)?$", re.MULTILINE)
PATH = re.compile(r"Rattle\.[\w.≡≢\-]+")
LISTED = re.compile(r"use (Rattle\.[^\s{]+)\.\{([^}]*)\}")
LEMMA_OF_CODE = re.compile(r"\b(\w+)::proofs::((?:\w+::)+)([^\s(){}\[\],:]+)")
MARKERS = re.compile(r"IsSync|IsSend|CrossesBy|IsTransferable")  # proofs that the prover looks for by their type

Node = tuple[str, str]  # a module and a name of it
ROOT: Node = ("", "")


def indent_of(line: str) -> int:
    return len(line) - len(line.lstrip())


# ---- stated in several crates


def doubled(tree: Tree) -> list[str]:
    """The statements that stand in several crates, whatever names they bind: each with its lemmas."""
    stated: dict[str, dict[str, str]] = defaultdict(dict)
    for path in tree.lemma_files():
        for name, statement in statements(tree.lines[path]):
            same = same_names(statement)
            if says_something(same):
                stated[same].setdefault(crate_of(path), f"{path} {name}")
    return ["; ".join(places.values()) for places in stated.values() if len(places) > 1]


def statements(lines: list[str]) -> Iterator[tuple[str, str]]:
    """Each lemma with a proof: its name and what it states."""
    at = 0
    while at < len(lines):
        head = STATED.match(lines[at])
        if not head:
            at += 1
            continue
        indent, name = len(head.group(1)), head.group(2)
        proof = behind(lines, at + 1, lambda line: bool(line.strip()) and indent_of(line) > indent)
        end = behind(lines, proof, lambda line: goes_on(line, indent, name))
        text = " ".join([head.group(3), *lines[at + 1 : proof]])
        if "goal." not in text and end > proof:
            yield name, text
        at = max(end, at + 1)


def behind(lines: list[str], at: int, belongs) -> int:
    """The first line from this one on that does not belong there."""
    while at < len(lines) and belongs(lines[at]):
        at += 1
    return at


def goes_on(line: str, indent: int, name: str) -> bool:
    """Whether the line is of the proof of the lemma of this name."""
    if not line.strip() or indent_of(line) < indent:
        return False
    return indent_of(line) > indent or re.match(rf"^ *{re.escape(name)}( |$)", line) is not None


def same_names(statement: str) -> str:
    """The statement with bound names numbered, so that two are equal which differ in these alone."""
    text = re.sub(r"\s+", " ", statement).strip()
    bound: list[str] = []
    for group in re.finditer(r"[({]([^(){}:λ]+?) : |λ ([^.]+)\.", text):
        bound += [name for name in re.findall(r"[^\W\d][\w']*", group.group(1) or group.group(2)) if name not in bound]
    numbers = {name: f"#{number}" for number, name in enumerate(bound)}
    return re.sub(r"(?<![\w.])[^\W\d][\w']*", lambda name: numbers.get(name.group(), name.group()), text)


def says_something(statement: str) -> bool:
    """Whether this is a statement, of two sides or of some value, and no kind of thing such as `List ℕ` or `Plan → Type 0`."""
    result = statement.rpartition("→")[2]
    return re.search(r"[≡≢≤<⊎⊥]", statement) is not None or re.search(r"(?<![\w.])(#\d|[a-z])", result) is not None


# ---- named by no file


def uncited(tree: Tree) -> list[str]:
    """The lemmas at the left of their files whose names stand nowhere but in themselves."""
    plain = {path: without_comments(path, text) for path, text in [*tree.texts.items(), *tree.edits.items()]}
    uses: Counter[str] = Counter()
    for text in plain.values():
        uses.update(WORD.findall(text))
    found = []
    for path in tree.lemma_files():
        for head in AT_LEFT.finditer(tree.texts[path]):
            at = tree.texts[path].count("\n", 0, head.start())
            own = "\n".join(lemma_lines(tree.lines[path], at, head.group(1)))
            if uses[head.group(1)] <= WORD.findall(without_comments(path, own)).count(head.group(1)):
                found.append(f"{path}:{at + 1} {head.group(1)}")
    return found


def without_comments(path: str, text: str) -> str:
    return re.sub(r"--.*", "", text) if path.endswith(".antt") and "--" in text else text


def lemma_lines(lines: list[str], at: int, name: str) -> list[str]:
    end = behind(lines, at + 1, lambda line: line.startswith(" ") or re.match(rf"{re.escape(name)}(\s|$)", line) is not None)
    return lines[at:end]


# ---- reached by nothing


@dataclass
class Module:
    """A file of definitions or proofs: what it takes from others, its definitions by name, and the rest of its text."""

    name: str
    path: str
    taken: dict[str, Node] = field(default_factory=dict)
    called: dict[str, str] = field(default_factory=dict)  # modules by the names that they have here
    own: dict[str, tuple[int, int]] = field(default_factory=dict)  # the first line of each, and that behind it
    given: list[Node] = field(default_factory=list)  # what it passes on

    @property
    def is_answers(self) -> bool:
        return name_of(self.path) in ANSWERS


def unreached(tree: Tree) -> list[str]:
    """The lemmas that nothing reaches from definitions, proofs of code, contracts and must-fail edits, by what each cites."""
    modules = {module.name: module for module in map(lambda path: module_of(path, tree.lines[path]), antt_files(tree))}
    uses: dict[Node, set[Node]] = defaultdict(set)
    for module in modules.values():
        add_uses(module, tree.lines[module.path], uses)
    for path in [*tree.sources(), *tree.edits]:
        uses[ROOT] |= cited_by_code(path, tree.texts.get(path) or tree.edits.get(path, ""))
    reached = all_reached(uses)
    return [
        f"{module.path}:{begin + 1} {name}"
        for module in modules.values()
        for name, (begin, _) in module.own.items()
        if (module.name, name) not in reached
    ]


def antt_files(tree: Tree) -> list[str]:
    return [path for path in tree.texts if path.endswith(".antt") and name_of(path) != "Lib.antt"]


def all_reached(uses: dict[Node, set[Node]]) -> set[Node]:
    reached, todo = {ROOT}, [ROOT]
    while todo:
        new = uses.get(todo.pop(), set()) - reached
        reached |= new
        todo += new
    return reached


def module_of(path: str, lines: list[str]) -> Module:
    module = Module("Rattle." + path[len("crates/") : -len(".antt")].replace("/", "."), path)
    at = 0
    while at < len(lines):
        if take_import(module, lines[at]):
            at += 1
            continue
        head = DEFINED.match(lines[at])
        if head and (not head.group(1) or not module.is_answers) and not is_nested(lines, at):
            end = definition_end(lines, at, len(head.group(1)), head.group(2))
            module.own[head.group(2)] = (at, end)
            at = end
        else:
            at += 1
    return module


def take_import(module: Module, line: str) -> bool:
    """Notes what a `use` gives; whether the line is one."""
    use = re.match(r"^(?:unfoldable )?(pub )?use ([^\s{]+?)(?:\.\{(.*)\}| as (\S+))?$", line)
    if not use:
        return False
    is_public, source, names, alias = use.groups()
    if names is None:
        module.called[alias or source.split(".")[-1]] = source
        return True
    for name in names.split(","):
        first, _, new = (part.strip() for part in name.partition(" as "))
        module.taken[new or first] = (source, first)
        if is_public:
            module.given.append((source, first))
    return True


def is_nested(lines: list[str], at: int) -> bool:
    """Whether a definition stands below a `where` that is not a module's."""
    indent = indent_of(lines[at])
    for line in reversed(lines[:at]):
        if indent == 0:
            return False
        if line.strip() and not line.strip().startswith("--") and indent_of(line) < indent:
            indent = indent_of(line)
            if not re.match(r"^ *module _.* where$", line):
                return True
    return False


def definition_end(lines: list[str], at: int, indent: int, name: str) -> int:
    """The line behind a definition: its statement, its equations and what stands deeper, blank lines between included."""
    own = re.compile(rf"^ *(?:{re.escape(name)}(?:\s|$)|(?:where|unfolding .*|[)\]}}]+.*)$)")
    end = at + 1
    while end < len(lines):
        following = next((n for n in range(end, len(lines)) if lines[n].strip()), len(lines))
        if following == len(lines):
            return end
        line = lines[following]
        if following > end and (indent_of(line) <= indent or line.strip().startswith("--")):
            return end
        if indent_of(line) < indent or (indent_of(line) == indent and not own.match(line)):
            return end
        end = following + 1
    return end


def add_uses(module: Module, lines: list[str], uses: dict[Node, set[Node]]) -> None:
    """Adds what each definition of a module cites; definitions, proofs of code and what stands between lemmas are roots."""
    is_spec = module.path.split("/")[2] == "specs"
    rest = list(lines)
    for name, (begin, end) in module.own.items():
        node, body = (module.name, name), COMMENT.sub("", "\n".join(lines[begin:end]))
        uses[node] |= cited_by(module, body) - {node}
        if is_spec or module.is_answers or name.endswith("-Decides") or "◌" in name or MARKERS.search(body):
            uses[ROOT].add(node)
        rest[begin:end] = [""] * (end - begin)
    between = "\n".join(line for line in rest if not line.startswith(("use ", "pub use ", "unfoldable pub use ")))
    uses[ROOT] |= cited_by(module, COMMENT.sub("", between)) | set(module.given)
    if module.is_answers:
        uses[ROOT] |= set(module.taken.values())


def cited_by(module: Module, text: str) -> set[Node]:
    found: set[Node] = set()
    for token in set(TOKEN.findall(text)):
        first, _, others = token.partition(".")
        if first in module.own:
            found.add((module.name, first))
        if first in module.taken:
            found.add(module.taken[first])
        if first in module.called and others:
            found.add((module.called[first], others.split(".")[0]))
    return found | paths_in(text)


def paths_in(text: str) -> set[Node]:
    split = (path.rpartition(".") for path in PATH.findall(text))
    return {(module, name) for module, _, name in split}


def cited_by_code(path: str, text: str) -> set[Node]:
    """What a source or an edit names of definitions and lemmas."""
    found = paths_in(text)
    for source, names in LISTED.findall(text):
        found |= {(source, name.strip().split(" as ")[0]) for name in names.split(",")}
    for crate, modules, name in LEMMA_OF_CODE.findall(text):
        home = crate_of(path) if crate == "crate" else crate
        found.add((f"Rattle.{home}.proofs.{modules.strip(':').replace('::', '.')}", name))
    return found
