"""What a refusal means: the line that it names, the rule, and how to mend it."""

from __future__ import annotations

from dataclasses import dataclass

from rte_tools import explaining_live, links, reference, scripts, verdicts
from rte_tools.bus_plan import BusPlan, plan_of
from rte_tools.description import Description
from rte_tools.files import Unfit, kind_of, read_description, read_file, read_schema, why_unread
from rte_tools.hints import CHANGED, NOT_THIS_ONE, hints
from rte_tools.located import NotJson, read_json
from rte_tools.refusal import Refusal
from rte_tools.showing import explained, wrapped
from rte_tools.source import Source
from rte_tools.trace import HEADER, read_line

MOST_NAMES = 3  # of those that a foreign trace names
UNKNOWN = reference.Entry("docs/FORMAT.md does not tell it", "see whether the program and the documents fit together.")
# How the words stand.
ORDERS = {
    "run": "`run` takes DESCRIPTION SCRIPT",
    "check": "`check` takes DESCRIPTION TRACE SCRIPT",
    "pair": "`pair` takes DESCRIPTION DESCRIPTION SCRIPT",
    "live": "`live` takes DESCRIPTION, and stimuli on standard input",
}
# What a file is, and what is wanted.
KINDS = {"description": ("This is a description", "a description is"), "stimuli": ("These are stimuli", "stimuli are")}
NO_LINK = "no link: each queued element that is linked stands at a P-port of the first root and at an R-port of the second"
MEND_LINK = "give both ports and both elements the same names, and both types the same limits and as many words."
IS_XML = "This is XML. A description is JSON: tools/arxml.py makes one of ARXML, and docs/AUTOSAR.md leads from ARXML to its keys."


@dataclass(frozen=True)
class Files:
    """The files that the words named: a description and mostly a script, and a trace or the description of a second node. Of a live node the
    stimuli stand in place of the script."""

    description: str
    script: str = ""
    trace: str = ""
    second: str = ""
    is_live: bool = False

    @property
    def command(self) -> str:
        return "live" if self.is_live else "check" if self.trace else "pair" if self.second else "run"

    @property
    def named(self) -> list[str]:
        """In the order of the words."""
        return [path for path in (self.description, self.trace or self.second, self.script) if path]


def explain(refusal: Refusal, description: str, script: str, trace: str = "", second: str = "", is_live: bool = False) -> list[str]:
    """The lines that explain a refusal of these files. Without a trace there are two, or one if there is no script."""
    try:
        return explain_read(refusal, Files(description, script, trace, second, is_live))
    except Unfit as error:
        return [str(error)]


def explain_read(refusal: Refusal, files: Files) -> list[str]:
    """The same. Raises Unfit where a file is not read."""
    if refusal.kind == "words":
        return ["The words were a command and paths, so a path is not UTF-8."]
    if refusal.kind == "not read":
        named = files.named
        return explain_unread(named[refusal.number - 1] if refusal.number <= len(named) else files.script)
    if refusal.kind in ("bad", "illegal"):
        if files.is_live:
            return explaining_live.explain_text(refusal, files.description, files.trace, files.script)
        return explain_trace(refusal, files.description, files.trace, files.script)
    if refusal.kind == "no link":
        return explain_unlinked(files)
    if refusal.kind == "too many cores":
        return explaining_live.explain_crowded(files.description)
    format_text = reference.read_format()
    if refusal.kind == "script":
        return explain_script(refusal, format_text, files)
    description = files.second if refusal.which == 2 else files.description
    rule = reference.rules(format_text).get(refusal.number, UNKNOWN)
    title = f"rule {refusal.number}: {rule.title}"
    source = Source.of(description, read_file(description))
    try:
        root = read_json(source.text)
    except NotJson as error:
        other = exchanged("description", source.text, files.command)
        if other:
            return explained(source, error.start, error.end, title, *other)
        said = [error.message[0].upper() + error.message[1:] + "."]
        return explained(source, error.start, error.end, title, said, rule.mend)
    if refusal.number == 1:
        return [f"{source.where(0)}: {title}", *wrapped(CHANGED)]
    said = hints(refusal.number, source, root, refusal.place, read_schema())
    return explained(source, said.node.start, said.node.end, title, said.sentences, said.mend or rule.mend)


def exchanged(wanted: str, text: str, command: str) -> tuple[list[str], str] | None:
    """What is said, and the mend, where a file is another one than its word wants; else none."""
    kind = kind_of(text)
    if kind in ("", wanted):
        return None
    if kind == "XML":
        return [IS_XML], "give the description that tools/arxml.py makes, or write it as JSON."
    is_there, _ = KINDS.get(kind, (f"This is a {kind}", ""))
    _, are_wanted = KINDS.get(wanted, ("", f"a {wanted} is"))
    return [f"{is_there}, and {are_wanted} wanted here."], f"give the words in their order: {ORDERS[command]}."


def explain_unlinked(files: Files) -> list[str]:
    """Why no element of two nodes is linked."""
    one, two = read_description(files.description), read_description(files.second)
    said = [line for sentence in links.why_unlinked(one, two) for line in wrapped(sentence)]
    return [NO_LINK, *said, *wrapped(f"Mend: {MEND_LINK}")]


def explain_script(refusal: Refusal, format_text: str, files: Files) -> list[str]:
    """A line of a script or of stimuli, its cause and what is said of it."""
    description, script = files.description, files.script
    cause = reference.causes(format_text).get(refusal.number, UNKNOWN)
    source = Source.of(script, read_file(script))
    if files.is_live and kind_of(source.text) in ("", "stimuli", "script"):
        return explaining_live.explain_stimulus(refusal, source, cause, typed(description))
    if refusal.line > len(source.starts):
        return [f"{script}: there is no line {refusal.line}"]
    line = source.line(refusal.line)
    start = source.starts[refusal.line - 1]
    title = f"cause {refusal.number}: the line {cause.title}"
    other = exchanged("stimuli" if files.is_live else "script", source.text, files.command) if refusal.number == 1 else None
    if other:
        return explained(source, start, start + len(line), f"cause 1: the line {cause.title.partition(':')[0]}", *other)
    remark = scripts.remark(refusal.number, line, script, format_text, typed(description))
    if refusal.number == 2 and files.second and is_received_by_link(line, files):
        text = "What comes there goes over the link to the second node, so no script receives it."
        return explained(source, start, start + len(line), title, [text], "take the line out.")
    said = [remark.text] if remark.text else []
    if said and refusal.number == 1:  # the ways that the page lists say no more than this one
        title = f"cause 1: the line {cause.title.partition(':')[0]}"
    return explained(source, start + remark.start, start + remark.end, title, said, cause.mend)


def explain_trace(refusal: Refusal, description: str, trace: str, script: str) -> list[str]:
    """A line of a trace, the clause that it breaks, and what the bus would have answered."""
    source = Source.of(trace, read_file(trace))
    is_there = refusal.line < len(source.starts) or not source.text.endswith("\n") and source.text != ""
    text = source.line(refusal.line) if is_there else None
    title = "the line is not the one spelling of an entry that fits the description"
    if refusal.kind == "illegal":
        title = f"D{refusal.number}: {verdicts.CLAUSES.get(refusal.number, UNKNOWN.title)}"
    other = exchanged("trace", source.text, "check") if refusal.line == 1 else None
    if other:
        return explained(source, 0, len(source.line(1)), title, *other)
    try:
        plan = plan_of(read_json(read_file(description)).plain())
        said = [*foreign(source.text, plan), *said_of_trace(refusal, source, text, plan, script)]
    except (NotJson, *NOT_THIS_ONE):
        said = ["These are not the files that were checked: one was changed since, or another one was."]
    shown = [f"{trace}:{refusal.line}: {title}"]
    if text is not None:
        start = source.starts[refusal.line - 1]
        shown = [f"{source.where(start)}: {title}", *source.show(start, start + len(text))]
    return shown + [line for sentence in said for line in wrapped(sentence)]


def said_of_trace(refusal: Refusal, source: Source, text: str | None, plan: BusPlan, script: str) -> list[str]:
    """What is said of a line of a trace, or of its end where there is no line."""
    version = source.line(1).removeprefix(HEADER)
    if refusal.kind == "bad":
        ends = refusal.line < len(source.starts)
        return list(verdicts.explain_bad(text, ends, refusal.line, plan, version))
    before = [source.line(number) for number in range(2, refusal.line)]
    reading = verdicts.read_before(plan, version, before)
    line = read_line(refusal.line, text) if text is not None else None
    return list(verdicts.explain_illegal(refusal.number, line, reading, read_file(script)))


def foreign(text: str, plan: BusPlan) -> list[str]:
    """That the trace is perhaps one of another description: most of what acts in it is unknown."""
    known = set(verdicts.actor_names(plan))
    words = dict.fromkeys(line.split(" ", 1)[0].partition("@")[0] for line in text.split("\n")[1:])
    actors = [word for word in words if ":" in word or word.count(".") == 2]
    unknown = [word for word in actors if word not in known]
    if 2 * len(unknown) <= len(actors):
        return []
    names = ", ".join(f"`{name}`" for name in unknown[:MOST_NAMES]) + (", .." if len(unknown) > MOST_NAMES else "")
    return [f"This is perhaps the trace of another description: this one does not have {names}."]


def is_received_by_link(line: str, files: Files) -> bool:
    """Whether the line receives from a linked element."""
    one, two = typed(files.description), typed(files.second)
    word, _, target = line.partition(" ")
    return one is not None and two is not None and word == "receive" and target in links.linked(one, two)


def typed(path: str) -> Description | None:
    """The description of a file, or none where it is not one."""
    try:
        return read_description(path)
    except Unfit:
        return None


def explain_unread(path: str) -> list[str]:
    """Why a file may not have been read."""
    return [f"{path}: {why_unread(path) or 'the file is there now; a read failed, or was interrupted'}"]
