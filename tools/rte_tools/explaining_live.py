"""What a refusal of a live node means: a line of the stimuli, too many cores, or a line of its text that may not come there."""

from __future__ import annotations

from typing import Iterator

from rte_tools import reference, scripts, verdicts
from rte_tools.bus import ENVIRONMENT
from rte_tools.bus_plan import BusPlan, plan_of
from rte_tools.description import Description
from rte_tools.files import read_file
from rte_tools.hints import NOT_THIS_ONE
from rte_tools.live import LiveCheck
from rte_tools.located import NotJson, read_json
from rte_tools.refusal import Refusal
from rte_tools.script_forms import Remark
from rte_tools.showing import explained, wrapped
from rte_tools.source import Source
from rte_tools.stimuli import STOP, count_of, feeds_of, is_of_feed, is_silent, lines_of, next_of
from rte_tools.trace import FEEDS, LIVE, RUN, STOPPED, read_live_line

CROWDED = "too many cores: a live node has at most 7, since the environment takes a part in its round too"
MEND_CROWDED = "map all tasks to 7 cores, 0 to 6, and give `cores` so; or run the node by a script."
TITLES = {1: "the line has none of the forms", 4: "the line is the one that passes 100,000 lines, or 65,536 wishes of all feeds"}
MENDS = {
    1: "write the number of a feed, from 0 to 3, one space and a line of a script but `run`, for instance `0 tick 10`; the last line is `stop`.",
    4: "take fewer lines or ticks; each tick of `tick N` is a wish.",
}
ANOTHER = "These are not the files that were read: one was changed since, or another one was."


# ---- the description


def explain_crowded(description: str) -> list[str]:
    """The number of cores in the description."""
    source = Source.of(description, read_file(description))
    node = read_json(source.text).at("/mapping/cores")
    return explained(source, node.start, node.end, CROWDED, [], MEND_CROWDED)


# ---- stimuli


def explain_stimulus(refusal: Refusal, source: Source, cause: reference.Entry, description: Description | None) -> list[str]:
    """A line of stimuli, its cause and what is said of it. Behind the feed stands a line of a script."""
    lines = lines_of(source.text)
    title = f"cause {refusal.number}: {TITLES.get(refusal.number) or f'the line {cause.title}'}"
    if refusal.line > len(lines):
        said = f"No line is `{STOP}`." if STOP not in lines else ANOTHER
        return [f"{source.path}:{refusal.line}: {title}", *wrapped(said), *wrapped(f"Mend: end the stimuli with a line `{STOP}`.")]
    line, start = lines[refusal.line - 1], source.starts[refusal.line - 1]
    remark = remark_of(refusal, lines, source.path, description)
    said = [remark.text] if remark.text else []
    return explained(source, start + remark.start, start + remark.end, title, said, MENDS.get(refusal.number, cause.mend))


def remark_of(refusal: Refusal, lines: list[str], path: str, description: Description | None) -> Remark:
    """What is to be said of a line that is there."""
    line = lines[refusal.line - 1]
    if STOP in lines[: refusal.line - 1]:
        return Remark(0, len(line), f"It stands behind `{STOP}`, which is the last line: take it out.")
    if refusal.number == 4:
        wishes = sum(map(count_of, lines[: refusal.line]))
        return Remark(0, len(line), f"Line {refusal.line:,}: up to here the feeds have {wishes:,} wishes.")
    if not is_of_feed(line):
        feed = f"`{line[0]}` is no feed. " if line[:1].isdigit() and line[:1] not in FEEDS else ""
        return Remark(0, len(line.split(" ")[0]), f"{feed}A line begins with the number of a feed, from 0 to 3, and one space: `0 tick 10`.")
    said = line[2:]
    if said == RUN:
        return Remark(2, len(line), "There are no run lines here: cores make turns all the time, and one run line comes behind the stimuli.")
    if is_silent(said):
        return Remark(2, len(line), "An empty line and a comment stand without a feed.")
    remark = scripts.remark(refusal.number, said, path, reference.read_format(), description)
    return Remark(remark.start + 2, remark.end + 2, remark.text)


# ---- the text


def explain_text(refusal: Refusal, description: str, trace: str, stimuli: str) -> list[str]:
    """A line of a live text, what it breaks, and what would be right there."""
    source = Source.of(trace, read_file(trace))
    texts = source.text.split("\n")
    text = texts[refusal.line - 1] if refusal.line < len(texts) or texts[-1] else None
    title = "the line is not the one spelling of an entry that fits the description"
    if refusal.kind == "illegal":
        title = f"D{refusal.number}: {verdicts.CLAUSES[refusal.number]}"
    if refusal.number == 16:
        title = "D16: this is not the next call of the feed, or it stands on the wrong side of `stopped` or of a run mark"
    try:
        plan = plan_of(read_json(read_file(description)).plain())
        said = list(said_of_text(refusal, source.text, text, plan, read_file(stimuli)))
    except (NotJson, *NOT_THIS_ONE):
        said = [ANOTHER]
    shown = [f"{trace}:{refusal.line}: {title}"]
    if text is not None:
        start = source.starts[refusal.line - 1]
        shown = [f"{source.where(start)}: {title}", *source.show(start, start + len(text))]
    return shown + [line for sentence in said for line in wrapped(sentence)]


def said_of_text(refusal: Refusal, whole: str, text: str | None, plan: BusPlan, stimuli: str) -> Iterator[str]:
    """Sentences on a refused line; without a line the text ends too early."""
    if refusal.kind == "bad":
        yield from said_of_bad(refusal.line, text, whole.endswith("\n"), plan)
        return
    check = LiveCheck(plan, feeds_of(stimuli))
    check.whole(whole)
    line = read_live_line(refusal.line, text) if text is not None else None
    if refusal.number != 16:
        yield from verdicts.explain_illegal(refusal.number, line, check, stimuli)
        return
    if line is None:
        yield "The text ends here, and its run line is not closed." if check.inside else "The text ends here."
    elif line.text == STOPPED or line.feed:
        yield from next_of(check.feeds, check.places, lines_of(stimuli))
    elif not check.inside:
        yield f"Between `{STOPPED}` and `{RUN}` stands nothing, and behind the closing word neither."


def said_of_bad(number: int, text: str | None, ends: bool, plan: BusPlan) -> Iterator[str]:
    line = read_live_line(number, text or "")
    if number == 1:
        yield f"The first line is `{LIVE}`."
    elif line.actor == ENVIRONMENT and not line.feed:
        yield "Before a call of the environment stands the number of its feed, from 0 to 3, and one space."
    elif line.feed and line.actor != ENVIRONMENT:
        yield "A feed stands before calls of the environment alone."
    else:
        yield from verdicts.explain_bad(text and line.text, ends, number, plan)
