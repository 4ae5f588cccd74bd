#!/usr/bin/env python3
"""Draws a trace as a page or a picture, or writes it in another format.

    ./rte run DESCRIPTION SCRIPT > trace.txt
    tools/timeline.py DESCRIPTION trace.txt > trace.html
    ./rte pair DESCRIPTION SECOND SCRIPT > traces.txt
    tools/timeline.py --second SECOND DESCRIPTION traces.txt > traces.html
    ./rte live DESCRIPTION < STIMULI > text.txt
    tools/timeline.py DESCRIPTION text.txt > text.html

The page is static HTML. It has lanes for the tasks of each core, for modes, queues and values. Activations are bars,
and calls are marks; arrows show what led to what. From left to right is the order of the lines in the trace, not time.
TRACE may be -, which is standard input.

With --second the text is that of two nodes, as `pair` prints it. The page has the lanes of both, and arrows for what goes over the link.
The text of a live node is known by its first line: each of its feeds has a lane.

The other formats, those of other tools with line numbers of the trace in place of time:
  svg       one picture, for a report: in rows of a page's width, or at a glance from 300 columns on
  btf       BTF 2.2, for tools on traces of AUTOSAR systems
  vcd       Value Change Dump, for viewers of waves; with --output also a save file of GTKWave, FILE.gtkw
  perfetto  a JSON file for ui.perfetto.dev

The status is 0. It is 2 if a file is not read, is not a description or not a trace, or is the trace of another
description, and if the lines or run lines are not there. It is 4 if the output is not read to its end.
"""

from __future__ import annotations

import argparse
import gc
import re
import sys
from pathlib import Path
from typing import Callable

from rte_tools.btf import btf
from rte_tools.description import Description
from rte_tools.ending import end_with
from rte_tools.files import Unfit, read_description, read_trace_of
from rte_tools.foreign import foreign
from rte_tools.page import page
from rte_tools.perfetto import perfetto
from rte_tools.replay import Replay, replay
from rte_tools.report import report
from rte_tools.two_nodes import pair_page, read_sides
from rte_tools.vcd import save_file, vcd

EXPORTS: dict[str, Callable[[Description, Replay], str]] = {"btf": btf, "vcd": vcd, "perfetto": perfetto}


def arguments() -> argparse.Namespace:
    parser = argparse.ArgumentParser(description=__doc__, formatter_class=argparse.RawDescriptionHelpFormatter)
    parser.add_argument("description", help="the description, a JSON file")
    parser.add_argument("trace", help="the trace that the program printed; - is standard input")
    parser.add_argument("--second", metavar="DESCRIPTION", help="the description of the second of two nodes")
    parser.add_argument("--to", choices=["html", "svg", *EXPORTS], default="html", help="the format; html without it")
    part = parser.add_mutually_exclusive_group()
    part.add_argument("--lines", metavar="A-B", help="only these lines of the trace, counted from 1")
    part.add_argument("--runs", metavar="A-B", help="only these run lines, counted from 1; A alone is one of them")
    parser.add_argument("--output", metavar="FILE", help="where to write; standard output without it")
    words = parser.parse_args()
    if words.second and (words.to != "html" or words.runs):
        parser.error("--second draws a page of all lines, or of --lines A-B")
    return words


def chosen(whole: Replay, lines: str | None, runs: str | None) -> Replay:
    """The part of the trace that was asked for."""
    if lines is not None:
        first, last = between("--lines", lines)
        if first > last or last < whole.first or first > whole.last:
            raise Unfit(f"--lines {lines}: the trace has the lines {whole.first} to {whole.last}")
        return whole.window(first, last)
    if runs is not None:
        first, last = between("--runs", f"{runs}-{runs}" if runs.isdecimal() else runs)
        held = whole.runs[max(0, first - 1) : last]
        if not held or first > last:
            there = f"the run lines 1 to {len(whole.runs)}" if whole.runs else "no run line"
            raise Unfit(f"--runs {runs}: the trace has {there}")
        return whole.window(held[0].first, held[-1].last or whole.last)
    return whole


def between(option: str, words: str) -> tuple[int, int]:
    """The two numbers of an option."""
    found = re.fullmatch(r"(\d+)-(\d+)", words)
    if not found:
        raise Unfit(f"{option} {words}: it is written as A-B with two numbers, for instance {option} 10-40")
    return int(found[1]), int(found[2])


def draw_pair(words: argparse.Namespace) -> str:
    one, two = read_sides(words.trace, read_description(words.description), read_description(words.second))
    for side, path in ((one, words.description), (two, words.second)):
        if found := foreign(side.description, side.trace):
            raise Unfit(f"the lines of node {side.node}in {words.trace} are not a trace of {path}: {found}")
    return pair_page(words.trace, one, two, between("--lines", words.lines) if words.lines else None)


def draw(words: argparse.Namespace) -> str:
    if words.second:
        return draw_pair(words)
    description = read_description(words.description)
    trace = read_trace_of(words.trace)
    if found := foreign(description, trace):
        raise Unfit(f"{words.trace} is not a trace of {words.description}: {found}")
    part = chosen(replay(description, trace), words.lines, words.runs)
    if words.to == "vcd" and words.output:
        write_save_file(words.output, description, part)
    if words.to in EXPORTS:
        return EXPORTS[words.to](description, part)
    name = words.description if words.trace == "-" else words.trace
    return (report if words.to == "svg" else page)(name, trace.version, description, part)


def write_save_file(output: str, description: Description, part: Replay) -> None:
    """What GTKWave opens shows all signals in order, beside the dump and named like it."""
    dump = Path(output)
    dump.with_suffix(".gtkw").write_text(save_file(description, part, dump.name), encoding="utf-8")


def work() -> int:
    words = arguments()
    gc.disable()  # all that is made is kept to the end, and looking for what is not takes a third of the time
    drawn = draw(words)
    if words.output:
        with open(words.output, "w", encoding="utf-8") as file:
            file.write(drawn)
    else:
        sys.stdout.write(drawn)
    return 0


if __name__ == "__main__":
    end_with("timeline.py", work)
