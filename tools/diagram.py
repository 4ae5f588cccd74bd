#!/usr/bin/env python3
"""Draws the compositions of a description as a Mermaid flowchart, or as a graph for Graphviz.

    tools/diagram.py DESCRIPTION > diagram.mmd
    tools/diagram.py --to dot DESCRIPTION | dot -Tsvg > diagram.svg

Many places that show Markdown draw Mermaid from a block of code that is marked `mermaid`; --markdown prints such a
block. Graphviz is a package of most systems, and its command is dot. A box is an instance of a component, a frame a
composition, and a round box one of its outer ports. An arrow leads from the port that provides to the one that requires.

The status is 0, or 2 if the file is not read or is not a description, or the words do not fit.
"""

from __future__ import annotations

import argparse

from rte_tools.dot import Graph
from rte_tools.ending import end_with
from rte_tools.files import read_description
from rte_tools.mermaid import Flowchart

FORMS = {"mermaid": Flowchart, "dot": Graph}


def work() -> int:
    parser = argparse.ArgumentParser(description=__doc__, formatter_class=argparse.RawDescriptionHelpFormatter)
    parser.add_argument("description", help="the description, a JSON file")
    parser.add_argument("--to", choices=FORMS, default="mermaid", help="the form; mermaid without it")
    parser.add_argument("--markdown", action="store_true", help="print Mermaid as a block of code for Markdown")
    words = parser.parse_args()
    if words.markdown and words.to != "mermaid":
        parser.error("--markdown is for mermaid alone")
    lines = FORMS[words.to](read_description(words.description)).lines()
    print("\n".join(["```mermaid", *lines, "```"] if words.markdown else lines))
    return 0


if __name__ == "__main__":
    end_with("diagram.py", work)
