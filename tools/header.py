#!/usr/bin/env python3
"""Writes the C header of a component.

    tools/header.py DESCRIPTION COMPONENT > Rte_COMPONENT.h

It has the data types with their limits, codes, errors and modes as macros, a prototype for each call that the component
may use, as `rte header` lists them, and one for each of its runnables. The listing is the program's where the program
knows the command, and is computed here otherwise; --listing prints it. A listing that is not what is computed here is a
fault of this tool.

The status is 0; that of `rte header` where there is no header; 2 where a file is not read, is not a description, or
names what C has already; 3 where the listings differ.
"""

from __future__ import annotations

import argparse
import os
import subprocess
import sys

from rte_tools.c_header import NoHeader, c_header
from rte_tools.calls import calls_of, clash_of, listing
from rte_tools.files import Unfit, read_description

NO_COMPONENT, CLASH = 8, 9  # statuses of `rte header`


def arguments() -> argparse.Namespace:
    parser = argparse.ArgumentParser(description=__doc__, formatter_class=argparse.RawDescriptionHelpFormatter)
    parser.add_argument("description", help="the description, a JSON file")
    parser.add_argument("component", help="the name of the component")
    parser.add_argument("--listing", action="store_true", help="print the listing alone, as `rte header` does")
    parser.add_argument(
        "--program",
        default=os.environ.get("RTE", ""),
        help="a program whose listing is compared; otherwise the variable RTE names it",
    )
    return parser.parse_args()


def said_by(program: str, words: argparse.Namespace) -> tuple[int, str] | None:
    """The status and text of `header` of the program, or none where there is no program or it has no such command."""
    if not program:
        return None
    done = subprocess.run([program, "header", words.description, words.component], capture_output=True, check=False)
    text = done.stdout.decode("utf-8", errors="replace")
    return None if text == "words refused\n" else (done.returncode, text)


def header(words: argparse.Namespace) -> tuple[int, str]:
    """The status, and what is printed."""
    description = read_description(words.description)
    said = said_by(words.program, words)
    if said and said[0] not in (0, NO_COMPONENT, CLASH):
        return said
    component = description.components.get(words.component)
    calls = calls_of(description, component) if component else []
    name = clash_of(calls)
    if component is None:
        listed = (NO_COMPONENT, "no component\n")
    elif name is not None:
        listed = (CLASH, f"clash {name}\n")
    else:
        listed = (0, "\n".join(listing(component.name, calls)) + "\n")
    if said is not None and said != listed:
        raise Differs
    if component is None or name is not None or words.listing:
        return listed
    return 0, "\n".join(c_header(description, component, calls)) + "\n"


class Differs(Exception):
    """The program's listing is another."""


def main() -> int:
    words = arguments()
    try:
        status, text = header(words)
    except (Unfit, NoHeader, OSError) as error:
        print(f"header.py: {error}", file=sys.stderr)
        return 2
    except Differs:
        print("header.py: the program lists other calls", file=sys.stderr)
        return 3
    sys.stdout.write(text)
    return status


if __name__ == "__main__":
    sys.exit(main())
