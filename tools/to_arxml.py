#!/usr/bin/env python3
"""Writes a description as ARXML of release 4: software components, a system and an ECU configuration.

    tools/to_arxml.py DESCRIPTION -o OUTPUT

The description should break no rule (tools/explain.py). Programs are code, which ARXML does not have, and are left out;
tools/arxml.py makes skeletons in their place when it reads the file. What else ARXML does not say as the description
does is told on standard error.

The status is
  0  the file was written, and says all but the programs
  1  it was written, and something is said otherwise
  2  the words are none of the form above
  3  the description was not read, or is none
  4  the output was not written
"""

from __future__ import annotations

import argparse
import sys

from rte_tools.arxml_write_system import exported
from rte_tools.ending import told
from rte_tools.files import Unfit, read_value


def say(text: str) -> None:
    print(f"to_arxml.py: {text}", file=sys.stderr)


def main() -> int:
    parser = argparse.ArgumentParser(description=__doc__, formatter_class=argparse.RawDescriptionHelpFormatter)
    parser.add_argument("description", metavar="DESCRIPTION", help="the description, a JSON file")
    parser.add_argument("-o", "--output", required=True, metavar="OUTPUT", help="the ARXML file")
    words = parser.parse_args()
    try:
        text, notes = exported(read_value(words.description))
    except Unfit as error:
        say(str(error))
        return 3
    except KeyError as error:
        say(f"{words.description} breaks a rule: there is no `{error.args[0]}` where one is needed; tools/explain.py says where")
        return 3
    try:
        with open(words.output, "w", encoding="utf-8") as file:
            file.write(text)
    except OSError as error:
        say(told(error))
        return 4
    for note in notes:
        say(note)
    return 1 if notes else 0


if __name__ == "__main__":
    sys.exit(main())
