#!/usr/bin/env python3
"""Makes a description of ARXML files of release 4: software components and an ECU configuration.

    tools/arxml.py FILE.. -o DESCRIPTION [--root COMPOSITION]

Software components become types, interfaces, ports, behaviours and compositions. Each program is a skeleton, which makes
each access of its runnable once: read all, call all, write all. An ECU configuration (modules Os, Rte, EcuC) becomes
the mapping. Without a composition the output is `{"mapping":..}` alone; with components alone, a root is made of
them. docs/AUTOSAR.md says what each element becomes.

Beside the output, in place of its last ending, two files are written, with tabs between their fields:

    .names.tsv    the names that differ: one of more than 32 bytes is its beginning and a hash of it
    .report.tsv   what was left out, changed or added, each with its ARXML path and why

The root is COMPOSITION, a short name or a path; else that of the ROOT-SW-COMPOSITION-PROTOTYPE; else the first composition
that no other holds.

The status is
  0  the description was made, and the report is empty
  1  it was made, and something was left out, changed or added
  2  the words are none of the form above
  3  a file was not read, is not ARXML of release 4, or there is nothing in it that could be described
  4  the output was not written
"""

from __future__ import annotations

import argparse
import sys
from pathlib import Path

from rte_tools.arxml_import import Imported, Nothing, imported
from rte_tools.arxml_tree import NotArxml
from rte_tools.ending import told
from rte_tools.files import read_schema
from rte_tools.layout import laid_out


def say(text: str) -> None:
    print(f"arxml.py: {text}", file=sys.stderr)


def check_shape(made: Imported) -> None:
    """Says so, should the description break rule 2 or 3: the importer is to prevent that."""
    shape = read_schema()
    value, schema = (made.value, None) if made.is_whole else (made.value["mapping"], shape.schema["$defs"]["mapping"])
    for fault in shape.faults(value, schema):
        made.report.added(fault.place or "/", f"this breaks rule 2 or 3: {fault.message}")


def write(made: Imported, output: Path) -> None:
    """Raises OSError, also of a device, since nothing can stand beside it."""
    if output.exists() and not output.is_file():
        raise OSError(f"{output} is no file, and two more are written beside the output")
    output.write_text(laid_out(made.value) + "\n", encoding="utf-8")
    output.with_suffix(".names.tsv").write_text(made.table, encoding="utf-8")
    output.with_suffix(".report.tsv").write_text(made.report.text(), encoding="utf-8")


def summarize(made: Imported, output: Path) -> None:
    report = made.report
    if not made.is_whole:
        say("there is no composition and no component, so the mapping alone was made")
    if report.notes:
        kinds = ", ".join(f"{report.number(kind)} {kind}" for kind in ("left out", "changed", "added"))
        say(f"{kinds}: see {output.with_suffix('.report.tsv')}")
    renamed = made.table.count("\n") - 1
    if renamed:
        say(f"{renamed} names differ: see {output.with_suffix('.names.tsv')}")


def main() -> int:
    parser = argparse.ArgumentParser(description=__doc__, formatter_class=argparse.RawDescriptionHelpFormatter)
    parser.add_argument("files", nargs="+", metavar="FILE", help="ARXML files, which are read as one")
    parser.add_argument("-o", "--output", required=True, metavar="DESCRIPTION", help="the description, a JSON file")
    parser.add_argument("--root", default="", metavar="COMPOSITION", help="the composition that is run")
    words = parser.parse_args()
    try:
        made = imported(words.files, words.root)
    except (NotArxml, Nothing, OSError) as error:
        say(told(error))
        return 3
    check_shape(made)
    try:
        write(made, Path(words.output))
    except OSError as error:
        say(told(error))
        return 4
    summarize(made, Path(words.output))
    return 1 if made.report.notes else 0


if __name__ == "__main__":
    sys.exit(main())
