#!/usr/bin/env python3
"""Writes a description to standard output in which one component has many accesses.

    bench/make_accesses.py [RUNNABLES]

The component `Many` has a port of 600 elements and 60 runnables, if no number is given, that each write all elements: 36,000 accesses.
`./rte header FILE Many` lists as many calls.
"""

from __future__ import annotations

import json
import sys

ELEMENTS = [f"e{number}" for number in range(600)]


def described(runnables: int) -> dict:
    """The description, whose root is an empty composition."""
    elements = [{"shortName": name, "type": "T", "swImplPolicy": "standard"} for name in ELEMENTS]
    accesses = [["iwrite", "p", name] for name in ELEMENTS]
    return {
        "dataTypes": [{"shortName": "T", "baseType": "uint8", "lower": 0, "upper": 9, "words": 1}],
        "interfaces": [{"kind": "SenderReceiverInterface", "shortName": "I", "dataElements": elements}],
        "components": [
            {
                "shortName": "Many",
                "ports": [{"kind": "PPortPrototype", "shortName": "p", "interface": "I"}],
                "behavior": {
                    "runnables": [{"shortName": f"R{number}", "accesses": accesses} for number in range(runnables)]
                },
            }
        ],
        "compositions": [{"shortName": "Top"}],
        "root": "Top",
        "mapping": {"cores": 1},
    }


def main() -> int:
    if sys.argv[1:] in (["-h"], ["--help"]):
        print(__doc__)
        return 0
    if len(sys.argv) > 2 or not all(word.isdecimal() for word in sys.argv[1:]):
        print("usage: bench/make_accesses.py [RUNNABLES]", file=sys.stderr)
        return 2
    runnables = int(sys.argv[1]) if sys.argv[1:] else 60
    print(json.dumps(described(runnables), separators=(",", ":")))
    return 0


if __name__ == "__main__":
    sys.exit(main())
