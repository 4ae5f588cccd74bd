#!/usr/bin/env python3
"""Writes a description to standard output that has a large plan.

    bench/make_joins.py [INSTANCES [ELEMENTS]]

One instance provides an interface of ELEMENTS data elements, and all others require it: 1,024 instances and 59 elements if
none are given, which are 60,357 joins. Each instance that requires has an event, and 256 tasks share these.
"""

from __future__ import annotations

import json
import sys

TASKS = 256
CORES = 8


def interface(elements: int) -> dict:
    names = [f"e{number}" for number in range(elements)]
    return {
        "kind": "SenderReceiverInterface",
        "shortName": "I",
        "dataElements": [{"shortName": name, "type": "T", "swImplPolicy": "standard"} for name in names],
    }


def components() -> list[dict]:
    return [
        {"shortName": "P", "ports": [{"kind": "PPortPrototype", "shortName": "out", "interface": "I"}], "behavior": {}},
        {
            "shortName": "R",
            "ports": [{"kind": "RPortPrototype", "shortName": "in", "interface": "I"}],
            "behavior": {
                "runnables": [{"shortName": "Go"}],
                "events": [{"kind": "TimingEvent", "shortName": "E", "runnable": "Go", "period": 10}],
            },
        },
    ]


def root(readers: list[str]) -> dict:
    return {
        "shortName": "Top",
        "prototypes": [{"shortName": "p", "type": "P"}] + [{"shortName": name, "type": "R"} for name in readers],
        "connectors": [
            {"kind": "AssemblySwConnector", "provider": ["p", "out"], "requester": [name, "in"]} for name in readers
        ],
    }


def mapping(readers: list[str]) -> dict:
    return {
        "cores": CORES,
        "tasks": [{"shortName": f"T{number}", "core": number % CORES} for number in range(TASKS)],
        "events": [
            {"instance": name, "event": "E", "task": f"T{number % TASKS}", "position": len(readers) - number}
            for number, name in enumerate(readers)
        ],
    }


def description(instances: int, elements: int) -> dict:
    readers = [f"r{number}" for number in range(instances - 1)]
    return {
        "dataTypes": [{"shortName": "T", "baseType": "uint8", "lower": 0, "upper": 9, "words": 1}],
        "interfaces": [interface(elements)],
        "components": components(),
        "compositions": [root(readers)],
        "root": "Top",
        "mapping": mapping(readers),
    }


def main() -> None:
    numbers = [int(word) for word in sys.argv[1:3]] + [1024, 59][len(sys.argv[1:3]) :]
    json.dump(description(*numbers), sys.stdout, separators=(",", ":"))
    print()


if __name__ == "__main__":
    main()
