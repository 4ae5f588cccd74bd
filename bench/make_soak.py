#!/usr/bin/env python3
"""Writes what `soak N` makes into a folder: description.json and script.txt.

    make_soak.py PAIRS FOLDER

It is written apart from the program, so that what the program makes can be compared with it: `run` of the two files closes each
run line with `idle`, and the numbers of the trace are those that `soak PAIRS` puts.
"""

import json
import pathlib
import sys

TYPES = [
    {"shortName": "Pay", "baseType": "uint32", "lower": 0, "upper": 1000000, "words": 4},
    {"shortName": "Num", "baseType": "uint32", "lower": 0, "upper": 1000000, "words": 1},
]

INTERFACES = [
    {
        "kind": "SenderReceiverInterface",
        "shortName": "Q",
        "dataElements": [{"shortName": "d", "type": "Pay", "swImplPolicy": "queued"}],
    },
    {
        "kind": "ClientServerInterface",
        "shortName": "S",
        "operations": [
            {
                "shortName": "add",
                "arguments": [
                    {"shortName": "x", "type": "Num", "direction": "in"},
                    {"shortName": "t", "type": "Num", "direction": "out"},
                ],
            }
        ],
    },
]

PRODUCER = {
    "shortName": "Prod",
    "ports": [
        {"kind": "PPortPrototype", "shortName": "q", "interface": "Q"},
        {"kind": "RPortPrototype", "shortName": "s", "interface": "S"},
    ],
    "behavior": {
        "variables": [{"shortName": "n", "type": "Num"}],
        "runnables": [
            {
                "shortName": "Make",
                "accesses": [["irvRead", "n"], ["send", "q", "d"], ["irvWrite", "n"], ["call", "s", "add"]],
                "program": [
                    ["irvRead", "n", ["k"]],
                    ["repeat", 4, [["set", "k", ["add", "k", 1]], ["send", "q", "d", ["k", "k", "k", "k"], "e"]]],
                    ["irvWrite", "n", ["k"]],
                    ["call", "s", "add", ["k"], ["t"], "e"],
                ],
            }
        ],
        "events": [{"kind": "TimingEvent", "shortName": "Ev", "runnable": "Make", "period": 10}],
    },
}

CONSUMER = {
    "shortName": "Cons",
    "ports": [
        {"kind": "RPortPrototype", "shortName": "q", "interface": "Q", "comSpecs": [{"element": "d", "queueLength": 8}]}
    ],
    "behavior": {
        "exclusiveAreas": ["a"],
        "variables": [{"shortName": "m", "type": "Num"}],
        "runnables": [
            {
                "shortName": "Take",
                "accesses": [["enter", "a"], ["receive", "q", "d"], ["irvRead", "m"], ["irvWrite", "m"]],
                "program": [
                    [
                        "area",
                        "a",
                        [
                            [
                                "repeat",
                                8,
                                [
                                    ["receive", "q", "d", ["w", "x", "y", "z"], "e"],
                                    [
                                        "if",
                                        ["eq", "e", 131],
                                        [],
                                        [["irvRead", "m", ["c"]], ["irvWrite", "m", [["add", "c", 1]]]],
                                    ],
                                ],
                            ]
                        ],
                    ]
                ],
            }
        ],
        "events": [
            {"kind": "DataReceivedEvent", "shortName": "Ev", "runnable": "Take", "port": "q", "element": "d"}
        ],
    },
}

SERVER = {
    "shortName": "Acc",
    "ports": [
        {
            "kind": "PPortPrototype",
            "shortName": "s",
            "interface": "S",
            "comSpecs": [{"element": "add", "queueLength": 64}],
        }
    ],
    "behavior": {
        "variables": [{"shortName": "sum", "type": "Num"}],
        "runnables": [
            {
                "shortName": "Add",
                "accesses": [["irvRead", "sum"], ["irvWrite", "sum"]],
                "program": [
                    ["irvRead", "sum", ["t"]],
                    ["set", "t", ["add", "t", "x"]],
                    ["irvWrite", "sum", ["t"]],
                ],
            }
        ],
        "events": [
            {"kind": "OperationInvokedEvent", "shortName": "Ev", "runnable": "Add", "port": "s", "operation": "add"}
        ],
    },
}


def assembly(provider, requester, port):
    return {"kind": "AssemblySwConnector", "provider": [provider, port], "requester": [requester, port]}


def mapped(instance, task, position):
    return {"instance": instance, "event": "Ev", "task": task, "position": position}


def description(pairs):
    numbers = range(pairs)
    prototypes = [{"shortName": f"p{i}", "type": "Prod"} for i in numbers]
    prototypes += [{"shortName": f"c{i}", "type": "Cons"} for i in numbers]
    prototypes += [{"shortName": "acc", "type": "Acc"}]
    connectors = [assembly(f"p{i}", f"c{i}", "q") for i in numbers]
    connectors += [assembly("acc", f"p{i}", "s") for i in numbers]
    tasks = [{"shortName": f"{letter}{core}", "core": core} for letter in "PC" for core in range(4)]
    tasks += [{"shortName": "A", "core": 0}]
    events = [mapped(f"p{i}", f"P{i % 4}", i) for i in numbers]
    events += [mapped(f"c{i}", f"C{(i + 1) % 4}", i) for i in numbers]
    events += [mapped("acc", "A", 0)]
    return {
        "dataTypes": TYPES,
        "interfaces": INTERFACES,
        "components": [PRODUCER, CONSUMER, SERVER],
        "compositions": [{"shortName": "Top", "prototypes": prototypes, "connectors": connectors}],
        "root": "Top",
        "mapping": {"cores": 4, "tasks": tasks, "events": events},
    }


def main():
    if len(sys.argv) != 3 or not sys.argv[1].isdigit():
        sys.exit(__doc__)
    folder = pathlib.Path(sys.argv[2])
    folder.mkdir(parents=True, exist_ok=True)
    (folder / "description.json").write_text(json.dumps(description(int(sys.argv[1])), indent=1) + "\n")
    (folder / "script.txt").write_text("tick 10\nrun\n" * 20)


if __name__ == "__main__":
    main()
