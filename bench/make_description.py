#!/usr/bin/env python3
"""Writes a large description to standard output, of nearly the given number of MiB and no more.

    make_description.py MEBIBYTES [BREAK]

It breaks no rule, and has every kind of object, access and statement. At most
1,000 instances of its components stand below the root, since a description may have 1,024. With BREAK the last name of the
file refers to nothing, so that each rule of names is looked at to the end of the file.
"""

import json
import sys

# The compositions of two components each that stand below the root.
PAIRS = 500


def data_type(n):
    return {"shortName": f"Type{n}", "baseType": "sint16", "lower": -1000, "upper": 1000, "words": 1}


def mode_group(n):
    return {"shortName": f"Group{n}", "modes": ["Off", "Idle", "On"], "initialMode": "Idle"}


def interfaces(n):
    elements = [
        {"shortName": f"element{i}", "type": f"Type{n}", "swImplPolicy": ["standard", "queued"][i % 2]} for i in range(4)
    ]
    operations = [
        {
            "shortName": f"operation{i}",
            "arguments": [
                {"shortName": "given", "type": f"Type{n}", "direction": "in"},
                {"shortName": "taken", "type": f"Type{n}", "direction": "out"},
            ],
            "errors": [{"shortName": "Busy", "code": 1}, {"shortName": "Broken", "code": 2}],
        }
        for i in range(2)
    ]
    return [
        {"kind": "SenderReceiverInterface", "shortName": f"Data{n}", "dataElements": elements},
        {"kind": "ClientServerInterface", "shortName": f"Calls{n}", "operations": operations},
        {"kind": "ModeSwitchInterface", "shortName": f"Modes{n}", "modeGroup": {"shortName": "state", "type": f"Group{n}"}},
    ]


def ports(n):
    return [
        {
            "kind": "PPortPrototype",
            "shortName": "out",
            "interface": f"Data{n}",
            "comSpecs": [{"element": "element0", "initValue": [0]}],
        },
        {
            "kind": "RPortPrototype",
            "shortName": "in",
            "interface": f"Data{n}",
            "comSpecs": [{"element": "element0", "handleNeverReceived": True}, {"element": "element1", "queueLength": 8}],
        },
        {"kind": "RPortPrototype", "shortName": "calls", "interface": f"Calls{n}"},
        {"kind": "PPortPrototype", "shortName": "serves", "interface": f"Calls{n}"},
        {"kind": "RPortPrototype", "shortName": "modes", "interface": f"Modes{n}"},
        {"kind": "PPortPrototype", "shortName": "switches", "interface": f"Modes{n}"},
    ]


ACCESSES = [
    ["write", "out", "element0"],
    ["invalidate", "out", "element0"],
    ["iwrite", "out", "element2"],
    ["read", "in", "element0"],
    ["isUpdated", "in", "element0"],
    ["iread", "in", "element2"],
    ["send", "out", "element1"],
    ["receive", "in", "element1"],
    ["call", "calls", "operation0"],
    ["acall", "calls", "operation1"],
    ["result", "calls", "operation1"],
    ["irvWrite", "sum"],
    ["irvRead", "sum"],
    ["irvIWrite", "last"],
    ["irvIRead", "last"],
    ["switch", "switches"],
    ["mode", "modes"],
    ["enter", "guard"],
]

STATEMENTS = [
    ["write", "out", "element0", [["add", "x", 1]], "s"],
    ["invalidate", "out", "element0", "s"],
    ["read", "in", "element0", ["x"], "s"],
    ["isUpdated", "in", "element0", "u"],
    ["send", "out", "element1", [["mul", ["sub", "x", 1], 2]], "s"],
    ["receive", "in", "element1", ["x"], "s"],
    ["iwrite", "out", "element2", ["x"]],
    ["iread", "in", "element2", ["x"]],
    ["irvWrite", "sum", ["x"]],
    ["irvRead", "sum", ["x"]],
    ["irvIWrite", "last", ["x"]],
    ["irvIRead", "last", ["x"]],
    ["call", "calls", "operation0", [1], ["x"], "s"],
    ["acall", "calls", "operation1", [1], "s"],
    ["result", "calls", "operation1", ["x"], "s"],
    ["switch", "switches", "On", "s"],
    ["mode", "modes", "m"],
]


# An operation that is called without waiting is called by one runnable only.
ONCE = ["acall", "result"]

# What no area may hold.
CALLS = ["call", "acall"]


def program(statements):
    nested = [one for one in statements if one[0] not in CALLS]
    for depth in range(3):
        nested = [["if", ["lt", "x", depth], nested[:9], nested[9:]], ["set", "y", ["div", "x", 2]]]
    return [["set", "x", 1], ["area", "guard", [["repeat", 10, nested]]]] + statements


def runnable(n):
    accesses = [one for one in ACCESSES if n == 0 or one[0] not in ONCE]
    statements = [one for one in STATEMENTS if n == 0 or one[0] not in ONCE]
    return {"shortName": f"Run{n}", "accesses": accesses, "program": program(statements)}


def component(n):
    runnables = [runnable(i) for i in range(2)]
    runnables += [{"shortName": f"Serve{i}", "canBeInvokedConcurrently": True} for i in range(2)]
    off = {"port": "modes", "modes": ["Off"]}
    events = [
        {"kind": "TimingEvent", "shortName": "Tick", "runnable": "Run0", "period": 10, "disabledInModes": off},
        {"kind": "InitEvent", "shortName": "Start", "runnable": "Run0"},
        {"kind": "DataReceivedEvent", "shortName": "Got", "runnable": "Run1", "port": "in", "element": "element1"},
        {
            "kind": "AsynchronousServerCallReturnsEvent",
            "shortName": "Back",
            "runnable": "Run1",
            "port": "calls",
            "operation": "operation1",
        },
        {
            "kind": "SwcModeSwitchEvent",
            "shortName": "Shift",
            "runnable": "Run1",
            "port": "modes",
            "activation": "onTransition",
            "modes": ["Off", "On"],
        },
        {"kind": "ModeSwitchedAckEvent", "shortName": "Shifted", "runnable": "Run1", "port": "switches"},
    ]
    events += [
        {
            "kind": "OperationInvokedEvent",
            "shortName": f"Asked{i}",
            "runnable": f"Serve{i}",
            "port": "serves",
            "operation": f"operation{i}",
        }
        for i in range(2)
    ]
    return {
        "shortName": f"Component{n}",
        "ports": ports(n),
        "behavior": {
            "exclusiveAreas": ["guard", "other"],
            "variables": [{"shortName": "sum", "type": f"Type{n}", "initValue": [1]}, {"shortName": "last", "type": f"Type{n}"}],
            "runnables": runnables,
            "events": events,
        },
    }


def composition(n):
    return {
        "shortName": f"Composition{n}",
        "ports": [{"kind": "PPortPrototype", "shortName": "outer", "interface": f"Data{n}"}],
        "prototypes": [{"shortName": "first", "type": f"Component{n}"}, {"shortName": "second", "type": f"Component{n}"}],
        "connectors": [
            {"kind": "AssemblySwConnector", "provider": ["first", "out"], "requester": ["second", "in"]},
            {"kind": "AssemblySwConnector", "provider": ["first", "serves"], "requester": ["second", "calls"]},
            {"kind": "AssemblySwConnector", "provider": ["first", "switches"], "requester": ["second", "modes"]},
            {"kind": "AssemblySwConnector", "provider": ["second", "switches"], "requester": ["first", "modes"]},
            {"kind": "DelegationSwConnector", "inner": ["second", "out"], "outer": "outer"},
        ],
    }


# The events that are mapped; the servers are direct.
MAPPED = ["Tick", "Start", "Got", "Back", "Shift", "Shifted"]


def mapped(n):
    return [
        {
            "instance": f"c{n}/{name}",
            "event": event,
            "task": f"Task{n % 256}",
            "position": (n // 256 * 2 + number) * len(MAPPED) + place,
        }
        for number, name in enumerate(["first", "second"])
        for place, event in enumerate(MAPPED)
    ]


def description(count):
    numbers = range(count)
    used = numbers[:PAIRS]
    top = {"shortName": "Top", "prototypes": [{"shortName": f"c{n}", "type": f"Composition{n}"} for n in used]}
    return {
        "dataTypes": [data_type(n) for n in numbers],
        "modeGroups": [mode_group(n) for n in numbers],
        "interfaces": [one for n in numbers for one in interfaces(n)],
        "components": [component(n) for n in numbers],
        "compositions": [top] + [composition(n) for n in numbers],
        "root": "Top",
        "mapping": {
            "cores": 4,
            "tasks": [{"shortName": f"Task{n}", "core": n % 4} for n in range(256)],
            "events": [one for n in used for one in mapped(n)],
        },
    }


def text(count, broken):
    whole = description(count)
    if broken:
        whole["mapping"]["events"][-1]["task"] = "Nowhere"
    return json.dumps(whole, separators=(",", ":"))


def count_within(wanted, broken):
    """How many parts of each kind have at most so many bytes."""
    few, many = len(text(10, broken)), len(text(110, broken))
    count = 10 + (wanted - few) * 100 // (many - few)
    while len(text(count, broken)) > wanted:
        count -= 1
    return count


def main():
    wanted = int(float(sys.argv[1]) * 1048576)
    broken = len(sys.argv) > 2
    sys.stdout.write(text(count_within(wanted, broken), broken))


if __name__ == "__main__":
    main()
