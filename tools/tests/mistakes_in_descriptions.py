"""Mistakes in descriptions, by what a newcomer did wrong."""

from __future__ import annotations

import json

from mistakes import Mistake, not_json, refused, silent

WRITE = '["write","o","v",[7],"s"]'
LONG = "A" * 34
READER = '{"kind":"RPortPrototype","shortName":"i","interface":"I"}'
READER_EVENT = '{"kind":"TimingEvent","shortName":"E","runnable":"Look","period":10}'
READER_MAPPED = ',\n   {"instance":"r","event":"E","task":"T","position":1}'
CONNECTORS = ',\n   "connectors":[{"kind":"AssemblySwConnector","provider":["w","o"],"requester":["r","i"]}]'
PERIOD = '"runnable":"Step","period":10'
EVENT_PERIOD = "2 at /components/0/behavior/events/0/period"
ON_SET_MEAN = (
    '{"kind":"OperationInvokedEvent","shortName":"OnSetMean","runnable":"SetMean","port":"service","operation":"setMean"}'
)
PROTOTYPES = '{"shortName":"computer","type":"Computer"}]'
TRIPS = '{"kind":"AssemblySwConnector","provider":["computer","trips"],"requester":["display","trips"]}'
ON_RANGE = '{"instance":"computer","event":"OnRange","task":"Trip","position":1}'


def circle() -> str:
    """Two servers in two tasks that call each other."""
    interface = {"kind": "ClientServerInterface", "shortName": "I", "operations": [{"shortName": "op"}]}
    component = {
        "shortName": "C",
        "ports": [
            {"kind": "PPortPrototype", "shortName": "serves", "interface": "I"},
            {"kind": "RPortPrototype", "shortName": "calls", "interface": "I"},
        ],
        "behavior": {
            "runnables": [
                {"shortName": "Serve", "accesses": [["call", "calls", "op"]], "program": [["call", "calls", "op", [], [], "s"]]}
            ],
            "events": [
                {"kind": "OperationInvokedEvent", "shortName": "O", "runnable": "Serve", "port": "serves", "operation": "op"}
            ],
        },
    }
    joins = [
        {"kind": "AssemblySwConnector", "provider": [one, "serves"], "requester": [other, "calls"]}
        for one, other in ("ab", "ba")
    ]
    top = {"shortName": "Top", "prototypes": [{"shortName": name, "type": "C"} for name in "ab"], "connectors": joins}
    events = [{"instance": name, "event": "O", "task": name.upper(), "position": 0} for name in "ab"]
    tasks = [{"shortName": "A", "core": 0}, {"shortName": "B", "core": 0}]
    whole = {"interfaces": [interface], "components": [component], "compositions": [top], "root": "Top"}
    return json.dumps({**whole, "mapping": {"cores": 1, "tasks": tasks, "events": events}}, indent=1)


SHAPES: dict[str, list[Mistake]] = {
    "a misspelt key": [
        refused("2 at /components/0", '"shortname":"W"', ("no key `shortname`", "`shortName`"), ('{"shortName":"W"', '{"shortname":"W"')),
        refused("2 at /components/0/ports/0", '"interfaceRef"', ("perhaps `interface` was meant",), ('"o","interface"', '"o","interfaceRef"')),
    ],
    "a queue length at the port": [
        refused(
            "2 at /components/0/ports/0",
            '"shortName":"presses"',
            ("`queueLength` stands in an object of the port's `comSpecs`, beside the `element` that it is for.",),
            (',\n     "comSpecs":[{"element":"press","queueLength":2}]}', ',"queueLength":2}'),
            example="lost_value",
        )
    ],
    "a period that is no whole number": [
        refused(EVENT_PERIOD, '"period":"10"', ("The text `10` is not a whole number.",), (PERIOD, PERIOD.replace("10", '"10"'))),
        refused(EVENT_PERIOD, '"period":0.01', ("0.01 is not a whole number.", "In milliseconds, not in seconds."), (PERIOD, PERIOD.replace("10", "0.01"))),
        refused(EVENT_PERIOD, '"period":10.0', ("10.0 is not a whole number.",), (PERIOD, PERIOD.replace("10", "10.0"))),
    ],
    "what is not JSON": [
        not_json('"interfaces"', ("stands where a comma or `}` should be", "Mend: "), ('"words":1}],', '"words":1}]')),
        not_json('"words":1,}', ("There is a comma before `}`; take it out.", "Mend: "), ('"words":1}', '"words":1,}')),
        not_json("// a note", ("JSON has no comments",), ('"root":"Top",', '"root":"Top",\n// a note\n')),
        not_json("'root'", ("A text needs double quotes, not single ones",), ('"root"', "'root'")),
        not_json("", ("byte order mark", "without one"), before=b"\xef\xbb\xbf"),
        not_json("", ("UTF-16", "save it as UTF-8"), content=b"\xff\xfe{\x00}\x00"),
        not_json("", ("The text should end here",), content='{"root":"Top"} {"root":"Top"}'),
        not_json("", ("The text ends where a value should be",), content=""),
    ],
    "a key that stands twice": [
        silent('"Pot"', ("the key `root` stands twice here; the last one counts",), ('"root":"Top"', '"root":"Pot","root":"Top"')),
        silent(f'"program":[{WRITE}]}}]', ("the key `program` stands twice here",), (f'"program":[{WRITE}]', f'"program":[{WRITE}],\n"program":[{WRITE}]')),
    ],
    "the key `$schema`": [
        refused("2 at /", "", ("A description does not name its schema.", "settings of the editor"), ('"root":"Top"', '"$schema":"s","root":"Top"'))
    ],
    "words of ARXML and of other languages": [
        refused(
            "2 at /components/1/behavior/events/1/activation",
            '"ON-ENTRY"',
            ("`ON-ENTRY` is none of `onEntry`, `onExit`, `onTransition`",),
            ('"onEntry"', '"ON-ENTRY"'),
            example="power_modes",
        ),
        refused("2 at /dataTypes/0/baseType", '"int16"', ("`int16` is none of", "int16` was meant"), ('"baseType":"uint16"', '"baseType":"int16"')),
        refused(
            "2 at /components/1/behavior/runnables/0/program/1/3/0",
            '["gt","n",1]',
            ('There is no `gt`: `a` is greater than `b` by `["lt","b","a"]`.',),
            ('["add","n",1]', '["gt","n",1]'),
            example="init_chain",
        ),
    ],
    "a name or a position that stands twice": [
        refused(
            "4 at /mapping/tasks/1/shortName",
            '{"shortName":"Pumping","core":1}',
            ("The first one is at line 20", "Mend: rename the second one"),
            ('"shortName":"Showing"', '"shortName":"Pumping"'),
            example="two_cores",
        ),
        refused(
            "4 at /mapping/events/1/position",
            '"event":"E","task":"T","position":0}]',
            ("The first one is at line 18", "Mend: give each event of a task a position of its own."),
            ('"position":1', '"position":0'),
        ),
    ],
    "a core or a name past its limits": [
        refused(
            "5 at /mapping/tasks/1/core",
            '"core":2',
            ("`cores` is 2, so a core is at most 1.", "Mend: take another core, or more `cores`"),
            ('"core":1', '"core":2'),
            example="two_cores",
        ),
        refused("2 at /mapping/cores", '"cores":9', ("9 is more than 8.",), ('"cores":1', '"cores":9')),
        refused(
            "3 at /components/0/shortName",
            LONG,
            ("it has 34 bytes", "Mend: begin with a letter; use letters, digits and `_`, at most 32."),
            ('{"shortName":"W","ports"', f'{{"shortName":"{LONG}","ports"'),
        ),
    ],
    "a name that nothing has": [
        refused(
            "5 at /compositions/0/connectors/0/provider/0",
            '["pmup","out"]',
            ("There is no prototype `pmup`; the nearest one is `pump`.", "Mend: correct the name"),
            ('["pump","out"]', '["pmup","out"]'),
            example="two_cores",
        )
    ],
    "an initial value out of range": [
        refused(
            "8 at /components/1/ports/0/comSpecs/0/initValue",
            '"initValue":[1001]',
            ("Its type is `T`: one word, each from 0 to 1000.", "1001 is more than that.", "Mend: give one number within"),
            (READER, READER[:-1] + ',"comSpecs":[{"element":"v","initValue":[1001]}]}'),
        )
    ],
}

JOINS: dict[str, list[Mistake]] = {
    "provider and requester exchanged": [
        refused(
            "11 at /compositions/0/connectors/0",
            '"provider":["r","i"]',
            ("`r.i` is an R-port, which requires.", "`w.o` is a P-port", "Mend: exchange `provider` and `requester`."),
            ('"provider":["w","o"],"requester":["r","i"]', '"provider":["r","i"],"requester":["w","o"]'),
        )
    ],
    "a port that is not connected": [
        silent('"shortName":"o"', ("`o` of `w` is not connected; what it writes goes nowhere",), (CONNECTORS, "")),
        silent('"shortName":"i"', ("`i` of `r` is not connected; its reads answer 134",), (CONNECTORS, "")),
    ],
    "two servers for one client": [
        refused(
            "14 at display.trips.range",
            '{"kind":"RPortPrototype","shortName":"trips","interface":"Trips"}',
            (
                "Provided ends: `computer.trips.range`, `second.trips.range`.",
                "Mend: drop connectors until one of `computer.trips.range`, `second.trips.range` is left.",
            ),
            (PROTOTYPES, PROTOTYPES[:-1] + ',{"shortName":"second","type":"Computer"}]'),
            (TRIPS, f'{TRIPS},\n{TRIPS.replace("computer", "second")}'),
            example="trip_computer",
        )
    ],
}

MAPPING: dict[str, list[Mistake]] = {
    "a server that is mapped twice": [
        refused(
            "26 at computer.OnRange",
            '"shortName":"OnRange"',
            ("`OnRange` is mapped to `Trip` at line 64", "Mend: leave one of them."),
            (ON_RANGE, f"{ON_RANGE},\n{ON_RANGE.replace('1', '2')}"),
            example="trip_computer",
        )
    ],
    "a server that is not mapped and not concurrent": [
        refused(
            "28 at computer.OnSetMean",
            ON_SET_MEAN,
            ("`SetMean` has no `canBeInvokedConcurrently`.", "The environment calls the operation", "Mend: map the event to a task."),
            ('{"instance":"computer","event":"OnSetMean","task":"Trip","position":0},\n   ', ""),
            example="trip_computer",
        )
    ],
    "tasks that wait for each other": [
        Mistake(
            "refused rule 29 at /mapping",
            '"task": "B"',
            (
                "Task `A` waits for `B`: `a:Serve` calls `calls.op`, which `b:Serve` serves.",
                "Task `B` waits for `A`: `b:Serve` calls `calls.op`, which `a:Serve` serves.",
                "Mend: map one of these servers to another task; or call by `acall`.",
            ),
            content=circle(),
        ),
        refused(
            "29 at /mapping",
            '"event":"OnRange","task":"Front"',
            (
                "Task `Front` waits for itself: `display:Show` calls `trips.range`, which `computer:Range` serves in the same task.",
                "Mend: map the server to another task than `Front`; or call by `acall`.",
            ),
            (ON_RANGE, ON_RANGE.replace("Trip", "Front")),
            example="trip_computer",
        ),
    ],
    "an event that is not mapped": [
        refused("26 at r.E", READER_EVENT, ("No mapped event names it. The tasks are `T`.", "Mend: map the event"), (READER_MAPPED, ""))
    ],
    "a runnable in two tasks": [
        refused(
            "27 at central:Decide",
            '"shortName":"Decide"',
            ("`OnKey` is mapped to `Sensing` at line", "`Each20` is mapped to `Deciding` at line", "Mend: map them to one task"),
            (
                '{"instance":"central","event":"OnKey","task":"Deciding","position":0}',
                '{"instance":"central","event":"OnKey","task":"Sensing","position":9}',
            ),
            example="door_control",
        )
    ],
    "an instance path with the root": [
        refused(
            "25 at /mapping/events/1",
            '"instance":"Top/r"',
            ("There is no instance `Top/r`; the path has no root: `r`.", "Mend: write the path without the root"),
            ('"instance":"r"', '"instance":"Top/r"'),
        ),
        refused(
            "25 at /mapping/events/1",
            '"instance":"guage"',
            ("There is no instance `guage`; the nearest one is `gauge`.",),
            ('"instance":"gauge"', '"instance":"guage"'),
            example="two_cores",
        ),
    ],
}
