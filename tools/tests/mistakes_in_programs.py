"""Mistakes in programs of runnables and in what they serve, by what a newcomer did wrong."""

from __future__ import annotations

from mistakes import Mistake, refused, silent

WRITES = '"accesses":[["write","o","v"]]'
WRITE = '["write","o","v",[7],"s"]'
READS = '"accesses":[["read","i","v"]],\n     "program":[["read","i","v",["x"],"s"]]'
CALL = '["call","trips","range",["litres"],["km"],"s"]'
SWITCH = '["switch","power","Parked","s"]'
DISABLED = '"disabledInModes":{"port":"power","modes":["Parked"]}'
ON_SET_MEAN = (
    '{"kind":"OperationInvokedEvent","shortName":"OnSetMean","runnable":"SetMean","port":"service","operation":"setMean"}'
)
COUNT_DOWN = '["area","counting",[["irvRead","inside",["n"]],["irvWrite","inside",[["sub","n",1]]]]]'

PROGRAMS: dict[str, list[Mistake]] = {
    "an access that is forgotten": [
        refused(
            "17 at /components/0/behavior/runnables/0/program/0",
            f'"program":[{WRITE}]',
            ("The `accesses` of `Step`", 'lack ["write","o","v"]', "Mend: declare the access"),
            (WRITES, '"accesses":[]'),
        )
    ],
    "the wrong direction": [
        refused(
            "16 at /components/1/behavior/runnables/0/accesses/0",
            '["write","i","v"]',
            ("`i` is an R-port, which requires the unqueued element `v`.", "Mend: use `read` or `isUpdated` or `iread` there"),
            (READS, '"accesses":[["write","i","v"]],\n     "program":[["write","i","v",[7],"s"]]'),
        ),
        refused(
            "17 at /components/1/behavior/runnables/0/program/0",
            '["write","i","v",[7],"s"]',
            ("But `i` is an R-port, and `write` needs a P-port", "Mend: name another port, or write another statement."),
            (READS, '"accesses":[["read","i","v"]],\n     "program":[["write","i","v",[7],"s"]]'),
        ),
    ],
    "too many words in a `send`": [
        refused(
            "17 at /components/0/behavior/runnables/0/program/1/2/0",
            '["send","log","entry",["button",["eq","s",64],0],"t"]',
            ("The statement has 3 in place of 2 words, as its type `Entry`.", "Mend: give one expression or variable for each word."),
            ('["eq","s",64]]', '["eq","s",64],0]'),
            example="lost_value",
        )
    ],
    "a `call` with a part missing": [
        refused(
            "2 at /components/0/behavior/runnables/0/program/1",
            '["call","trips","range",["litres"],"s"]',
            ("There are 5 parts, and 6 have to be there.",),
            (CALL, '["call","trips","range",["litres"],"s"]'),
            example="trip_computer",
        )
    ],
    "a `call` without variables for the `out` arguments": [
        refused(
            "17 at /components/0/behavior/runnables/0/program/1",
            '["call","trips","range",["litres"],[],"s"]',
            (
                "Its access is declared.",
                "`range` has one `out` argument (`km`). The statement takes 0.",
                "Mend: give one variable for each `out` argument.",
            ),
            (CALL, '["call","trips","range",["litres"],[],"s"]'),
            example="trip_computer",
        )
    ],
    "an unknown mode in a `switch`": [
        refused(
            "17 at /components/0/behavior/runnables/0/program/1/3/0",
            '["switch","power","Parking","s"]',
            ("has no mode `Parking`; the nearest one is `Parked`.", "Mend: name a mode of the group: `Parked`, `Driving`, or add one to its `modes`."),
            (SWITCH, '["switch","power","Parking","s"]'),
            example="power_modes",
        )
    ],
    "an unknown mode in an event": [
        refused(
            "24 at /components/1/behavior/events/0",
            '"modes":["Parking"]}}',
            ("has no mode `Parking`; the nearest one is `Parked`.", "Mend: name a mode of the group: `Parked`, `Driving`, or add one to its `modes`."),
            (DISABLED, DISABLED.replace("Parked", "Parking")),
            example="power_modes",
        ),
        refused(
            "21 at /components/1/behavior/events/1",
            '"modes":["Drive"]',
            ("has no mode `Drive`; the nearest one is `Driving`.", "Mend: name a mode of the group: `Parked`, `Driving`, or add one to its `modes`."),
            ('"onEntry","modes":["Driving"]', '"onEntry","modes":["Drive"]'),
            example="power_modes",
        ),
    ],
    "an operation without a server": [
        refused(
            "22 at /components/1/ports/1",
            '"shortName":"service","interface":"Service"}],\n   "behavior"',
            ("No OperationInvokedEvent names `setMean`.", "Mend: give each operation an event and a runnable of its own"),
            (f",\n     {ON_SET_MEAN}", ""),
            example="trip_computer",
        )
    ],
    "an area within itself": [
        refused(
            "19 at /components/0/behavior/runnables/1/program/0/2/0",
            COUNT_DOWN,
            ("The area `counting` is entered already", "Mend: take the inner `area` out and keep its statements."),
            (COUNT_DOWN, f'["area","counting",[{COUNT_DOWN}]]'),
            example="shared_counter",
        )
    ],
    "a call inside an area": [
        refused(
            "20 at /components/1/behavior/runnables/0/program/4/2/0",
            '["call","calls","op",["x"],["x"],"s"]',
            ("It stands in the area `inner`", "Mend: call before or after the area, and keep the values in variables."),
            ('["call","calls","op",["x"],["x"],"s"]', '["area","inner",[["call","calls","op",["x"],["x"],"s"]]]'),
            example="whole",
        )
    ],
    "a variable that is misspelt where it is read": [
        silent(
            '["add","m",1]',
            ("the variable `m` is read and never set, so it is 0",),
            ('["write","next","step",[["add","n",1]],"s"]', '["write","next","step",[["add","m",1]],"s"]'),
            example="init_chain",
        )
    ],
    "a variable that is misspelt where it is written": [
        silent(
            '["set","kn",',
            ("the variable `kn` is set and never read", "never sets `km`, an `out` argument of `range`", "the nearest one is `kn`"),
            ('["set","km",', '["set","kn",'),
            example="trip_computer",
        )
    ],
    "a code that is not declared": [
        silent('["set","error",3]', ("`error` is 3, a code that `range` does not declare, so 0 is returned",), ('["set","error",1]', '["set","error",3]'), example="trip_computer")
    ],
    "an `out` argument that is never set": [
        silent(
            '{"shortName":"Range"',
            ("`Range` never sets `km`, an `out` argument of `range`, so 0 is returned",),
            ('[["set","km",["div",["mul",100,"litres"],"mean"]]]', "[]"),
            example="trip_computer",
        )
    ],
    "an event that is disabled in all modes": [
        silent(
            '"modes":["Parked","Driving"]}}',
            ("the event `Each10` is disabled in every mode of `Power`",),
            (DISABLED, DISABLED.replace('"Parked"', '"Parked","Driving"')),
            example="power_modes",
        )
    ],
    "a value that is clamped in any case": [
        silent('[1800]', ("the value for `o`.`v` is 1800", "so it is clamped to 1000"), (WRITE, WRITE.replace("7", "1800")))
    ],
}
