"""Mistakes in scripts, in traces and in the words of a call."""

from __future__ import annotations

from mistakes import Mistake, TraceMistake, script

NO_FORM = "cause 1: the line has none of the forms"

SCRIPTS: dict[str, list[Mistake]] = {
    "an unknown port, a value too large, a port of the other side": [
        script(
            2,
            2,
            "run\nwrite ky.locked 1\n",
            "There is no `ky.locked`; the nearest one is `key.locked`. The script may write `key.locked`",
            "Mend: name an outer port",
        ),
        script(1, 3, "write key.locked 2\n", "`key.locked` has one word: `Flag` from 0 to 1. 2 is more than that."),
        script(
            2,
            2,
            "run\nswitch power.state Driving\n",
            "`power.state` is a mode element of a P-port, which is for `mode`.",
            "`switch` needs an R-port P with the mode element O",
            example="power_modes",
        ),
        script(
            2,
            2,
            "run\nread hat.level\n",
            "The script may write `key.turned`; read `lamp.on`, `heat.level`; mode `power.state`.",
            example="power_modes",
        ),
    ],
    "a name, a number or a comment that has no form": [
        script(
            2,
            1,
            "run\nwrite field/key.locked 1\n",
            NO_FORM,
            "`field/key.locked` is within an instance. The script names outer ports of the root",
            "the nearest one is `key.locked`",
        ),
        script(2, 1, "run\nwrite field/key.raw.locked 1\n", "The script names outer ports of the root"),
        script(2, 1, "run\nwrite wheels.speeds 1,0x640,3,4\n", "`0x640` is no number as a value has it", "write `1600`"),
        script(2, 1, "run\ntick 10 # ten\n", "A comment stands on a line of its own, which begins with `#`."),
    ],
    "a word, a unit, a space or a line end that has no form": [
        script(2, 1, "tick 1\nRun\n", "the nearest one is `run`"),
        script(2, 1, "run\ntick 10ms\n", "A tick is a millisecond, and N is a whole number from 1 to 100,000."),
        script(2, 1, "run\nrun \n", "There is a space before or after the fields."),
        script(2, 1, "run\ntick\t10\n", "There is a tab."),
        script(1, 1, "tick 10\r\nrun\r\n", "(CRLF)", "sed -i"),
        script(1, 1, "\ufefftick 10\nrun\n", "byte order mark"),
        script(2, 1, "run\ncall lock.locked\n", "what was meant is perhaps `ask`"),
    ],
    "an `ask` with too many values": [
        script(
            1,
            3,
            "ask service.setMean 8,9\n",
            "`service.setMean` has one `in` argument: `per100` from 0 to 50. The line gives 2.",
            example="trip_computer",
        )
    ],
    "a script that is no UTF-8": [
        script(2, 1, b"run\nwrite key.locked 1\xff\n", "The byte 0xFF is no UTF-8. Save the script as UTF-8.")
    ],
}

TRACES: dict[str, list[TraceMistake]] = {
    "words of `check` and of `run` that are exchanged": [
        TraceMistake(
            "script refused line 1 cause 1",
            1,
            ("This is a trace, and a script is wanted here.", "Mend: give the words in their order: `check` takes DESCRIPTION TRACE SCRIPT."),
            order="DST",
        ),
        TraceMistake(
            "refused rule 1 at /",
            1,
            ("This is a trace, and a description is wanted here.", "`check` takes DESCRIPTION TRACE SCRIPT."),
            order="TDS",
        ),
        TraceMistake(
            "refused rule 1 at /",
            1,
            ("This is a script, and a description is wanted here.", "Mend: give the words in their order: `run` takes DESCRIPTION SCRIPT."),
            order="SD",
        ),
        TraceMistake(
            "script refused line 1 cause 1",
            1,
            (NO_FORM, "This is a description, and a script is wanted here.", "`run` takes DESCRIPTION SCRIPT."),
            order="DD",
        ),
    ],
    "a trace of another version, without a header, with CRLF": [
        TraceMistake("bad line 1", 1, ("The first line is `rte-trace 1` or `rte-trace 2`.",), (("rte-trace 2", "rte-trace 3"),)),
        TraceMistake("bad line 1", 1, ("The first line is `rte-trace 1` or `rte-trace 2`.",), (("rte-trace 2\n", ""),)),
        TraceMistake("bad line 1", 1, ("(CRLF)", "Lines end by a newline alone."), (("rte-trace 2\n", "rte-trace 2\r\n"),)),
    ],
    "a header of version 1 on a trace of version 2": [
        TraceMistake(
            "bad line 2",
            2,
            ("The header is `rte-trace 1`, in which a mode stands by its number. `-` is that of `rte-trace 2`.",),
            (("rte-trace 2", "rte-trace 1"),),
            example="power_modes",
        )
    ],
    "a trace without its ticks": [
        TraceMistake("illegal 2 D16", 2, ("The script goes on with line 1, `tick 10`, of which 0 ticks are done.",), without_ticks=True)
    ],
    "a trace that is cut off": [
        TraceMistake("illegal 14 D16", 14, ("The trace ends within a run line.",), keeps=13),
        TraceMistake("illegal 7 D16", 7, ("The script goes on with line 1, `tick 10`, of which 5 ticks are done.",), keeps=6),
    ],
}
