"""Mistakes of users: each leads to its mend by one tool, none misleads, and none that a tool can know is silent.

The rows are those of a newcomer's first days. What the program says of each was derived by hand from docs/FORMAT.md; where
the program is there, it has to say so.
"""

from __future__ import annotations

import importlib
import unittest

from mistakes import Elsewhere, Mistake, TraceMistake, folder_of
from mistakes_in_descriptions import JOINS, MAPPING, SHAPES
from mistakes_in_programs import PROGRAMS
from mistakes_in_scripts import SCRIPTS, TRACES
from support import WithFolder, edited, line_of, program, run, run_tool, text_of

from rte_tools.explaining import explain
from rte_tools.refusal import read_refusal

LONGEST = 8_388_608

# The rows, in the order of a description, a script, a call and a trace: what is wrong, and the cases that try it.
ROWS: list[tuple[str, list]] = [
    ("misspelt key", SHAPES["a misspelt key"]),
    ("`queueLength` at the port", SHAPES["a queue length at the port"]),
    ("period as a text, in seconds, with a fraction", SHAPES["a period that is no whole number"]),
    ("no JSON: eight ways", SHAPES["what is not JSON"]),
    ("key twice", SHAPES["a key that stands twice"]),
    ("`$schema`", SHAPES["the key `$schema`"]),
    ("`ON-ENTRY`, `int16`, `gt`", SHAPES["words of ARXML and of other languages"]),
    ("name or position twice", SHAPES["a name or a position that stands twice"]),
    ("core 3 of 3, 9 cores, name of 34 bytes", SHAPES["a core or a name past its limits"] + SHAPES["a name that nothing has"]),
    ("initial value out of range", SHAPES["an initial value out of range"]),
    ("provider and requester exchanged", JOINS["provider and requester exchanged"]),
    ("port not connected", JOINS["a port that is not connected"]),
    ("access forgotten", PROGRAMS["an access that is forgotten"] + PROGRAMS["the wrong direction"]),
    ("too many words in a `send`", PROGRAMS["too many words in a `send`"]),
    ("`call` with a part missing", PROGRAMS["a `call` with a part missing"]),
    ("`call` without `out` variables", PROGRAMS["a `call` without variables for the `out` arguments"]),
    ("unknown mode in `switch`", PROGRAMS["an unknown mode in a `switch`"]),
    ("unknown mode in an event", PROGRAMS["an unknown mode in an event"]),
    ("operation without a server", PROGRAMS["an operation without a server"]),
    ("server mapped twice", MAPPING["a server that is mapped twice"]),
    ("server not mapped and not concurrent", MAPPING["a server that is not mapped and not concurrent"]),
    ("two servers for one client", JOINS["two servers for one client"]),
    ("tasks that wait for each other", MAPPING["tasks that wait for each other"]),
    ("area within itself, call inside an area", PROGRAMS["an area within itself"] + PROGRAMS["a call inside an area"]),
    (
        "event not mapped, in two tasks, path with the root",
        MAPPING["an event that is not mapped"] + MAPPING["a runnable in two tasks"] + MAPPING["an instance path with the root"],
    ),
    (
        "variable misspelt where read, where written",
        PROGRAMS["a variable that is misspelt where it is read"] + PROGRAMS["a variable that is misspelt where it is written"],
    ),
    (
        "`error` not declared, `out` never set, disabled in all modes",
        PROGRAMS["a code that is not declared"]
        + PROGRAMS["an `out` argument that is never set"]
        + PROGRAMS["an event that is disabled in all modes"],
    ),
    (
        "value clamped, result by the order of cores",
        PROGRAMS["a value that is clamped in any case"]
        + [Elsewhere("test_mistakes", "WhatARunShows.test_a_value_that_is_clamped")]
        + [Elsewhere("test_mistakes", "WhatARunShows.test_a_result_that_depends_on_the_order")],
    ),
    ("script: port, value, side", SCRIPTS["an unknown port, a value too large, a port of the other side"]),
    ("script: name, number, comment", SCRIPTS["a name, a number or a comment that has no form"]),
    ("script: word, unit, space, line end", SCRIPTS["a word, a unit, a space or a line end that has no form"]),
    ("script: `ask` with 2 of 1 values", SCRIPTS["an `ask` with too many values"]),
    ("script empty", [Elsewhere("test_mistakes", "Files.test_an_empty_script")]),
    ("script not UTF-8", SCRIPTS["a script that is no UTF-8"]),
    ("file missing, a folder, too long", [Elsewhere("test_mistakes", "Files.test_a_file_that_is_not_read")]),
    ("output that fails", [Elsewhere("test_launcher_hints", "Launcher.test_output_that_failed")]),
    ("unknown word, `soak 0`", [Elsewhere("test_launcher_hints", "Launcher.test_words_that_are_refused")]),
    ("words exchanged", TRACES["words of `check` and of `run` that are exchanged"]),
    ("trace of version 3, without header, CRLF", TRACES["a trace of another version, without a header, with CRLF"]),
    ("header of version 1", TRACES["a header of version 1 on a trace of version 2"]),
    ("trace without its ticks", TRACES["a trace without its ticks"]),
    ("trace cut off", TRACES["a trace that is cut off"]),
]
NUMBER_OF_ROWS = 42


class Mistakes(WithFolder):
    def files(self, mistake: Mistake) -> tuple[str, str, str]:
        """Writes both files; gives their paths and the text to which the message points."""
        text = edited(text_of(folder_of(mistake.example) / "description.json"), list(mistake.edits))
        content = text if mistake.content is None else mistake.content
        held = content.encode("utf-8") if isinstance(content, str) else content
        paths = self.write("description.json", mistake.before + held), self.write("script.txt", mistake.script)
        pointed = mistake.script if mistake.in_script else held
        return *paths, pointed.decode("utf-8", "surrogateescape") if isinstance(pointed, bytes) else pointed

    def said(self, mistake: Mistake, description: str, script: str) -> str:
        """What the one tool says, on one line."""
        if mistake.is_silent:
            lines = run_tool("lint.py", description).stdout.decode().splitlines()
        else:
            lines = explain(read_refusal(mistake.says), description, script)
        return " ".join(" ".join(lines).split())

    def check(self, mistake: Mistake) -> None:
        description, script, pointed = self.files(mistake)
        line = line_of(pointed, mistake.at) if mistake.at else 1
        printed = self.said(mistake, description, script)
        self.assertIn(f"{script if mistake.in_script else description}:{line}:", printed)
        for part in mistake.holds:
            self.assertIn(" ".join(part.split()), printed)

    def traced(self, mistake: TraceMistake) -> list[str]:
        """Writes the files; gives the paths in the order of the words."""
        folder = folder_of(mistake.example)
        text = text_of(folder / "expected.txt")
        for old, new in mistake.edits:
            text = text.replace(old, new, 1)
        lines = [line for line in text.splitlines(True) if not (mistake.without_ticks and line == "env tick\n")]
        paths = {
            "D": self.write("description.json", text_of(folder / "description.json")),
            "T": self.write("trace.txt", "".join(lines[: mistake.keeps])),
            "S": self.write("script.txt", text_of(folder / "script.txt")),
        }
        return [paths[letter] for letter in mistake.order]

    def check_trace(self, mistake: TraceMistake) -> None:
        files = self.traced(mistake)
        description, script, trace = (files[0], files[2], files[1]) if len(files) == 3 else (*files, "")
        printed = " ".join(" ".join(explain(read_refusal(mistake.says), description, script, trace)).split())
        self.assertRegex(printed, rf":{mistake.line}\b")
        for part in mistake.holds:
            self.assertIn(part, printed)

    def test_all_rows_are_there(self) -> None:
        self.assertEqual(len(ROWS), NUMBER_OF_ROWS)
        for name, cases in ROWS:
            self.assertTrue(cases, name)

    def test_each_leads_to_its_mend(self) -> None:
        for name, cases in ROWS:
            for case in cases:
                with self.subTest(name, case=case):
                    if isinstance(case, Mistake):
                        self.check(case)
                    elif isinstance(case, TraceMistake):
                        self.check_trace(case)
                    else:
                        group, _, method = case.test.partition(".")
                        self.assertTrue(hasattr(getattr(importlib.import_module(case.module), group), method))

    @unittest.skipUnless(program(), "the program is not built")
    def test_the_program_says_so(self) -> None:
        for name, cases in ROWS:
            for case in cases:
                with self.subTest(name, case=case):
                    if isinstance(case, Mistake):
                        description, script, _ = self.files(case)
                        words = ["plan", description] if case.is_silent else ["run", description, script]
                        self.assert_says(words, case.says)
                    elif isinstance(case, TraceMistake):
                        files = self.traced(case)
                        self.assert_says(["check" if len(files) == 3 else "run", *files], case.says)

    def assert_says(self, words: list[str], says: str) -> None:
        ended = run([program(), *words])
        if says:
            self.assertEqual((ended.stdout, ended.returncode), (f"{says}\n".encode(), read_refusal(says).status))
        else:
            self.assertEqual(ended.returncode, 0, ended.stdout)


class Files(WithFolder):
    """Files that are not read, and a script that does nothing."""

    def test_a_file_that_is_not_read(self) -> None:
        said = self.write("said.txt", "not read 2\n")
        long = self.write("long.txt", b" " * (LONGEST + 1))
        for path, why in (
            (str(self.folder / "none.txt"), "there is no such file"),
            (str(self.folder), "this is a folder"),
            (long, "the file has 8,388,609 bytes, and at most 8,388,608 are read"),
        ):
            result = run_tool("explain.py", "a", path, "--said", said)
            self.assertEqual(result.stdout, f"not read 2\n{path}: {why}\n".encode())
            self.assertEqual((result.stderr, result.returncode), (b"", 3))

    def test_an_empty_script(self) -> None:
        description = str(folder_of("one_writer") / "description.json")
        for path in (self.write("script.txt", ""), "/dev/null"):
            result = run_tool("lint.py", description, path)
            self.assertIn(b"the script has no line that does something, so the trace is empty", result.stdout)

    def test_other_output_passes_through(self) -> None:
        said = b"rte-trace 2\nrun\nrefused rule 1 at /\n\xff\n"
        result = run_tool("explain.py", "a", "b", "--said", self.write("said.txt", said))
        self.assertEqual((result.stdout, result.stderr, result.returncode), (said, b"", 0))

    def test_bad_words_of_the_tool(self) -> None:
        none = str(self.folder / "none.txt")
        result = run_tool("explain.py", "a", "b", "--said", none)
        self.assertEqual(result.stderr, f"explain.py: cannot read {none}: there is no such file\n".encode())
        self.assertEqual(result.returncode, 2)
        result = run_tool("explain.py", "a", "b", "--program", none)
        self.assertEqual(result.stderr, f"explain.py: cannot run {none}: No such file or directory\n".encode())
        self.assertEqual(result.returncode, 126)
        self.assertEqual(run_tool("explain.py", "a", "--trace", "b").returncode, 2)

    def test_files_that_were_changed_since(self) -> None:
        """What is said of a refusal of other files is one line, and no fault of the tool."""
        example = folder_of("one_writer")
        description, script = str(example / "description.json"), str(example / "script.txt")
        places = ("/", "/components/7", "x.y", "w.o.v")
        for says in (f"refused rule {rule} at {places[rule % len(places)]}" for rule in range(1, 32)):
            with self.subTest(says):
                self.assertTrue(explain(read_refusal(says), description, script))
        scripts = ("script refused line 9 cause 1", "script refused line 1 cause 3")
        for says in ("bad line 3", "illegal 3 D7", "illegal 30 D9", *scripts):
            self.assertTrue(explain(read_refusal(says), description, script, script))


class WhatARunShows(WithFolder):
    """What no look at a description shows: values that are clamped in a run, results that depend on the order of cores."""

    def test_a_value_that_is_clamped(self) -> None:
        example = folder_of("trip_computer")
        text = edited(
            text_of(example / "description.json"),
            [('["write","panel","km",["km"],"s"]', '["write","panel","km",[["mul",5,"km"]],"s"]')],
        )
        trace = text_of(example / "expected.txt").replace("write panel.km 500 0", "write panel.km 2000 0")
        trace = self.write("t.txt", trace.replace("panel.km 0 500", "panel.km 0 2000"))
        ended = run_tool("summary.py", self.write("d.json", text), trace)
        clamped = ended.stdout.decode().partition("\nclamped values\n")[2].splitlines()
        self.assertEqual(clamped, ["  display:Show write panel.km  1  2500 -> 2000, first in line 54"])
        self.assertEqual((ended.stderr, ended.returncode), (b"", 0))

    def test_a_result_that_depends_on_the_order(self) -> None:
        seen = '{"kind":"PPortPrototype","shortName":"seen","interface":"Levels"}'
        read, requester = '["read","in","level",["x"],"s"]', '"requester":["gauge","in"]}'
        delegation = '{"kind":"DelegationSwConnector","inner":["gauge","seen"],"outer":"seen"}'
        edits = [
            ('"shortName":"Plant",', f'"shortName":"Plant","ports":[{seen}],'),
            ('"shortName":"in","interface":"Levels"}', f'"shortName":"in","interface":"Levels"}},{seen}'),
            ('[["read","in","level"]]', '[["read","in","level"],["write","seen","level"]]'),
            (f"{read},{read}", f'{read},["write","seen","level",["x"],"s"]'),
            (requester, f"{requester},{delegation}"),
        ]
        text = edited(text_of(folder_of("two_cores") / "description.json"), edits)
        script = self.write("s.txt", "tick 10\nrun\nread seen.level\n")
        ended = run_tool("orders.py", self.write("d.json", text), script)
        lines = ended.stdout.decode().splitlines()
        self.assertEqual((lines[0], ended.returncode), ("300 orders of the cores, 3 outcomes", 1))
        seen = {line.partition(": env read seen.level ")[2] for line in lines} - {""}
        self.assertEqual(seen, {"0 0", "0 40", "0 80"}, ended.stdout)
        self.assertIn("  they part at gauge:Look", lines)


if __name__ == "__main__":
    unittest.main()
