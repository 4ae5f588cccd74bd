"""The recipes for editors: the problem matcher reads what the tools print, and each snippet is what the schema asks for."""

from __future__ import annotations

import json
import re
import unittest

from support import DATA, TOP, WithFolder, edited, run_tool, text_of

from rte_tools.files import read_schema

FOLDER = TOP / ".vscode"
PLACE = re.compile(r"\$\{\d+(?::([^}]*)|\|([^,}]+)[^}]*)\}")  # a default, or the first of the choices
PARTS = {
    "component": "component",
    "interface": "interface",
    "dataType": "dataType",
    "dataReceivedEvent": "event",
    "assembly": "connector",
    "delegation": "connector",
    "mappedEvent": "mappedEvent",
    "node": None,
}


class Editors(WithFolder):
    def matched(self, task: int, said: str) -> list[tuple[str, str, str, str]]:
        pattern = json.loads(text_of(FOLDER / "tasks.json"))["tasks"][task]["problemMatcher"]["pattern"]
        self.assertIn(json.dumps(pattern["regexp"])[1:-1], text_of(TOP / "docs" / "EDITORS.md"))
        found = [re.match(pattern["regexp"], line) for line in said.splitlines()]
        parts = ("file", "line", "column", "message")
        return [tuple(match[pattern[part]] for part in parts) for match in found if match]

    def misspelt(self) -> str:
        text = text_of(DATA / "examples" / "two_cores" / "description.json")
        return self.write("description.json", edited(text, [('["pump","out"]', '["pmup","out"]')]))

    def test_a_refusal_is_matched(self) -> None:
        description = self.misspelt()
        said = self.write("said.txt", "refused rule 5 at /compositions/0/connectors/0/provider/0\n")
        shown = run_tool("explain.py", "--said", said, description, self.write("script.txt", "run\n")).stdout.decode()
        ((file, line, column, message),) = self.matched(0, shown)
        self.assertEqual((file, line, column), (description, "17", "60"))
        self.assertIn("rule 5", message)

    def test_warnings_are_matched(self) -> None:
        description = self.misspelt()
        found = self.matched(1, run_tool("lint.py", description).stdout.decode())
        self.assertEqual([file for file, *_ in found], [description] * 2)

    def test_a_trace_is_not_matched(self) -> None:
        trace = text_of(DATA / "examples" / "greenhouse" / "expected.txt")
        self.assertEqual(self.matched(0, trace), [])

    def test_each_snippet_has_its_shape(self) -> None:
        snippets = json.loads(text_of(FOLDER / "rte.code-snippets"))
        shape = read_schema()
        self.assertEqual(set(snippets), set(PARTS))
        for name, snippet in snippets.items():
            filled = PLACE.sub(lambda match: match[1] or match[2], "\n".join(snippet["body"]))
            part = PARTS[name]
            schema = shape.schema["$defs"][part] if part else None
            with self.subTest(name):
                self.assertEqual(list(shape.faults(json.loads(filled), schema)), [])
                self.assertIn(f"`{snippet['prefix']}`", text_of(TOP / "docs" / "EDITORS.md"))


if __name__ == "__main__":
    unittest.main()
