"""JSON with places, the schema's checker, docs/FORMAT.md, and places in a text."""

import json
import unittest

from support import DATA, EXAMPLES, description_of, text_of

from rte_tools.files import read_schema
from rte_tools.located import NotJson, read_json
from rte_tools.reference import causes, read_format, rules
from rte_tools.refusal import pointer_of, read_refusal
from rte_tools.files import SCRIPT_WORDS
from rte_tools.script_forms import forms
from rte_tools.source import Source

# Texts that are not JSON: what is said, and where.
NOT_JSON = (
    ("", 0, "the text ends where a value should be"),
    ("[1,", 3, "the `[` of line 1 is not closed"),
    ('{"a":1,}', 6, "a comma before `}`"),
    ("[1 2]", 3, "`2` stands where a comma or `]` should be"),
    ("{'a':1}", 1, "double quotes, not single ones"),
    ("[1] // end", 4, "the text should end here"),
    ("// text", 0, "JSON has no comments"),
    ("[NaN]", 1, "`NaN` is not JSON"),
    ("[01]", 1, "may not begin with 0"),
    ('["a\tb"]', 3, "there is a tab within a text"),
    ('["\\ud800"]', 2, "half of a character"),
    ("[1e999]", 1, "too large"),
    ("\ufeff[]", 0, "byte order mark"),
    ("[" * 128, 127, "more than 127 brackets"),
)


class Json(unittest.TestCase):
    def test_values_are_those_of_the_standard_library(self) -> None:
        for path in DATA.glob("*/*/description.json"):
            text = text_of(path)
            self.assertEqual(read_json(text).plain(), json.loads(text))

    def test_escapes(self) -> None:
        text = '["\\u00e9\\ud83d\\ude00\\n\\/", -0.5e1, true, null]'
        self.assertEqual(read_json(text).plain(), json.loads(text))

    def test_places(self) -> None:
        root = read_json('{"a": [10, {"b": 20}], "a2": 1, "a2": 2}')
        self.assertEqual(root.at("/a/1/b").value, 20)
        self.assertEqual(root.at("/a/1/b").start, 17)
        self.assertEqual(root.at("/a2").value, 2)
        self.assertEqual(root.doubled, [(32, "a2")])
        self.assertIsNone(root.find("/a/2"))

    def test_what_is_not_json(self) -> None:
        for text, start, said in NOT_JSON:
            with self.subTest(text[:20]), self.assertRaises(NotJson) as caught:
                read_json(text)
            self.assertEqual(caught.exception.start, start)
            self.assertIn(said, caught.exception.message)

    def test_127_brackets_are_read(self) -> None:
        self.assertEqual(read_json("[" * 127 + "]" * 127).end, 254)


class Shapes(unittest.TestCase):
    def faults(self, value: object) -> list[tuple[str, str]]:
        whole = {"root": "Top", "mapping": value}
        return [(fault.place, fault.message) for fault in read_schema().faults(whole)]

    def test_messages(self) -> None:
        self.assertEqual(self.faults({"cores": 1}), [])
        self.assertEqual(self.faults({"cores": 9}), [("/mapping/cores", "9 is more than 8")])
        self.assertEqual(self.faults({"cores": 1.0}), [("/mapping/cores", "1.0 is not a whole number")])
        self.assertEqual(self.faults({"cores": True}), [("/mapping/cores", "true is not a whole number")])
        self.assertEqual(self.faults({}), [("/mapping", "the key `cores` is missing")])
        ((place, message),) = self.faults({"cores": 1, "task": []})
        self.assertEqual(place, "/mapping")
        self.assertIn("there is no key `task` here", message)
        self.assertIn("perhaps `tasks` was meant", message)


class Format(unittest.TestCase):
    def test_each_rule_has_a_title_and_a_mend(self) -> None:
        found = rules(read_format())
        self.assertEqual(sorted(found), list(range(1, 32)))
        self.assertEqual(found[9].title, "No composition contains itself")
        self.assertTrue(found[9].mend.startswith("take the prototype out"))
        for number, rule in found.items():
            self.assertNotIn("\n", rule.title + rule.mend, number)

    def test_each_cause_has_a_mend(self) -> None:
        found = causes(read_format())
        self.assertEqual(sorted(found), [1, 2, 3, 4])
        self.assertTrue(all(cause.title and cause.mend for cause in found.values()))

    def test_script_words(self) -> None:
        found = forms(read_format())
        self.assertEqual(set(found), set(SCRIPT_WORDS))
        self.assertEqual((found["run"], found["switch"], found["tick"]), ((), ("P.O", "MODE"), ("N",)))


class Places(unittest.TestCase):
    def test_positions(self) -> None:
        source = Source.of("f", "ab\ncd\r\n\nx")
        self.assertEqual(
            [source.position(at) for at in (0, 2, 3, 5, 7, 8)], [(1, 1), (1, 3), (2, 1), (2, 3), (3, 1), (4, 1)]
        )
        self.assertEqual(source.show(3, 5), ["     2 | cd␍", "       | ^^"])

    def test_a_long_line_is_cut(self) -> None:
        shown, under = Source.of("f", "x" * 500 + "HERE" + "x" * 500).show(500, 504)
        self.assertLess(len(shown), 120)
        self.assertEqual(shown[under.index("^") : under.index("^") + 4], "HERE")

    def test_refusals(self) -> None:
        self.assertEqual(read_refusal("refused rule 15 at r.i.v").place, "r.i.v")
        self.assertEqual(read_refusal("script refused line 3 cause 2").line, 3)
        self.assertEqual(read_refusal("not read 2").status, 3)
        self.assertIsNone(read_refusal("rte-trace 2"))

    def test_names_of_places(self) -> None:
        door = description_of(DATA / "examples" / "door_control")
        self.assertEqual(pointer_of(door, "front_left/latch.wish.pulled"), "/components/1/ports/0")
        self.assertEqual(pointer_of(door, "central.OnKey"), "/components/3/behavior/events/1")
        self.assertEqual(pointer_of(door, "central:Decide"), "/components/3/behavior/runnables/0")
        self.assertEqual(pointer_of(door, "env.lock.locked"), "/compositions/1/ports/6")

    def test_all_examples_have_their_shape(self) -> None:
        for folder in EXAMPLES:
            self.assertTrue(read_schema().accepts(json.loads(text_of(folder / "description.json"))), folder.name)


if __name__ == "__main__":
    unittest.main()
