"""Warnings: none on the examples, and one for each thing that is accepted in silence."""

import unittest

from support import DATA, EXAMPLES, edited, line_of, text_of

from lint import lint
from rte_tools.source import Source

WRITER = '{"kind":"PPortPrototype","shortName":"o","interface":"I"}'
READER = '{"kind":"RPortPrototype","shortName":"i","interface":"I"}'
CONNECTORS = ',\n   "connectors":[{"kind":"AssemblySwConnector","provider":["w","o"],"requester":["r","i"]}]'
TYPE = '{"shortName":"T","baseType":"uint16","lower":0,"upper":1000,"words":1}'

# An edit of one_writer, what the warnings hold, and a part of the line to which each points.
CASES = {
    "unconnected ports": (
        [(CONNECTORS, "")],
        [("`o` of `w` is not connected; what it writes goes nowhere", WRITER), ("its reads answer 134", READER)],
    ),
    "an outer port without a delegation": (
        [
            (
                '"shortName":"Top",',
                '"shortName":"Top","ports":[{"kind":"PPortPrototype","shortName":"p","interface":"I"}],',
            )
        ],
        [("the outer port `p` of `Top` leads nowhere", '"shortName":"p"')],
    ),
    "a runnable without an event": (
        [('"runnables":[{"shortName":"Step"', '"runnables":[{"shortName":"Idle"},{"shortName":"Step"')],
        [("no event starts the runnable `Idle` of `W`", '"Idle"')],
    ),
    "a task without an event": (
        [('{"shortName":"T","core":0}', '{"shortName":"T","core":0},{"shortName":"U","core":0}')],
        [("no event is mapped to the task `U`", '"U"')],
    ),
    "a variable that is never set": (
        [('["write","o","v",[7],"s"]', '["set","value",7],["write","o","v",["valeu"],"s"]')],
        [
            ("the variable `value` is set and never read; the nearest one is `valeu`", '"valeu"'),
            ("the variable `valeu` is read and never set, so it is 0; the nearest one is `value`", '"valeu"'),
        ],
    ),
    "a result that nobody takes": (
        [
            (
                '"swImplPolicy":"standard"}]}],',
                '"swImplPolicy":"standard"}]},{"kind":"ClientServerInterface","shortName":"S","operations":[{"shortName":"op"}]}],',
            ),
            (WRITER, WRITER + ',\n     {"kind":"RPortPrototype","shortName":"c","interface":"S"}'),
            ('"accesses":[["write","o","v"]]', '"accesses":[["write","o","v"],["acall","c","op"]]'),
            ('["write","o","v",[7],"s"]', '["write","o","v",[7],"s"],\n       ["acall","c","op",[],"s"]'),
        ],
        [
            ("`c` of `w` is not connected; its calls answer 134", '"shortName":"c"'),
            ("no program of `W` takes the result of `c`.`op`, so only the first request is accepted", '["acall","c","op",[],"s"]'),
        ],
    ),
    "an access that is not used": (
        [('[["read","i","v"]]', '[["read","i","v"],["isUpdated","i","v"]]')],
        [('does not use the access ["isUpdated", "i", "v"]', '["isUpdated","i","v"]')],
    ),
    "a com spec at the wrong side": (
        [(WRITER, WRITER[:-1] + ',"comSpecs":[{"element":"v","initValue":[1]}]}')],
        [("has keys that are not used there, initValue", '"comSpecs"')],
    ),
    "a com spec that says nothing": (
        [(READER, READER[:-1] + ',"comSpecs":[{"element":"v"}]}')],
        [("says nothing", '"comSpecs"')],
    ),
    "a type that nothing uses": (
        [(TYPE, TYPE + ',\n {"shortName":"Spare","baseType":"uint8","lower":0,"upper":1,"words":1}')],
        [("nothing uses the data type `Spare`", '"Spare"')],
    ),
    "a key that stands twice": (
        [('"root":"Top"', '"root":"Pot","root":"Top"')],
        [("the key `root` stands twice", '"Pot"')],
    ),
}


# Of `odometer`: the list of a runnable, with what stands before it.
COUNTED = '["iwrite","way","m"]],\n      "coherent":[[["way","km"],["way","m"]]],'
SHOWN = '["write","panel","metres"]],\n      "coherent":[[["way","km"],["way","m"]]],'
BETWEEN = "`Show` fetches `way.km` and `way.m` one by one, and `Count` may write between: list them in `coherent`"
APART = "`Count` writes `way.km` and `way.m` one by one, and `Show` fetches them at one moment: write them by `iwrite`"


class Lists(unittest.TestCase):
    def warned(self, *edits: tuple[str, str]) -> list[str]:
        text = edited(text_of(DATA / "examples" / "odometer" / "description.json"), list(edits))
        return lint(Source.of("d", text))[0]

    def test_elements_that_are_fetched_one_by_one(self) -> None:
        (said,) = self.warned((COUNTED, COUNTED.splitlines()[0]), (SHOWN, SHOWN.splitlines()[0]))
        self.assertTrue(said.startswith("d:24:"), said)
        self.assertIn(BETWEEN, said)
        self.assertIn(BETWEEN, self.warned((SHOWN, SHOWN.splitlines()[0]))[0])

    def test_a_list_that_is_written_one_by_one(self) -> None:
        (said,) = self.warned((COUNTED, COUNTED.splitlines()[0]))
        self.assertTrue(said.startswith("d:15:"), said)
        self.assertIn(APART, said)

    def test_nothing_comes_between_in_one_task(self) -> None:
        task = [('"Each10","task":"Showing","position":0', '"Each10","task":"Counting","position":1'), ('"cores":2', '"cores":1')]
        task += [(',{"shortName":"Showing","core":1}', "")]
        self.assertEqual(self.warned((COUNTED, COUNTED.splitlines()[0]), (SHOWN, SHOWN.splitlines()[0]), *task), [])


class Lint(unittest.TestCase):
    def test_no_warning_on_the_examples(self) -> None:
        for folder in EXAMPLES:
            self.assertEqual(lint(Source.of("d", text_of(folder / "description.json"))), ([], 0), folder.name)

    def test_the_description_with_everything(self) -> None:
        """Its giver sends two values at each start, and its taker receives one."""
        found, status = lint(Source.of("d", text_of(DATA / "bases" / "whole" / "description.json")))
        self.assertEqual((len(found), status), (1, 1))
        self.assertIn("`Take` takes one value at each start", found[0])

    def test_each_warning(self) -> None:
        base = text_of(DATA / "examples" / "one_writer" / "description.json")
        for name, (edits, wanted) in CASES.items():
            text = edited(base, edits)
            found, status = lint(Source.of("d", text))
            with self.subTest(name):
                self.assertEqual(status, 1)
                self.assertEqual(len(found), len(wanted), found)
                for line, (said, at) in zip(found, wanted):
                    self.assertIn(said, line)
                    self.assertTrue(line.startswith(f"d:{line_of(text, at)}:"), line)

    def test_what_is_not_a_description(self) -> None:
        for text in ("[", "[]", '{"root":"Top"}'):
            found, status = lint(Source.of("d", text))
            self.assertEqual((len(found), status), (1, 2))


if __name__ == "__main__":
    unittest.main()
