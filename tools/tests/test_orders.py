"""Orders of the cores: both outcomes of a node that has two, and one of those that have one."""

from __future__ import annotations

import json
import random
import time
import unittest

from calling import call_tool
from support import DATA, EXAMPLES, WithFolder, cores_of, program, run, run_tool, text_of

from rte_tools.shuffling import ShuffledNode, Tried, try_orders
from rte_tools.turns import Layout

ODOMETER = DATA / "examples" / "odometer"
POWER_MODES = DATA / "examples" / "power_modes"
LONGEST = 5.0  # seconds of a processor for an example


def words(folder) -> list[str]:
    return [str(folder / "description.json"), str(folder / "script.txt")]


class Orders(WithFolder):
    def test_the_examples(self) -> None:
        for folder in EXAMPLES:
            if cores_of(folder) > 1:
                with self.subTest(folder.name):
                    begun = time.process_time()
                    tried = call_tool("orders", *words(folder))
                    self.assertLess(time.process_time() - begun, LONGEST)
                    count = 2 if folder in (POWER_MODES, ODOMETER) else 1
                    self.assertEqual(tried.status, count - 1, tried.out)
                    self.assertIn(f"300 orders of the cores, {count} outcome", tried.out)

    def test_where_two_outcomes_part(self) -> None:
        ended = run_tool("orders.py", *words(POWER_MODES))
        said = ended.stdout.decode()
        self.assertEqual(ended.returncode, 1)
        for line in ("env read heat.level 0 1", "env read heat.level 0 5", "heater:Warm admit no", "heater:Warm admit yes"):
            self.assertIn(f": {line}\n", said)

    def test_a_seed_gives_the_same_orders(self) -> None:
        layout, script = Layout(json.loads(text_of(POWER_MODES / "description.json"))), text_of(POWER_MODES / "script.txt")
        one, again, other = (try_orders(layout, script, 40, seed, lambda tried: None) for seed in (7, 7, 8))
        self.assertEqual(one.outcomes, again.outcomes)
        self.assertEqual(one.counts, again.counts)
        self.assertNotEqual((one.outcomes, one.counts), (other.outcomes, other.counts))

    def test_an_interrupt_gives_what_was_found(self) -> None:
        def interrupt(tried: Tried) -> None:
            if tried.runs == 5:
                raise KeyboardInterrupt

        layout, script = Layout(json.loads(text_of(POWER_MODES / "description.json"))), text_of(POWER_MODES / "script.txt")
        self.assertEqual(try_orders(layout, script, 40, 1, interrupt).runs, 5)

    def test_one_core_has_one_order(self) -> None:
        tried = call_tool("orders", *words(DATA / "examples" / "one_writer"))
        self.assertEqual(tried.status, 0)
        self.assertIn("1 order of the cores, 1 outcome\n", tried.out)

    def test_a_trace_of_each_outcome_is_kept(self) -> None:
        folder = self.folder / "kept"
        tried = call_tool("orders", *words(POWER_MODES), "--keep", str(folder), "--runs", "20")
        self.assertIn(f"kept in {folder}: outcome1.txt to outcome2.txt\n", tried.out)
        self.assertEqual(text_of(folder / "outcome1.txt"), text_of(POWER_MODES / "expected.txt"))
        self.assertIn("env read heat.level 0 5", text_of(folder / "outcome2.txt"))

    @unittest.skipUnless(program(), "the program is not built")
    def test_each_order_is_legal(self) -> None:
        for folder in (POWER_MODES, DATA / "rows" / "mode_switch_on_three_cores", DATA / "rows" / "chain_of_servers"):
            layout, script = Layout(json.loads(text_of(folder / "description.json"))), text_of(folder / "script.txt")
            for seed in range(3):
                path = self.write("trace.txt", ShuffledNode(layout, random.Random(seed)).whole(script))
                said = run([program(), "check", words(folder)[0], path, words(folder)[1]])
                self.assertEqual(said.stdout, b"legal\n", folder.name)

    def test_bad_words(self) -> None:
        description, script = words(POWER_MODES)
        folder, empty, bad = str(self.folder), self.write("empty", ""), self.write("bad.txt", "run\nRun\n")
        for given in ([description, folder], [folder, script], [empty, script], [description, bad], ["nothing", script]):
            with self.subTest(given):
                ended = call_tool("orders", *given)
                self.assertEqual((ended.status, ended.out), (2, ""))
                self.assertEqual(ended.err.count("\n"), 1, ended.err)
        self.assertEqual(call_tool("orders", description, script, "--runs", "0").status, 2)

    def test_a_name_that_is_not_there_is_one_line(self) -> None:
        text = text_of(POWER_MODES / "description.json").replace('"type":"Heater"', '"type":"Heator"')
        ended = call_tool("orders", self.write("description.json", text), words(POWER_MODES)[1])
        self.assertEqual(ended.status, 2)
        self.assertIn("refused rule 5 at /compositions/0/prototypes/1/type", ended.err)
        self.assertEqual(ended.err.count("\n"), 1, ended.err)


if __name__ == "__main__":
    unittest.main()
