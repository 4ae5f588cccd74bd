"""Two nodes: why nothing is linked, of which description a refusal is, and the page of both traces."""

from __future__ import annotations

import unittest

from calling import call_tool
from support import DATA, WithFolder, description_of, run_tool, text_of

from rte_tools.explaining import explain
from rte_tools.links import linked, why_unlinked
from rte_tools.refusal import read_refusal
from rte_tools.two_nodes import read_sides

ROWS, TAILGATE = DATA / "rows", DATA / "examples" / "tailgate"
TWO_NODES, TWO_LINKS = ROWS / "two_nodes", ROWS / "two_links"


def nodes_of(folder) -> tuple[str, str]:
    return str(folder / "description.json"), str(folder / "second.json")


class Links(unittest.TestCase):
    def test_elements_of_one_name_are_linked_in_the_first_nodes_order(self) -> None:
        one = description_of(TWO_LINKS)
        two = description_of(TWO_LINKS, "second.json")
        self.assertEqual(linked(one, two), ["bus.far", "bus.near"])
        self.assertEqual(linked(two, one), [])

    def test_why_nothing_is_linked(self) -> None:
        one, two = description_of(TWO_NODES), description_of(TWO_NODES, "second.json")
        self.assertEqual(list(why_unlinked(one, description_of(TAILGATE, "second.json"))), [
            "`in.v` goes out at the first node, and the root of the second has no `in.v`. It takes in `tailgate.step`.",
        ])  # fmt: skip
        self.assertIn("a queued element of a P-port", " ".join(why_unlinked(one, one)))
        self.assertIn("sends nothing out", " ".join(why_unlinked(two, one)))


class Explained(WithFolder):
    def said(self, refusal: str, one: str, two: str, script: str = "") -> str:
        return " ".join(" ".join(explain(read_refusal(refusal), one, script, "", two)).split())

    def test_of_which_description_a_refusal_is(self) -> None:
        one, two = nodes_of(TWO_NODES)
        broken = str(ROWS / "lower_above_upper" / "description.json")
        self.assertIn(f"{broken}:", self.said("refused rule 6 at /dataTypes/0 of 2", one, broken))
        self.assertIn(f"{broken}:", self.said("refused rule 6 at /dataTypes/0 of 1", broken, two))
        self.assertIn("no such file", self.said("not read 2", one, "nothing.json", str(TWO_NODES / "script.txt")))
        for said in ("refused rule 6 at /dataTypes/0 of 2", "no link"):
            self.assertEqual(str(read_refusal(said)), said)

    def test_words_in_another_order(self) -> None:
        script = str(TWO_NODES / "script.txt")
        self.assertIn("`pair` takes DESCRIPTION DESCRIPTION SCRIPT", self.said("refused rule 1 at / of 2", nodes_of(TWO_NODES)[0], script))

    def test_a_script_receives_from_no_linked_element(self) -> None:
        script = self.write("script.txt", "receive in.v\n")
        said = self.said("script refused line 1 cause 2", *nodes_of(TWO_NODES), script)
        self.assertIn("goes over the link to the second node", said)

    def test_the_tool_runs_two_nodes(self) -> None:
        one, _ = nodes_of(TWO_NODES)
        said = self.write("said.txt", "no link\n")
        result = run_tool("explain.py", "--second", one, one, "s", "--said", said)
        self.assertEqual(result.returncode, 10)
        self.assertIn(b"Mend: give both ports", result.stdout)
        self.assertEqual(run_tool("explain.py", "--second", one, one).returncode, 2)


class Page(WithFolder):
    def test_the_example(self) -> None:
        one, two = nodes_of(TAILGATE)
        drawn = call_tool("timeline", "--second", two, one, str(TAILGATE / "pair.txt")).out
        self.assertIn("4 values over the link", drawn)
        self.assertIn("tailgate.step 1 goes over the link, answered 130", drawn)
        for lane in ("1 Main", "2 Main", "2 lifter.order.step"):
            self.assertIn(f">{lane}<", drawn)

    def test_each_node_has_its_own_ticks(self) -> None:
        sides = read_sides(str(TAILGATE / "pair.txt"), description_of(TAILGATE), description_of(TAILGATE, "second.json"))
        self.assertEqual([len(side.replay.ticks) for side in sides], [5, 5])
        self.assertEqual([len(side.replay.runs) for side in sides], [2, 2])

    def test_the_lines_of_each_node_are_its_trace(self) -> None:
        lines = text_of(TAILGATE / "pair.txt").splitlines()
        own = [line[2:] for line in lines if line.startswith("1 ") and "env receive" not in line]
        self.assertEqual(own, text_of(TAILGATE / "expected.txt").splitlines())

    def test_what_is_no_text_of_two_nodes(self) -> None:
        one, two = nodes_of(TAILGATE)
        for text in ("rte-trace 2\n", "1 rte-trace 2\n", "1 env tick\n", "1 rte-trace 2\n2 rte-trace 2\n3 run\n"):
            result = run_tool("timeline.py", "--second", two, one, self.write("traces.txt", text))
            self.assertEqual(result.returncode, 2, text)
        result = run_tool("timeline.py", "--second", one, two, str(TAILGATE / "pair.txt"))
        self.assertEqual(result.returncode, 2)


if __name__ == "__main__":
    unittest.main()
