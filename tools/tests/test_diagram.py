"""Compositions as Mermaid and as graphs."""

import re
import shutil
import subprocess
import unittest

from support import DATA, EXAMPLES, WithFolder, description_of, edited, run_tool, text_of

from rte_tools.dot import Graph
from rte_tools.mermaid import Flowchart

NESTED = DATA / "examples" / "nested_delegations"
LINE = re.compile(
    r'flowchart LR| +(?:end|subgraph \w+\["[^"]*"\]|\w+\["[^"]*"\]|\w+\(\["[^"]*"\]\)|\w+ -->(?:\|"[^"]*"\|)? \w+)'
)


class Diagrams(unittest.TestCase):
    def test_nested_delegations(self) -> None:
        lines = Flowchart(description_of(NESTED)).lines()
        self.assertIn('      subgraph root__left__pair["pair: Pair"]', lines)
        self.assertIn('  root__left__pair__a -->|"out → in"| root__left__pair__b', lines)
        self.assertIn("  root__left__out --> root__right__in", lines)
        self.assertIn('  root__right__b -->|"out"| root__right__out', lines)
        self.assertIn('  root__right__in -->|"in"| root__right__a', lines)

    def test_each_line_has_a_form_and_each_arrow_its_ends(self) -> None:
        for folder in [*EXAMPLES, DATA / "bases" / "whole"]:
            lines = Flowchart(description_of(folder)).lines()
            declared = {re.split(r"[\[(]", line.strip().removeprefix("subgraph "))[0] for line in lines if "[" in line}
            for line in lines:
                self.assertTrue(LINE.fullmatch(line), line)
                if "-->" in line:
                    self.assertTrue({line.split()[0], line.split()[-1]} <= declared, line)
            self.assertEqual(sum("subgraph" in line for line in lines), sum(line.strip() == "end" for line in lines))

    def test_names_are_distinct(self) -> None:
        chart = Flowchart(description_of(NESTED))
        self.assertNotEqual(chart.identifier("a__b"), chart.identifier("a/b"))


NODE = re.compile(r" +(root\w*) \[")
FRAME = re.compile(r" +subgraph cluster_(root\w*) \{")
ARROW = re.compile(r'  (root\w*)(?::"(\w+)":e)? -> (root\w*)(?::"(\w+)":w)? \[style=(\w+), color="#\w+"\];')


class Graphs(WithFolder):
    def test_nested_delegations(self) -> None:
        lines = Graph(description_of(NESTED)).lines()
        self.assertIn("      subgraph cluster_root__left__pair {", lines)
        solid = '[style=solid, color="#0b7d77"];'
        self.assertIn(f'  root__left__pair__a:"out":e -> root__left__pair__b:"in":w {solid}', lines)
        self.assertIn(f"  root__left__out -> root__right__in {solid}", lines)

    def test_each_arrow_has_its_ends(self) -> None:
        for folder in [*EXAMPLES, DATA / "bases" / "whole"]:
            lines = Graph(description_of(folder)).lines()
            nodes = {found[1]: line for line in lines if (found := NODE.match(line))}
            arrows = [line for line in lines if "->" in line]
            for line in arrows:
                found = ARROW.fullmatch(line)
                self.assertTrue(found, line)
                for node, port in ((found[1], found[2]), (found[3], found[4])):
                    self.assertIn(f'port="{port}"' if port else "label=", nodes[node])
            connected = len([line for line in Flowchart(description_of(folder)).lines() if "-->" in line])
            self.assertEqual(len(arrows), connected)
            self.assertEqual(sum(map(bool, map(FRAME.match, lines))), sum(line.strip() == "}" for line in lines) - 1)

    def test_calls_and_modes_look_unlike_data(self) -> None:
        lines = Graph(description_of(DATA / "bases" / "whole")).lines()
        styles = [ARROW.fullmatch(line)[5] for line in lines if "->" in line]
        self.assertEqual(set(styles), {"solid", "dashed", "dotted"})

    @unittest.skipUnless(shutil.which("dot"), "Graphviz is not installed")
    def test_graphviz_draws_it(self) -> None:
        """Also a port whose name is a word of DOT."""
        text = edited(text_of(DATA / "examples" / "two_cores" / "description.json"), [])
        path = self.write("node.json", text.replace('"out"', '"node"'))
        for words in ([path], [str(DATA / "examples" / "door_control" / "description.json")]):
            made = run_tool("diagram.py", "--to", "dot", *words)
            drawn = subprocess.run(["dot", "-Tsvg"], input=made.stdout, capture_output=True, check=False)
            self.assertEqual((drawn.returncode, drawn.stderr), (0, b""))
            self.assertIn(b"<svg", drawn.stdout)

    def test_the_tool(self) -> None:
        path = str(NESTED / "description.json")
        self.assertTrue(run_tool("diagram.py", path).stdout.startswith(b"flowchart LR\n"))
        self.assertTrue(run_tool("diagram.py", "--markdown", path).stdout.startswith(b"```mermaid\n"))
        self.assertTrue(run_tool("diagram.py", "--to", "dot", path).stdout.startswith(b"digraph"))
        files = [[str(self.folder)], [str(self.folder / "none")]]
        for words in (["--to", "dot", "--markdown", path], ["--to", "png", path], *files):
            refused = run_tool("diagram.py", *words)
            self.assertEqual((refused.returncode, refused.stdout), (2, b""))
            self.assertNotIn(b"Traceback", refused.stderr)


if __name__ == "__main__":
    unittest.main()
