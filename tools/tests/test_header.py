"""Headers of components."""

import json
import re
import shutil
import subprocess
import unittest

from support import DATA, EXAMPLES, WithFolder, described, description_of, run_tool

from rte_tools.c_header import NoHeader, c_header, number
from rte_tools.calls import calls_of, clash_of, listing

WHOLE = DATA / "bases" / "whole"
PROTOTYPE = re.compile(r"^[\w *]*?\b(\w+)\(([\w *,]+)\);$", re.MULTILINE)
COMPILER = shutil.which("gcc")
WORDS = ["-std=c99", "-Wall", "-Wextra", "-pedantic", "-Werror"]

USES = """#include "Rte_NAME.h"
void Check(void)
{
    Angle xyz;
    if (Rte_Read_raw_xyz(xyz) != RTE_E_OK || xyz[0] > Angle_UpperLimit || Rte_Write_good_xyz(xyz) != RTE_E_OK) {
        (void)Rte_Invalidate_good_xyz();
    }
}
"""


def component_with(ports: dict, accesses: list[list[str]], **behavior: list) -> dict:
    """A description with one component, whose P-ports have these data elements."""
    interfaces = [
        {
            "kind": "SenderReceiverInterface",
            "shortName": f"Of_{port}",
            "dataElements": [{"shortName": element, "type": "T", "swImplPolicy": "standard"}],
        }
        for port, element in ports.items()
    ]
    held = [{"kind": "PPortPrototype", "shortName": port, "interface": f"Of_{port}"} for port in ports]
    runnables = [{"shortName": "Go", "accesses": accesses}]
    return {
        "dataTypes": [{"shortName": "T", "baseType": "sint32", "lower": -(2**31), "upper": 7, "words": 1}],
        "interfaces": interfaces,
        "components": [{"shortName": "C", "ports": held, "behavior": {"runnables": runnables, **behavior}}],
        "compositions": [{"shortName": "Top"}],
        "root": "Top",
        "mapping": {"cores": 1},
    }


class Lists(unittest.TestCase):
    def test_what_is_fetched_and_published_at_one_moment_is_said(self) -> None:
        description = description_of(DATA / "examples" / "odometer")
        for name, said, word in (("Display", "Fetched", "IRead_Show"), ("Wheel", "Published", "IWrite_Count")):
            component = description.components[name]
            lines = c_header(description, component, calls_of(description, component))
            self.assertIn(f"/* {said} at one moment: Rte_{word}_way_km, Rte_{word}_way_m */", lines)


def names_in(header: str) -> list[str]:
    """The functions that a header declares and that begin with `Rte_`, in order."""
    return [name for name, _ in PROTOTYPE.findall(header) if name.startswith("Rte_")]


def stub(name: str, header: str) -> str:
    """A file of C that defines the runnables of a header and calls nothing."""
    defined = []
    for line in header.splitlines():
        found = PROTOTYPE.match(line)
        if found and not found.group(1).startswith("Rte_"):
            unused = [f"(void){word.split()[-1].lstrip('*')};" for word in found.group(2).split(",") if word != "void"]
            result = [] if line.startswith("void ") else ["return RTE_E_OK;"]
            defined.append(f"{line[:-1]} {{ {' '.join(unused + result)} }}")
    return "\n".join([f'#include "Rte_{name}.h"', *defined]) + "\n"


class Listings(unittest.TestCase):
    def of(self, value: dict, name: str = "C") -> list[str]:
        description = described(value)
        return listing(name, calls_of(description, description.components[name]))

    def test_one_writer(self) -> None:
        description = description_of(DATA / "examples" / "one_writer")
        listed = [listing(name, calls_of(description, held)) for name, held in description.components.items()]
        self.assertIn(["/* Rte_W.h */", "Rte_Write_o_v"], listed)

    def test_each_call_once_in_declared_order(self) -> None:
        value = component_with({"p": "e"}, [["write", "p", "e"], ["invalidate", "p", "e"]], exclusiveAreas=["a"])
        value["components"][0]["behavior"]["runnables"].append(
            {"shortName": "Else", "accesses": [["enter", "a"], ["write", "p", "e"], ["iwrite", "p", "e"]]}
        )
        self.assertEqual(
            self.of(value),
            [
                "/* Rte_C.h */",
                "Rte_Write_p_e",
                "Rte_Invalidate_p_e",
                "Rte_Enter_a",
                "Rte_Exit_a",
                "Rte_IWrite_Else_p_e",
            ],
        )

    def test_a_component_without_accesses_has_one_line(self) -> None:
        self.assertEqual(self.of(component_with({}, [])), ["/* Rte_C.h */"])

    def test_clash(self) -> None:
        value = component_with({"a": "b_c", "a_b": "c"}, [["write", "a", "b_c"], ["write", "a_b", "c"]])
        description = described(value)
        self.assertEqual(clash_of(calls_of(description, description.components["C"])), "Rte_Write_a_b_c")

    def test_of_whole(self) -> None:
        """Each kind of access, with its word."""
        description = description_of(WHOLE)
        words = {
            call.word for component in description.components.values() for call in calls_of(description, component)
        }
        kinds = "Write Read Invalidate IsUpdated Send Receive IWrite IRead Call Result Switch Mode Enter Exit"
        kinds += " IrvWrite IrvRead IrvIWrite IrvIRead"
        self.assertEqual(words, {f"Rte_{kind}" for kind in kinds.split()})


class Headers(unittest.TestCase):
    def headers(self):
        """The headers of all components of the examples and of `whole`."""
        for folder in [*EXAMPLES, WHOLE]:
            description = description_of(folder)
            for name, component in description.components.items():
                calls = calls_of(description, component)
                yield name, calls, "\n".join(c_header(description, component, calls)) + "\n"

    def test_a_header_declares_what_is_listed(self) -> None:
        for name, calls, header in self.headers():
            self.assertEqual(names_in(header), [call.name for call in calls], name)

    def test_signatures(self) -> None:
        description = description_of(WHOLE)
        text = "".join(header for _, _, header in self.headers())
        for line in (
            "Std_ReturnType Rte_Call_trips_range(Litres litres, Distance *km);",
            "Std_ReturnType Range(Litres litres, Distance *km);",
            "void SetMean(Consumption per100);",
            "Consumption Rte_IrvRead_Range_mean(void);",
            "Std_ReturnType Rte_Invalidate_panel_km(void);",
        ):
            self.assertIn(f"\n{line}\n", text)
        self.assertIn("RTE_TRANSITION_", text)
        self.assertTrue(description.components)

    def test_limits(self) -> None:
        self.assertEqual(number(-(2**31), "sint32"), "(-2147483647 - 1)")
        self.assertEqual(number(-5, "sint8"), "(-5)")
        self.assertEqual(number(2**32 - 1, "uint32"), "4294967295U")

    def test_names_that_c_has_are_refused(self) -> None:
        for path, name in (("dataTypes", "uint8"), ("dataTypes", "int")):
            value = component_with({}, [])
            value[path][0]["shortName"] = name
            description = described(value)
            with self.assertRaises(NoHeader):
                c_header(description, description.components["C"], [])

    def test_a_runnable_with_the_name_of_a_call_is_refused(self) -> None:
        value = component_with({"p": "e"}, [["write", "p", "e"]])
        value["components"][0]["behavior"]["runnables"].append({"shortName": "Rte_Write_p_e"})
        description = described(value)
        component = description.components["C"]
        with self.assertRaises(NoHeader):
            c_header(description, component, calls_of(description, component))


@unittest.skipUnless(COMPILER, "there is no gcc")
class Compiled(WithFolder):
    def compile(self, source: str) -> None:
        command = [str(COMPILER), *WORDS, "-c", source, "-o", f"{source}.o"]
        done = subprocess.run(command, capture_output=True, check=False, text=True)
        self.assertEqual((done.returncode, done.stderr), (0, ""))

    def test_each_header_compiles_with_a_stub_of_its_runnables(self) -> None:
        for name, _, header in Headers().headers():
            with self.subTest(name):
                self.write(f"Rte_{name}.h", header)
                self.compile(self.write(f"{name}.c", stub(name, header)))

    def test_a_call_takes_what_its_prototype_says(self) -> None:
        description = description_of(DATA / "examples" / "arrays_and_invalidation")
        component = next(held for held in description.components.values() if "Check" in held.runnables)
        header = "\n".join(c_header(description, component, calls_of(description, component))) + "\n"
        self.write(f"Rte_{component.name}.h", header)
        source = self.write("uses.c", USES.replace("NAME", component.name))
        self.compile(source)


class Tool(WithFolder):
    def test_statuses(self) -> None:
        value = component_with({"a": "b_c", "a_b": "c"}, [["write", "a", "b_c"], ["write", "a_b", "c"]])
        path = self.write("clash.json", json.dumps(value))
        done = run_tool("header.py", "--program", "", path, "C")
        self.assertEqual((done.returncode, done.stdout), (9, b"clash Rte_Write_a_b_c\n"))
        done = run_tool("header.py", "--program", "", path, "Top")
        self.assertEqual((done.returncode, done.stdout), (8, b"no component\n"))
        done = run_tool("header.py", "--program", "", self.write("no.json", "{"), "C")
        self.assertEqual((done.returncode, done.stdout), (2, b""))

    def test_listing(self) -> None:
        path = self.write("one.json", json.dumps(component_with({"p": "e"}, [["write", "p", "e"]])))
        done = run_tool("header.py", "--program", "", "--listing", path, "C")
        self.assertEqual((done.returncode, done.stdout), (0, b"/* Rte_C.h */\nRte_Write_p_e\n"))

    def program_saying(self, text: str, status: int) -> str:
        path = self.write("program", f"#!/bin/sh\nprintf '{text}'\nexit {status}\n")
        (self.folder / "program").chmod(0o755)
        return path

    def test_the_listing_of_the_program_is_compared(self) -> None:
        path = self.write("one.json", json.dumps(component_with({"p": "e"}, [["write", "p", "e"]])))
        said = self.program_saying("/* Rte_C.h */\\nRte_Write_p_e\\n", 0)
        self.assertEqual(run_tool("header.py", "--program", said, path, "C").returncode, 0)
        said = self.program_saying("/* Rte_C.h */\\n", 0)
        self.assertEqual(run_tool("header.py", "--program", said, path, "C").returncode, 3)
        said = self.program_saying("words refused\\n", 2)
        self.assertEqual(run_tool("header.py", "--program", said, path, "C").returncode, 0)
        said = self.program_saying("refused rule 7 at /\\n", 1)
        done = run_tool("header.py", "--program", said, path, "C")
        self.assertEqual((done.returncode, done.stdout), (1, b"refused rule 7 at /\n"))


if __name__ == "__main__":
    unittest.main()
