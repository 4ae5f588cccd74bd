"""ARXML in and out: each example goes out and comes back, and what other tools write is read as docs/AUTOSAR.md says."""

from __future__ import annotations

import contextlib
import functools
import io
import json
import sys
import tempfile
import unittest
from dataclasses import replace
from pathlib import Path
from unittest import mock

from support import DATA, EXAMPLES, WithFolder, program, run, run_tool, text_of

import arxml
import to_arxml
from lint import lint
from rte_tools.arxml_import import Imported, imported
from rte_tools.arxml_names import Names
from rte_tools.arxml_tree import Tree
from rte_tools.arxml_write_system import exported
from rte_tools.bus_plan import BusPlan, plan_of
from rte_tools.files import read_schema
from rte_tools.layout import laid_out
from rte_tools.source import Source
from rte_tools.turns import taken

FIXTURES = Path(__file__).resolve().parent / "arxml"
BASES = sorted(path for path in (DATA / "bases").iterdir() if path.is_dir())
KINDS = {"MODE-GROUP": "MODE-DECLARATION-GROUP-PROTOTYPE"}  # whose tag is that of what it is in its interface
LONG = "TMT_RSensorSampleAllTheValuesOfTheFront_Cyclic"
LEFT = ("takes one value at each start", "one by one")  # of what a skeleton is warned


def value_of(folder: Path) -> dict:
    return json.loads(text_of(folder / "description.json"))


def fixture(*names: str, root: str = "") -> Imported:
    return imported([str(FIXTURES / f"{name}.arxml") for name in names], root)


@functools.cache
def back(folder: Path) -> Imported:
    """What comes back of the description of a folder."""
    with tempfile.TemporaryDirectory() as held:
        path = Path(held) / "out.arxml"
        path.write_text(exported(value_of(folder))[0], encoding="utf-8")
        return imported([str(path)])


def by_name(items: list[dict]) -> dict[str, dict]:
    return {item["shortName"]: item for item in items}


def without_programs(plan: BusPlan) -> BusPlan:
    """A plan of the bus without what the runnables do, and without types that nothing uses."""
    return replace(plan, runnables={name: {} for name in plan.runnables}, lists={}, types={})


class RoundTrip(WithFolder):
    """What is written as ARXML and read again is the same, but for the programs and the coherent lists."""

    def test_each_example_comes_back_whole(self) -> None:
        for folder in EXAMPLES:
            with self.subTest(folder.name):
                value, made = value_of(folder), back(folder)
                self.assertEqual(made.report.notes, [])
                self.assertEqual(made.table.count("\n"), 1)
                self.assertEqual(made.value["mapping"], value["mapping"])
                self.assertEqual(made.value["compositions"], value["compositions"])
                for key in ("dataTypes", "modeGroups", "interfaces"):
                    self.assertEqual(made.value.get(key), value.get(key))

    def test_the_bus_plan_is_the_same(self) -> None:
        for folder in [*EXAMPLES, *BASES]:
            with self.subTest(folder.name):
                made, wanted = plan_of(back(folder).value), plan_of(value_of(folder))
                self.assertEqual(without_programs(made), without_programs(wanted))

    @unittest.skipUnless(program(), "the program is not built")
    def test_the_plan_is_the_same_byte_for_byte(self) -> None:
        for folder in [*EXAMPLES, DATA / "bases" / "whole"]:
            with self.subTest(folder.name):
                made = self.write("made.json", laid_out(back(folder).value))
                wanted = run([program(), "plan", str(folder / "description.json")])
                self.assertEqual((run([program(), "plan", made]).stdout, wanted.returncode), (wanted.stdout, 0))

    def test_skeletons_are_descriptions_without_a_warning(self) -> None:
        """But that a skeleton takes one value of a queue, since it makes each access once, and that it has no coherent lists."""
        shape = read_schema()
        for folder in [*EXAMPLES, DATA / "bases" / "whole"]:
            with self.subTest(folder.name):
                made = back(folder).value
                self.assertTrue(shape.accepts(made))
                warnings, _ = lint(Source.of("d", laid_out(made)))
                self.assertEqual([line for line in warnings if not any(said in line for said in LEFT)], [])

    def test_skeletons_run(self) -> None:
        for folder in EXAMPLES:
            with self.subTest(folder.name):
                trace = taken(back(folder).value, text_of(folder / "script.txt"))
                self.assertIn("\nidle\n", trace)

    def test_accesses_are_kept_and_few_are_added(self) -> None:
        """A data send point allows Rte_Invalidate too, and a receive point Rte_IsUpdated."""
        for folder in EXAMPLES:
            value = value_of(folder)
            made = by_name(back(folder).value["components"])
            for component in value["components"]:
                behaviour = made[component["shortName"]]["behavior"]
                runnables = by_name(behaviour["runnables"])
                self.assertEqual(behaviour.get("events"), component["behavior"].get("events"), folder.name)
                for runnable in component["behavior"]["runnables"]:
                    kept = {tuple(access) for access in runnables[runnable["shortName"]].get("accesses", [])}
                    wanted = {tuple(access) for access in runnable.get("accesses", [])}
                    self.assertLessEqual(wanted, kept)
                    self.assertLessEqual({access[0] for access in kept - wanted}, {"invalidate", "isUpdated"})

    def test_references_lead_to_what_they_say(self) -> None:
        for folder in [*EXAMPLES, *BASES]:
            tree = Tree()
            tree.read(self.write("out.arxml", exported(value_of(folder))[0]))
            self.assertEqual(len(tree.paths), len(tree.named), f"{folder.name}: paths are distinct")
            for root in tree.roots:
                for element in root.iter():
                    if "DEST" in element.attrib and element.tag != "DEFINITION-REF":
                        tag = tree.named[element.text].tag
                        self.assertEqual(KINDS.get(tag, tag), element.get("DEST"), f"{folder.name}: {element.text}")

    def test_what_arxml_says_otherwise_is_told(self) -> None:
        value = value_of(DATA / "bases" / "implicit")
        self.assertEqual(len(exported(value)[1]), 1)
        value = value_of(DATA / "bases" / "whole")
        value["components"][0]["behavior"]["runnables"][1]["shortName"] = "T"
        value["components"][0]["behavior"]["events"][1]["runnable"] = "T"
        self.assertEqual(exported(value)[1], ["the runnable of Giver T is T_2 in ARXML, since something beside it has its name"])


class Components(unittest.TestCase):
    """Files by hand, in the ways of other tools."""

    def setUp(self) -> None:
        self.made = fixture("types", "components", "composition")
        self.value = self.made.value
        self.notes = self.made.report.text()

    def component(self, name: str) -> dict:
        return by_name(self.value["components"])[name]

    def test_data_types(self) -> None:
        def kind(name: str) -> tuple:
            return tuple(by_name(self.value["dataTypes"])[name][key] for key in ("baseType", "lower", "upper", "words"))

        self.assertEqual(kind("Temperature"), ("uint8", 0, 255, 1), "-40 to 87.5 by halves, with 0 at -40")
        self.assertEqual(kind("Gear"), ("uint8", 1, 7, 1), "the table of texts")
        self.assertEqual(kind("Count"), ("uint16", 0, 99, 1), "down to the least of the base type")
        self.assertEqual(kind("Flag"), ("boolean", 0, 1, 1))
        self.assertEqual(kind("Frame"), ("uint16", 16, 4000, 3), "0x10 to below 4001")

    def test_interfaces(self) -> None:
        made = by_name(self.value["interfaces"])
        self.assertEqual(list(by_name(made["Values"]["dataElements"])), ["temperature", "gear", "count", "flag", "frame"])
        self.assertEqual(made["Values"]["dataElements"][4]["swImplPolicy"], "queued")
        test = made["Services"]["operations"][0]
        self.assertEqual([(each["shortName"], each["direction"]) for each in test["arguments"]], [("error_2", "in"), ("result", "out")])
        self.assertEqual(test["errors"], [{"shortName": "E_NOT_OK", "code": 1}])
        self.assertEqual(self.value["modeGroups"], [{"shortName": "States", "modes": ["Broken", "Ready"], "initialMode": "Ready"}])

    def test_com_specs(self) -> None:
        ports = by_name(self.component("User")["ports"])
        wanted = [
            {"element": "temperature", "initValue": [121], "handleNeverReceived": True},
            {"element": "gear", "initValue": [2]},
            {"element": "frame", "queueLength": 4},
        ]
        self.assertEqual(ports["in"]["comSpecs"], wanted)
        self.assertEqual(ports["state"]["comSpecs"], [{"element": "state", "supportsAsynchronousModeSwitch": True}])
        self.assertEqual(by_name(self.component("Sensor")["ports"])["services"]["comSpecs"], [{"element": "Test", "queueLength": 1024}])

    def test_a_behaviour(self) -> None:
        behaviour = self.component("User")["behavior"]
        self.assertEqual(behaviour["exclusiveAreas"], ["Outer", "Inner"])
        self.assertEqual(behaviour["variables"], [{"shortName": "kept", "type": "Frame", "initValue": [16, 32, 4000]}, {"shortName": "soft", "type": "Flag"}])
        use = by_name(behaviour["runnables"])["Use"]
        wanted = [
            ["isUpdated", "in", "temperature", "temperature_new"],
            ["read", "in", "temperature", ["temperature"], "s"],
            ["receive", "in", "frame", ["frame_1", "frame_2", "frame_3"], "s"],
            ["iread", "in", "gear", ["gear"]],
            ["mode", "state", "state_is"],
            ["area", "Outer", [["area", "Inner", [["irvRead", "kept", ["kept_1", "kept_2", "kept_3"]]]]]],
            ["call", "services", "Test", [0], ["result"], "s"],
            ["acall", "services", "Reset", [], "s"],
            ["irvIWrite", "soft", [0]],
        ]
        self.assertEqual(use["program"], wanted)
        disabled = {"port": "state", "modes": ["Broken"]}
        self.assertEqual(behaviour["events"][0]["disabledInModes"], disabled)
        self.assertEqual(behaviour["events"][1]["activation"], "onEntry")
        self.assertEqual(behaviour["events"][2]["operation"], "Reset")

    def test_servers(self) -> None:
        """One runnable for two operations is copied, and an operation that nobody serves gets a server."""
        behaviour = self.component("Sensor")["behavior"]
        served = {event["operation"]: event["runnable"] for event in behaviour["events"] if "operation" in event}
        self.assertEqual(served, {"Test": "Serve", "Reset": "Serve_2", "Nobody": "Serve_services_Nobody"})
        self.assertEqual(by_name(behaviour["runnables"])["Serve"]["program"], [["set", "result", 16]])

    def test_a_mode_port_without_a_provider_is_led_to_the_environment(self) -> None:
        inner, whole = self.value["compositions"]
        self.assertEqual(whole["ports"], [{"kind": "RPortPrototype", "shortName": "env_2_user_state", "interface": "Modes"}])
        self.assertEqual(inner["connectors"][-1], {"kind": "DelegationSwConnector", "inner": ["user", "state"], "outer": "user_state"})

    def test_each_thing_that_is_left_out_is_listed(self) -> None:
        for path in (
            "/Types/Both APPLICATION-RECORD-DATA-TYPE",
            "/Interfaces/Services/Test/both ARGUMENT-DATA-PROTOTYPE",
            "/Swc/Sensor/own PR-PORT-PROTOTYPE",
            "/Swc/Sensor/parameters R-PORT-PROTOTYPE",
            "/Swc/Sensor/out INIT-VALUE",
            "/Swc/Sensor/Sensor_Behavior/Always BACKGROUND-EVENT",
            "/Swc/Sensor/Sensor_Behavior/Memory PER-INSTANCE-MEMORY",
            f"/Swc/Sensor/Sensor_Behavior/{LONG} OFFSET",
            "/Swc/Sensor/Sensor_Behavior/Sample/c VARIABLE-ACCESS",
            "/Swc/User/in NUMERICAL-VALUE-SPECIFICATION",
            "/Swc/User/User_Behavior/Use/p PARAMETER-ACCESS",
            "/Swc/User/User_Behavior/Use/Call TIMEOUT",
            "/Compositions/Inner/missing SW-COMPONENT-PROTOTYPE",
            "/Compositions/Inner/wrong ASSEMBLY-SW-CONNECTOR",
            "/Compositions/Inner/through PASS-THROUGH-SW-CONNECTOR",
            "/Compositions/Whole/asked R-PORT-PROTOTYPE",
            "/Compositions/Whole/asked DELEGATION-SW-CONNECTOR",
        ):
            self.assertEqual(self.notes.count(f"\nleft out\t{path}\t"), 1, path)
        self.assertEqual(self.made.report.number("left out"), 22)

    def test_changes_are_listed(self) -> None:
        for text in ("its PERIOD of 0.0125 s becomes 12 ms", "the QUEUE-LENGTH 5000 becomes 1024", "is replaced when invalid", "OnReset starts Serve_2"):
            self.assertEqual(self.notes.count(text), 1, text)

    def test_a_long_name(self) -> None:
        event = self.component("Sensor")["behavior"]["events"][0]
        self.assertEqual(event["shortName"], "TMT_RSensorSampleAllThe_b28c9378")
        self.assertIn(f"\nTMT_RSensorSampleAllThe_b28c9378\t{LONG}\t/Swc/Sensor/Sensor_Behavior/{LONG}\n", self.made.table)

    @unittest.skipUnless(program(), "the program is not built")
    def test_the_program_accepts_what_is_made(self) -> None:
        for names in (("types", "components", "composition"), ("types", "components"), ("types", "components", "composition", "mapping.ecuc")):
            with self.subTest(names), tempfile.NamedTemporaryFile("w", suffix=".json", encoding="utf-8") as file:
                file.write(laid_out(fixture(*names).value))
                file.flush()
                ended = run([program(), "plan", file.name])
                self.assertEqual((ended.returncode, ended.stdout[:8]), (0, b"instance"))

    def test_components_alone_get_a_root(self) -> None:
        value = fixture("types", "components").value
        self.assertEqual(value["root"], "Top")
        self.assertEqual([each["shortName"] for each in value["compositions"][0]["ports"]], ["Sensor_out", "Sensor_services", "User_in", "User_state"])
        self.assertEqual(len(value["mapping"]["tasks"]), 4, "one for all, and one for each server that the environment calls")

    def test_the_order_of_files_is_free(self) -> None:
        self.assertEqual(plan_of(fixture("composition", "components", "types").value), plan_of(self.value))

    def test_another_root(self) -> None:
        value = fixture("types", "components", "composition", root="/Compositions/Inner").value
        self.assertEqual((value["root"], len(value["compositions"])), ("Inner", 1))


class Configurations(unittest.TestCase):
    """An ECU configuration alone becomes a mapping."""

    def setUp(self) -> None:
        self.made = fixture("mapping.ecuc")

    def test_the_mapping(self) -> None:
        mapping = self.made.value["mapping"]
        self.assertEqual(list(self.made.value), ["mapping"])
        self.assertEqual(mapping["cores"], 2)
        self.assertEqual(mapping["tasks"], [{"shortName": "Io_Task", "core": 0}, {"shortName": "My_Task", "core": 1}, {"shortName": "Idle_Task", "core": 0}])
        self.assertEqual([(each["instance"], each["task"], each["position"]) for each in mapping["events"]], [("CpLamp", "My_Task", 0), ("CpLamp", "My_Task", 1)])
        shape = read_schema()
        self.assertTrue(shape.accepts(mapping, shape.schema["$defs"]["mapping"]))

    def test_equal_positions_are_numbered_anew_and_that_is_told(self) -> None:
        self.assertEqual(self.made.report.text().count("its events are numbered anew"), 1)

    def test_all_else_is_listed(self) -> None:
        notes = self.made.report.text()
        for path in ("/Ecu/Can Can", "/Ecu/Os/Io_Task OsTaskPriority", "/Ecu/Os/Alarm OsAlarm", "/Ecu/Rte/CanBsw RteBswModuleInstance"):
            self.assertEqual(notes.count(f"\nleft out\t{path}\t"), 1, path)
        self.assertEqual(notes.count("RteEventToTaskMapping\tit names no task"), 1)
        self.assertEqual(self.made.report.number("left out"), 5)


class ShortNames(unittest.TestCase):
    def test_what_fits_stays(self) -> None:
        names = Names.of(["a", "x" * 32])
        self.assertEqual((names.form("a"), names.form("x" * 32)), ("a", "x" * 32))

    def test_forms_are_distinct_short_and_hang_on_the_name_alone(self) -> None:
        long = [f"{'event_of_a_runnable_with_a_name'}_{number}" for number in range(2000)]
        names = Names.of(long)
        forms = [names.form(name) for name in long]
        self.assertEqual(len(set(forms)), len(long))
        self.assertLessEqual(max(map(len, forms)), 32)
        self.assertEqual(Names.of(long[:1]).form(long[0]), forms[0])

    def test_a_form_is_no_other_name(self) -> None:
        long = "x" * 40
        taken_already = Names.of([long]).form(long)
        self.assertNotEqual(Names.of([long, taken_already]).form(long), taken_already)

    def test_names_in_a_list_are_distinct(self) -> None:
        names = Names.of(["a"])
        self.assertEqual([names.declare("l", "a", f"/p{number}/a") for number in range(3)], ["a", "a_2", "a_3"])
        self.assertEqual(names.table().count("\n"), 3)

    def test_what_is_no_name_here_becomes_one(self) -> None:
        self.assertRegex(Names.of(["1-\u00e4"]).form("1-\u00e4"), r"^[A-Za-z][A-Za-z0-9_]{1,31}$")


def called(tool, *words: str) -> tuple[int, str, str]:
    """The status of a tool, and what it prints, without a process of its own."""
    out, err = io.StringIO(), io.StringIO()
    with mock.patch.object(sys, "argv", [tool.__name__, *words]), contextlib.redirect_stdout(out), contextlib.redirect_stderr(err):
        try:
            status = tool.main()
        except SystemExit as ended:
            status = ended.code
    return status, out.getvalue(), err.getvalue()


class Statuses(WithFolder):
    """Bad input ends with a told status and one line."""

    def refused(self, wanted: int, tool, *words: str) -> None:
        status, out, err = called(tool, *words)
        self.assertEqual((status, out, err.count("\n")), (wanted, "", 1), err)

    def test_arxml(self) -> None:
        out = str(self.folder / "d.json")
        other = '<AUTOSAR xmlns="http://autosar.org/3.1.4"/>'
        for text in ("", "{", "<a/>", other, '<?xml version="1.0" encoding="none"?><a/>', '<AUTOSAR xmlns="http://autosar.org/schema/r4.0"/>'):
            self.refused(3, arxml, self.write("in.arxml", text), "-o", out)
        self.refused(3, arxml, str(self.folder / "none"), "-o", out)
        self.refused(3, arxml, str(self.folder), "-o", out)
        self.refused(3, arxml, str(FIXTURES / "composition.arxml"), "-o", out, "--root", "Nowhere")
        self.refused(4, arxml, str(FIXTURES / "mapping.ecuc.arxml"), "-o", str(self.folder / "none" / "d.json"))
        self.refused(4, arxml, str(FIXTURES / "mapping.ecuc.arxml"), "-o", "/dev/null")
        self.assertEqual(called(arxml, out)[0], 2)
        self.assertEqual(called(arxml, "--help")[0], 0)

    def test_to_arxml(self) -> None:
        out = str(self.folder / "d.arxml")
        for text in ("", "[]", '{"root":"Top","mapping":{"cores":1}}'):
            self.refused(3, to_arxml, self.write("d.json", text), "-o", out)
        self.refused(3, to_arxml, str(self.folder), "-o", out)
        self.refused(4, to_arxml, str(EXAMPLES[0] / "description.json"), "-o", str(self.folder / "none" / "d"))
        self.refused(1, to_arxml, str(DATA / "bases" / "implicit" / "description.json"), "-o", out)
        self.assertEqual(called(to_arxml, out)[0], 2)
        self.assertEqual(called(to_arxml, "--help")[0], 0)

    def test_there_and_back(self) -> None:
        description, out, made = str(EXAMPLES[0] / "description.json"), str(self.folder / "a.arxml"), str(self.folder / "b.json")
        self.assertEqual(run_tool("to_arxml.py", description, "-o", out).returncode, 0)
        ended = run_tool("arxml.py", out, "-o", made)
        self.assertEqual((ended.returncode, ended.stderr), (0, b""))
        self.assertEqual(sorted(path.name for path in self.folder.iterdir()), ["a.arxml", "b.json", "b.names.tsv", "b.report.tsv"])

    def test_a_mapping_alone_is_told(self) -> None:
        status, _, err = called(arxml, str(FIXTURES / "mapping.ecuc.arxml"), "-o", str(self.folder / "m.json"))
        self.assertEqual(status, 1)
        self.assertIn("the mapping alone was made", err)


if __name__ == "__main__":
    unittest.main()
