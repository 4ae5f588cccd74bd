"""What a run of the gate cost, as a table."""

import importlib.util
import unittest
from types import ModuleType

from support import TOP


def gate_times() -> ModuleType:
    spec = importlib.util.spec_from_file_location("gate_times", TOP / "tools/dev/gate_times.py")
    module = importlib.util.module_from_spec(spec)
    spec.loader.exec_module(module)
    return module


class Table(unittest.TestCase):
    def setUp(self) -> None:
        self.times = gate_times()

    def test_a_run_of_which_all_was_kept(self) -> None:
        self.assertIn("all was kept", self.times.table({}, 0.0, None))

    def test_tasks_stand_by_crate_the_dearest_first(self) -> None:
        tasks = {key: self.times.Task() for key in (("rte", "proof"), ("rte_text", "proof"), ("rte", "tests"))}
        tasks["rte", "proof"].see(1, 20.0, 60.0)
        tasks["rte", "tests"].see(2, 5.0, 120.0)
        tasks["rte_text", "proof"].see(3, 10.0, 60.0)
        tasks["rte_text", "proof"].see(3, 12.0, 90.0)
        rows = self.times.table(tasks, 0.0, 0).splitlines()
        self.assertRegex(rows[2], r"^\| `rte` \| [\d,]+ \| 20 \| 5 \|  \| 25 \|")
        self.assertRegex(rows[3], r"^\| `rte_text` \| [\d,]+ \| 12 \|")
        self.assertIn("Status of `rt ci`: 0.", rows[-1])


if __name__ == "__main__":
    unittest.main()
