"""What led to what in a trace, and what waited in queues."""

import json
import unittest

from support import DATA, TOP, description_of, replay_of, text_of

from rte_tools.description import described
from rte_tools.replay import Replay, replay
from rte_tools.trace import NotATrace, read_trace

ROWS, EXAMPLE = DATA / "rows", DATA / "examples"


def arrows(shown: Replay) -> list[tuple[str, int, int]]:
    return [(arrow.kind, arrow.first, arrow.last) for arrow in shown.arrows]


class Arrows(unittest.TestCase):
    def test_a_call_on_two_cores(self) -> None:
        shown = replay_of(EXAMPLE / "trip_computer")
        calls = [("call", 16, 17), ("answer", 19, 20), ("call", 26, 29), ("answer", 31, 34)]
        self.assertEqual(arrows(shown), [*calls, ("call", 48, 49), ("answer", 51, 52)])
        self.assertEqual((shown.arrows[2].source, shown.arrows[2].target), ("env", "Trip"))
        waits = [(wait.lane, wait.first, wait.last) for wait in shown.waits]
        self.assertEqual(waits, [("Front", 16, 20), ("Front", 48, 52)])

    def test_a_direct_server(self) -> None:
        shown = replay_of(ROWS / "direct_call")
        self.assertEqual([(arrow.kind, arrow.depth) for arrow in shown.arrows], [("call", 1), ("answer", None)])
        self.assertTrue(shown.waits[0].is_direct)

    def test_a_return_starts_and_gives_a_result(self) -> None:
        shown = replay_of(ROWS / "call_returns_by_event")
        self.assertEqual(arrows(shown)[:3], [("call", 16, 17), ("answer", 19, 20), ("answer", 19, 22)])
        self.assertEqual(shown.waits, [])  # an `acall` does not wait

    def test_modes(self) -> None:
        shown = replay_of(EXAMPLE / "power_modes")
        self.assertEqual(
            arrows(shown)[:4], [("data", 19, 31), ("mode", 35, 36), ("mode", 40, 41), ("mode", 44, 45)]
        )

    def test_a_write_starts_by_data(self) -> None:
        shown = replay_of(EXAMPLE / "power_modes")
        self.assertEqual(shown.arrows[0].text, "manager:Decide starts at line 31, since line 19")

    def test_a_window_keeps_what_leads_into_it(self) -> None:
        self.assertEqual(arrows(replay_of(EXAMPLE / "trip_computer").window(27, 30)), [("call", 26, 29)])


class Due(unittest.TestCase):
    def test_a_pending_start_is_a_flag(self) -> None:
        """Due at the first tick of three periods, and not at the last."""
        shown = replay_of(ROWS / "thirty_ticks_a_pending_start_is_a_flag")
        self.assertEqual({bar.due for bar in shown.bars}, {11})

    def test_from_the_beginning(self) -> None:
        self.assertEqual(replay_of(EXAMPLE / "init_chain").bars[0].due, 1)

    def test_after_the_last_start(self) -> None:
        lines = ["rte-trace 2", *["env tick"] * 25, "run", "w:Step start E", "w:Step end", *["env tick"] * 5]
        shown = replay(description_of(ROWS.parent / "examples" / "one_writer"), read_trace([*lines, "w:Step start E"]))
        self.assertEqual([bar.due for bar in shown.bars], [11, 34])

    def test_each_start_of_a_legal_trace_is_known(self) -> None:
        for path in [*ROWS.glob("*/expected.txt"), *EXAMPLE.glob("*/expected.txt")]:
            try:
                shown = replay_of(path.parent)
            except NotATrace:
                continue
            for bar in shown.bars:
                self.assertIsNotNone(bar.due, (path.parent.name, bar))


class Queues(unittest.TestCase):
    def test_a_value_is_lost(self) -> None:
        queue = replay_of(ROWS / "queue_of_two_loses_the_third").queues["c.q.v"]
        self.assertEqual((queue.kind, queue.length), ("values", 2))
        self.assertEqual(
            [(fill.moment, fill.count, fill.text) for fill in queue.fills],
            [(1, 0, ""), (2, 1, "1"), (3, 2, "1; 2"), (4, 2, "1; 2"), (7, 1, "2"), (8, 0, "")],
        )
        self.assertEqual([fill.moment for fill in queue.fills if fill.has_lost], [4])

    def test_what_was_lost_before_a_window_is_not_lost_in_it(self) -> None:
        shown = replay_of(ROWS / "queue_of_two_loses_the_third").window(5, 8)
        fills = shown.queues["c.q.v"].fills
        self.assertEqual([(fill.moment, fill.count, fill.has_lost) for fill in fills][:2], [(5, 2, False), (7, 1, False)])

    def test_each_receiver_has_its_own(self) -> None:
        queues = replay_of(ROWS / "two_receivers_one_full").queues
        self.assertEqual({name: queue.length for name, queue in queues.items()}, {"c.q.v": 2, "d.q.v": 1})

    def test_requests(self) -> None:
        queue = replay_of(ROWS / "queue_of_two_requests").queues["v.s.op"]
        self.assertEqual(
            [(fill.count, fill.has_lost) for fill in queue.fills],
            [(0, False), (1, False), (2, False), (2, True), (1, False), (0, False)],
        )

    def test_a_queue_of_one_request_is_not_shown(self) -> None:
        self.assertEqual(replay_of(EXAMPLE / "trip_computer").queues, {})


class Order(unittest.TestCase):
    def test_values_come_in_the_order_of_the_plan(self) -> None:
        value = json.loads(text_of(EXAMPLE / "door_control" / "description.json"))
        lines = ["rte-trace 2", "env write key.locked 1 0", "rear_right/latch:Move write door.open 1 0"]
        shown = replay(described(value), read_trace(lines))
        self.assertEqual(list(shown.values)[-1], "env.key.locked")  # the environment stands last


class Tolerance(unittest.TestCase):
    def test_wrong_traces(self) -> None:
        """Those of the corpus are gone through, whatever they are of."""
        description = description_of(EXAMPLE / "trip_computer")
        for path in (TOP / "corpus").glob("*.txt"):
            try:
                trace = read_trace(path.read_text(encoding="utf-8", errors="replace").split("\n"))
            except NotATrace:
                continue
            replay(description, trace).window(3, 9)


if __name__ == "__main__":
    unittest.main()
