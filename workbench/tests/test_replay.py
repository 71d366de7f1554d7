"""replay: forty reports by threads are repeated under schedules made from them; a report that no run has is refused,
with the events that wait for each other."""

import json
import re
import unittest
from concurrent.futures import ThreadPoolExecutor
from unittest import mock

import drawn
from common import bench, example_path, example_text, file_of, program

from nooks_bench.program import Mistake, Program
from nooks_bench.replay import NoOrder, journals_and_answers, replayed

REPORTS = 40

# The driver answers the first read; the kernel answers the second at once, since its blocks do not exist.
READ = {"op": "read", "first": 0, "count": 1}
AT_ONCE = {"op": "read", "first": 9, "count": 1}


def of_disks(scripts):
    """A scenario of disks. A script lists the operations of a thread, each with its part."""
    count = 1 + max(part for script in scripts for part, _ in script)
    parts = [{"name": f"d{part}", "class": "block", "blocks": 4, "driver": drawn.driver("block")} for part in range(count)]
    threads = [
        {"name": f"t{number}", "ops": [{"part": part, **op} for part, op in script]} for number, script in enumerate(scripts)
    ]
    return {"version": 1, "parts": parts, "threads": threads}


def sections_of(given, order):
    """The sections of the run in which all parts boot, then the threads run one after another, in `order`."""
    boots = [len(given["threads"]) + 2 * part for part in range(len(given["parts"])) for _ in range(5)]
    picks = boots + [thread for thread in order for _ in range(50)]
    report = program().report({**given, "schedule": {"kind": "listed", "picks": picks}})
    return re.split(r"(?m)^(?=part |thread 0 )", report)[1:]


def mixed(given, orders):
    """A report that has each part's section from a different run. All these runs have the same answers."""
    runs = [sections_of(given, order) for order in orders]
    return "".join(run[part] for part, run in enumerate(runs)) + runs[0][-1]


def replay_one(seed: int) -> tuple[str, str, bool]:
    """A drawn scenario's report by threads, the report of its replay, and whether its own schedule gives another."""
    given = drawn.scenario(seed)
    threads = program().report(given, threads=True)
    made = replayed(program(), given, threads)
    return threads, program().report(made), program().report(given) != threads


class Replays(unittest.TestCase):
    def test_forty_reports_by_threads(self):
        with ThreadPoolExecutor(4) as pool:
            found = list(pool.map(replay_one, range(REPORTS)))
        for threads, again, _ in found:
            self.assertEqual(journals_and_answers(threads), journals_and_answers(again))
        self.assertGreater(sum(differs for _, _, differs in found), REPORTS // 4)

    def test_the_command(self):
        with file_of(program().ask(["run", "threads"], example_text("link-loses.json")).out, ".report") as report:
            status, out, err = bench("replay", example_path("link-loses.json"), report)
        self.assertEqual((status, err), (0, ""))
        self.assertEqual(json.loads(out)["schedule"]["kind"], "listed")

    def test_a_report_of_another_scenario_is_refused(self):
        status, out, err = bench("replay", example_path("block.json"), example_path("net.report"))
        self.assertEqual((status, out), (2, ""))
        self.assertIn("none of this scenario's", err)

    def test_lines_that_are_no_report_are_refused(self):
        given, report = drawn.scenario(3), program().report(drawn.scenario(3))
        for text in ("", "part\n", report[:-9], re.sub(r"(?m)^\d+ invoke .*\n", "", report), report.replace("t0", "t77")):
            with self.assertRaisesRegex(Mistake, "none of this scenario's"):
                replayed(program(), given, text)

    def test_crossed_scripts_have_no_order(self):
        given = of_disks([[(0, READ), (1, READ)], [(1, READ), (0, READ)]])
        self.assert_no_order(
            given, mixed(given, [[1, 0], [0, 1]]),
            "event 6 of part 0 (t1's operation 2) waits for the answer to t1's operation 1, event 11 of part 1; "
            "that comes after event 6 of part 1 (t0's operation 2), "
            "which waits for the answer to t0's operation 1, event 11 of part 0; that comes after event 6 of part 0",
        )

    def test_a_ring_has_no_order(self):
        given = of_disks([[(0, READ), (1, READ)], [(1, READ), (2, READ)], [(2, READ), (0, READ)]])
        self.assert_no_order(
            given, mixed(given, [[2, 0, 1], [0, 1, 2], [1, 2, 0]]),
            "event 6 of part 0 (t2's operation 2) waits for the answer to t2's operation 1, event 11 of part 2; "
            "that comes after event 6 of part 2 (t1's operation 2), "
            "which waits for the answer to t1's operation 1, event 11 of part 1; "
            "that comes after event 6 of part 1 (t0's operation 2), "
            "which waits for the answer to t0's operation 1, event 11 of part 0; that comes after event 6 of part 0",
        )

    def test_an_operation_that_is_answered_at_once_waits_too(self):
        given = of_disks([[(0, READ), (1, READ)], [(1, READ), (2, AT_ONCE), (0, READ)]])
        self.assert_no_order(
            given, mixed(given, [[1, 0], [0, 1], [0, 1]]),
            "event 6 of part 0 (t1's operation 3) waits for the answer to t1's operation 2, event 6 of part 2, "
            "which waits for the answer to t1's operation 1, event 11 of part 1; "
            "that comes after event 6 of part 1 (t0's operation 2), "
            "which waits for the answer to t0's operation 1, event 11 of part 0; that comes after event 6 of part 0",
        )

    def test_only_the_events_of_the_cycle_are_named(self):
        given = of_disks([[(0, READ), (1, READ), (2, READ), (0, READ)], [(2, READ), (1, READ)]])
        self.assert_no_order(
            given, mixed(given, [[0, 1], [1, 0], [0, 1]]),
            "event 6 of part 2 (t0's operation 3) waits for the answer to t0's operation 2, event 11 of part 1; "
            "that comes after event 6 of part 1 (t1's operation 2), "
            "which waits for the answer to t1's operation 1, event 11 of part 2; that comes after event 6 of part 2",
        )

    def assert_no_order(self, given, report, why):
        """The report is refused with these events, even if the program's audit accepts it."""
        self.assertFalse(program().fits(json.dumps(given), report))
        for fits in (False, True):
            with mock.patch.object(Program, "fits", lambda *_: fits):
                with self.assertRaises(NoOrder) as found:
                    replayed(program(), given, report)
            self.assertEqual(str(found.exception), f"the journals of this report have no common order: {why}")

    def test_sections_of_two_runs_may_have_an_order(self):
        given = of_disks([[(0, READ), (1, READ)], [(0, READ), (1, READ)]])
        report = mixed(given, [[0, 1], [1, 0]])
        again = program().report(replayed(program(), given, report))
        self.assertEqual(journals_and_answers(again), journals_and_answers(report))

    def test_too_few_picks_are_refused(self):
        given = drawn.scenario(3)
        given["schedule"] = {"kind": "drawn", "start": 9}
        report = program().report(given)
        with mock.patch("nooks_bench.replay.MOST_PICKS", 12):
            with self.assertRaisesRegex(Mistake, "at most 12 picks"):
                replayed(program(), given, report)


if __name__ == "__main__":
    unittest.main()
