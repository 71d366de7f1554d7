"""sweep --schedules: the outcome of the scenario itself under each schedule, compared with runs of the program."""

import json
import re
import unittest

from common import bench, file_of, program
from race import failing_driver, racing_scenario

from nooks_bench.scenario import with_schedule

# No burst has this number, so no fault strikes, and only the schedules make a difference.
NOWHERE = ["--burst", "9999", "--quiet"]


def status_under(scenario: dict, start: int) -> int:
    made = with_schedule(scenario, {"kind": "drawn", "start": start})
    return program().ask(["run"], json.dumps(made)).status


class Schedules(unittest.TestCase):
    def test_a_schedule_that_breaks(self):
        scenario = racing_scenario()
        self.assertEqual(program().ask(["run"], json.dumps(scenario)).status, 0)
        broken = [start for start in range(1, 201) if status_under(scenario, start) == 7]
        self.assertGreater(len(broken), 0)
        with file_of(scenario) as path:
            status, out, _ = bench("sweep", path, "--schedules", "200", *NOWHERE, "--fail-on", "broken")
            self.assertEqual(status, 1)
            row = re.search(r"(?m)^ +(\d+)  contract broken: clause (\d+): .*\n +starts (.*)$", out)
            self.assertIsNotNone(row, out)
            self.assertEqual(row[3], ", ".join(str(start) for start in broken))
            self.assertEqual(int(row[1]), len(broken))
            self.assertIn("without: status 0,", out)
            _, text, _ = bench("sweep", path, "--schedules", "200", *NOWHERE, "--json")
        found = json.loads(text)
        starts = [start for group in found["schedules"] if group["outcome"] == "contract broken" for start in group["starts"]]
        self.assertEqual(sorted(starts), broken)
        self.assertEqual(sorted(start for group in found["schedules"] for start in group["starts"]), list(range(1, 201)))
        self.assertEqual([run["status"] == 7 for run in found["runs"]], [start in broken for start in range(1, 201)])

    def test_schedules_that_differ(self):
        scenario = racing_scenario()
        scenario["threads"] = [{"name": "long", "ops": [{"part": 0, "op": "set", "key": 0, "value": 1}]},
                               {"name": "short", "ops": [{"part": 0, "op": "set", "key": 0, "value": 2}]}]

        def left(report: str) -> str:
            return re.search(r"(?m)^config .*$", report)[0]

        base = left(program().report(scenario))
        drawn = [with_schedule(scenario, {"kind": "drawn", "start": start}) for start in range(1, 13)]
        others = [each["schedule"]["start"] for each in drawn if left(program().report(each)) != base]
        self.assertGreater(len(others), 0)
        with file_of(scenario) as path:
            words = ["sweep", path, "--schedules", "12", *NOWHERE]
            status, out, _ = bench(*words, "--fail-on", "changed")
            self.assertEqual(bench(*words, "--fail-on", "broken")[0], 0)
            _, text, _ = bench(*words, "--json")
        self.assertEqual(status, 1)
        self.assertIn("answers changed, contract kept: what is left", out)
        groups = {group["outcome"]: group["starts"] for group in json.loads(text)["schedules"]}
        self.assertEqual(groups["answers changed, contract kept"], others)
        self.assertEqual(len(groups["the same"]), 12 - len(others))

    def test_schedules_under_which_it_fails(self):
        scenario = racing_scenario()
        scenario["parts"][0]["driver"]["asm"] = failing_driver()
        self.assertEqual(program().ask(["run"], json.dumps(scenario)).status, 0)
        for limit, outcome, named in [(0, "given up", "given-up"), (1, "recovered with losses", "losses")]:
            scenario["parts"][0]["limit"] = limit
            drawn = [program().report(with_schedule(scenario, {"kind": "drawn", "start": start})) for start in range(1, 101)]
            failed = [start for start, report in enumerate(drawn, 1) if "\nfailures 1\n" in report]
            self.assertGreater(len(failed), 0)
            with file_of(scenario) as path:
                status, out, _ = bench("sweep", path, "--schedules", "100", *NOWHERE, "--json", "--fail-on", named)
            self.assertEqual(status, 1)
            groups = [group for group in json.loads(out)["schedules"] if group["outcome"] == outcome]
            self.assertEqual(sorted(start for group in groups for start in group["starts"]), failed)
            self.assertEqual({group["cause"] for group in groups}, {"trap explicit"})

    def test_a_base_that_breaks_by_itself(self):
        scenario = racing_scenario()
        scenario["threads"][1]["ops"] = scenario["threads"][1]["ops"][-1:]
        self.assertEqual(program().ask(["run"], json.dumps(scenario)).status, 7)
        with file_of(scenario) as path:
            status, out, _ = bench("sweep", path, *NOWHERE, "--fail-on", "broken")
        self.assertEqual(status, 1)
        self.assertRegex(out, r"without: the contract of link is broken at event \d+, clause 5")

    def test_outcomes_under_several_schedules_are_folded(self):
        with file_of(racing_scenario()) as path:
            _, out, err = bench("sweep", path, "--schedules", "5", "--burst", "9999")
        self.assertEqual(out.count('{"burst": 9999, "after": 0, "kind": "trap"}'), 1)
        self.assertIn('schedule {"kind": "drawn", "start": 1}, and under 4 others', out)
        self.assertRegex(err, r"schedule [1-5] of 5: 5 of 5 faults in ")


if __name__ == "__main__":
    unittest.main()
