"""shrink: the result still has what was asked for, and is small."""

import json
import os
import unittest

import drawn
from common import DATA, bench, example, example_path, file_of, program

from nooks_bench.scenario import operations
from nooks_bench.smaller import without_part, without_thread


def shrunk(scenario: dict, *words: str) -> dict:
    with file_of(scenario) as path:
        status, out, err = bench("shrink", path, "--quiet", *words)
        assert (status, err) == (0, ""), err
        return json.loads(out)


class Shrinks(unittest.TestCase):
    def test_a_broken_contract(self):
        made = shrunk(example("contract-broken.json"), "--status", "7")
        self.assertEqual(program().ask(["run"], json.dumps(made)).status, 7)
        self.assertEqual(operations(made), 1)
        self.assertEqual(len(made["threads"][0]["ops"][0]["data"]), 16)

    def test_texts_and_statuses_of_drawn_scenarios(self):
        asked = [(5, "trap injected"), (11, "trap hang"), (20, "replay_set")]
        done = 0
        for seed in range(60):
            given = drawn.scenario(seed)
            ended = program().ask(["run"], json.dumps(given))
            for _, text in asked[:]:
                if text in ended.out and done < 6:
                    made = shrunk(given, "--text", text, "--status", str(ended.status))
                    again = program().ask(["run"], json.dumps(made))
                    self.assertIn(text, again.out)
                    self.assertEqual(again.status, ended.status)
                    self.assertEqual(len(made["parts"]), 1)
                    self.assertLessEqual(len(json.dumps(made)), len(json.dumps(given)))
                    done += 1
            if done == 6:
                break
        self.assertEqual(done, 6)

    def test_unneeded_faults_and_operations_go(self):
        given = example("write-cut.json")
        given["parts"][0]["faults"] += [{"burst": 90 + index, "after": 0, "kind": "trap"} for index in range(9)]
        made = shrunk(given, "--text", "try 2")
        self.assertEqual(len(made["parts"][0]["faults"]), 1)
        self.assertLessEqual(operations(made), 3)
        self.assertIn("try 2", program().report(made))

    def test_a_part_and_a_thread_less_in_a_listed_schedule(self):
        given = drawn.scenario(4)
        while len(given["parts"]) < 2:
            given["parts"].append({**given["parts"][0], "name": "other"})
        given["threads"] = (given["threads"] * 3)[:2]
        given["schedule"] = {"kind": "listed", "picks": [0, 1, 2, 3, 4, 5, 9]}
        self.assertEqual(without_thread(given, 0)["schedule"]["picks"], [0, 1, 2, 3, 4])
        self.assertEqual(without_part(given, 0)["schedule"]["picks"], [0, 1, 2, 3])

    def test_a_scenario_as_people_write_it(self):
        status, out, err = bench("shrink", os.path.join(DATA, "handmade.jsonc"), "--quiet", "--text", "frame [5,5,5]")
        self.assertEqual((status, err), (0, ""))
        self.assertIn("frame [5,5,5]", program().report(json.loads(out)))

    def test_a_campaign_is_none(self):
        status, _, err = bench("shrink", example_path("campaign-block.json"), "--status", "7")
        self.assertEqual(status, 2)
        self.assertIn("is a campaign: its base is the scenario", err)

    def test_mistakes(self):
        self.assertEqual(bench("shrink", example_path("block.json"))[0], 2)
        status, out, err = bench("shrink", example_path("block.json"), "--status", "7")
        self.assertEqual((status, out), (2, ""))
        self.assertIn("does not hold of the scenario itself", err)


if __name__ == "__main__":
    unittest.main()
