"""The rows and the totals of a sweep: losses with their kinds and amounts, shares with their intervals, the struck
instructions, and the counts of each group."""

import json
import re
import unittest

from common import bench, example, example_path, file_of, program

from nooks_bench.outcomes import Losses, least_and_most
from nooks_bench.scenario import with_faults
from nooks_bench.table import after_text, losses_text
from nooks_bench.totals import starts_text, wilson
from nooks_bench.words import parse_ranges

SOUND = [example_path("sound.json"), "--limit", "1", "--quiet"]


def swept(*words: str) -> dict:
    status, out, err = bench("sweep", *words, "--json")
    assert (status, err) == (0, ""), err
    return json.loads(out)


class Amounts(unittest.TestCase):
    def test_each_row_has_its_kinds(self):
        """The play is interrupted before each of its five samples; before it, calls of the guest are answered busy."""
        _, out, _ = bench("sweep", *SOUND)
        self.assertEqual(re.findall(r"(?m)^ +lost: (.*)\n +(b\d+)", out),
                         [("busy 2", "b3"), ("busy 1", "b4"), ("busy 1", "b5"), ("samples 1-5", "b6")])

    def test_rows_by_amount(self):
        _, out, _ = bench("sweep", *SOUND, "--call", "5", "--amounts")
        rows = re.findall(r"(?m)^ +(\d+)  recovered.*\n(?: +lost: samples (\d)\n)? +b6 .*, after (.*)$", out)
        self.assertEqual(rows, [("3", "5", "0-2"), ("5", "4", "3-7"), ("5", "3", "8-12"), ("5", "2", "13-17"),
                                ("5", "1", "18-22"), ("4", "", "23-26")])

    def test_for_tools(self):
        found = swept(*SOUND, "--call", "5", "--per", "call")
        self.assertEqual([row["losses"] for row in found["rows"]], [{"samples": [1, 5]}, {}])
        amounts = [entry["losses"]["samples"] for entry in found["runs"][0]["faults"]]
        self.assertEqual(amounts, [5] * 3 + [4] * 5 + [3] * 5 + [2] * 5 + [1] * 5 + [0] * 4)
        self.assertEqual(found["per"]["call"][0]["losses"], {"samples": [0, 5]})

    def test_the_two_kinds_of_a_link(self):
        found = swept(example_path("net.json"), "--limit", "1", "--quiet", "--call", "1", "--every", "6")
        entry = found["runs"][0]["faults"][0]
        self.assertEqual(entry["losses"], {"sends": 1, "samples": 0, "busy": 0, "frames": 2})

    def test_texts(self):
        pair = least_and_most([Losses(busy=2), Losses(samples=3, busy=-1), Losses(samples=1)])
        self.assertEqual(pair, (Losses(busy=-1), Losses(samples=3, busy=2)))
        self.assertEqual(losses_text(*pair), "samples 0-3, busy -1 to 2")
        self.assertEqual(losses_text(Losses(), Losses()), "")
        self.assertEqual(Losses(1, 2, 3, 4) - Losses(4, 3, 2, 1), Losses(-3, -1, 1, 3))


class Shares(unittest.TestCase):
    def test_intervals(self):
        """Compares with published values of the formula, and with its values at the ends."""
        for count, whole, low, high in [(10, 100, 0.0552, 0.1744), (0, 20, 0.0, 0.1611), (20, 20, 0.8389, 1.0), (1, 2, 0.0945, 0.9055)]:
            found = wilson(count, whole)
            self.assertAlmostEqual(found[0], low, 4)
            self.assertAlmostEqual(found[1], high, 4)

    def test_of_drawn_faults_alone(self):
        words = [example_path("block.json"), "--limit", "1", "--quiet", "--call", "1"]
        _, out, _ = bench("sweep", *words, "--every", "4")
        self.assertRegex(out, r"(?m)^ +44  recovered, nothing lost  100\.0 %$")
        self.assertRegex(out, r"(?m)^ +44  instructions struck, of 176 in 1 burst$")
        drawn = [*words, "--random", "40", "--seed", "2", "--kind", "reg", "--kind", "trap"]
        _, out, _ = bench("sweep", *drawn)
        found = swept(*drawn)
        for name, count in found["outcomes"].items():
            low, high = found["intervals"][name]
            line = rf"(?m)^ +{count}  {name} +{count / 0.4:.1f} % \({100 * low:.1f} to {100 * high:.1f}\)$"
            self.assertRegex(out, line)
        instructions = {entry["fault"]["after"] for entry in found["runs"][0]["faults"]}
        self.assertEqual(found["struck"], {"struck": len(instructions), "turns": 176, "bursts": 1})
        self.assertIn("40  faults drawn", out)

    def test_bursts_that_do_not_exist(self):
        found = swept(example_path("block.json"), "--burst", "3,99", "--every", "100", "--quiet")
        self.assertEqual(found["struck"], {"struck": 2, "turns": 176, "bursts": 1})


class Groups(unittest.TestCase):
    def test_per_register_and_call(self):
        words = ["--limit", "1", "--quiet", "--every", "25", "--kind", "reg", "--register", "1-3,7", "--value", "2"]
        found = swept(example_path("block.json"), *words, "--per", "register", "--per", "call")
        entries = found["runs"][0]["faults"]
        groups = found["per"]["register"]
        self.assertEqual([group["name"] for group in groups], ["1", "2", "3", "7"])
        for group in groups:
            own = [entry["outcome"] for entry in entries if entry["fault"]["register"] == int(group["name"])]
            self.assertEqual(group["faults"], len(own))
            self.assertEqual(group["outcomes"], {name: own.count(name) for name in group["outcomes"]})
            self.assertEqual(sum(group["outcomes"].values()), len(own))
        calls = {group["name"]: group["faults"] for group in found["per"]["call"]}
        self.assertEqual(list(calls), ["c1 t0 write 5 [100 to 131]", "c2 t0 read 6 1", "c3 t0 set 1 4", "c4 t0 get 1"])
        self.assertEqual(sum(calls.values()), len(entries))
        _, out, _ = bench("sweep", example_path("block.json"), *words, "--per", "register")
        self.assertRegex(out, r"(?m)^faults +no-trace +.*broken  by register$")
        self.assertRegex(out, r"(?m)^ +\d+ .*  7$")

    def test_the_other_groups(self):
        words = [example_path("sound.json"), "--limit", "1", "--quiet", "--every", "4", "--instructions", "--kind", "trap", "--kind", "hang"]
        groupings = ["burst", "kind", "instruction", "schedule"]
        found = swept(*words, "--schedules", "2", *[word for by in groupings for word in ("--per", by)])
        whole = sum(found["outcomes"].values())
        for by in groupings:
            self.assertEqual(sum(group["faults"] for group in found["per"][by]), whole)
        self.assertEqual([group["name"] for group in found["per"]["kind"]], ["trap", "hang"])
        self.assertEqual([group["name"] for group in found["per"]["schedule"]], ["1", "2"])


class Lists(unittest.TestCase):
    def test_long_lists_are_shortened(self):
        self.assertEqual(after_text(list(range(176))), "0-175")
        drawn = parse_ranges("0-2,4,7-8,11,15,17,20-21,25,27,30,33,37-38,41,44,49,53,58")
        self.assertEqual(after_text(drawn), f"0-58 ({len(drawn)} of these instructions)")
        self.assertEqual(starts_text([3, 4, 5, 9]), "3-5, 9")
        many = [start * start for start in range(40)]
        self.assertTrue(starts_text(many).endswith(", .. (40 of them)"), starts_text(many))

    def test_a_fault_that_fails_is_one_of_its_row(self):
        """A row's fault, run alone, loses the amount of the row."""
        base = example("sound.json")
        base["parts"][0]["limit"] = 1
        with file_of(base) as path:
            rows = swept(path, "--quiet", "--amounts")["rows"]
        for row in rows:
            report = program().report(with_faults(base, 0, [row["fault"]]))
            lost = re.search(r"(?m)^losses samples (\d+) busy (\d+)$", report)
            expected = {"samples": row["losses"].get("samples", [0])[0], "busy": row["losses"].get("busy", [0])[0]}
            self.assertEqual({"samples": int(lost[1]), "busy": int(lost[2])}, expected)


if __name__ == "__main__":
    unittest.main()
