"""The resources that a driver holds, by the kernel calls of a report and by what the kernel takes back at a failure."""

import os
import unittest

from common import DATA, bench, file_of, program

from nooks_bench.held import resources_at_end, resources_before
from nooks_bench.report import parse_report


def scenario(faults: list[dict], last: list[dict]) -> dict:
    """Three plays, the first and the last of which leak."""
    with open(os.path.join(DATA, "leaking.asm"), encoding="utf-8") as file:
        text = file.read()
    part = {"name": "speaker", "class": "sound", "limit": 3, "driver": {"asm": text}, "faults": faults}
    plays = [{"part": 0, "op": "play", "samples": samples} for samples in ([1, 2, 3], [1, 2, 3, 4], [9, 9])]
    ops = [{"part": 0, "op": "open"}, *plays, *last]
    return {"version": 1, "parts": [part], "threads": [{"name": "app", "ops": ops}]}


class Holds(unittest.TestCase):
    def test_a_leak_is_reported(self):
        with file_of(program().report(scenario([], [])), ".report") as path:
            _, out, _ = bench("explain", path)
        self.assertIn("holds at the end 16 words of the heap, taken in its start: heap 2048 16 (event 5)", out)
        leak = "holds at the end 5 words of the heap, taken in 2 calls of play: heap 2128 3 (event 13), heap 2131 2 (event 22)"
        self.assertIn(leak, out)
        self.assertIn("holds at the end 64 words of the heap, taken in 1 call of open: borrow 7 2064 (event 9)", out)

    def test_a_resource_that_is_given_back_is_not_reported(self):
        report = parse_report(program().report(scenario([], [{"part": 0, "op": "close"}])))
        resources = [each.text for each in resources_at_end(report.parts[0])]
        self.assertEqual(resources, ["heap 2048 16", "heap 2128 3", "heap 2131 2"])

    def test_as_the_kernel_takes_it_back(self):
        looked = 0
        for burst in range(4, 20):
            for after in range(0, 12, 2):
                fault = {"burst": burst, "after": after, "kind": "trap"}
                part = parse_report(program().report(scenario([fault], [{"part": 0, "op": "close"}]))).parts[0]
                for event in part.events:
                    if event.kind == "stage" and event.text == "collect":
                        collected = event.line.partition(" collect")[2].partition(" buffer ")[0]
                        resources = "".join(f" {each.text}" for each in resources_before(part, event.number - 1))
                        self.assertEqual(resources, collected, fault)
                        looked += bool(collected)
        self.assertGreater(looked, 20)

    def test_a_part_that_is_given_up_holds_nothing(self):
        given = scenario([{"burst": 8, "after": 0, "kind": "trap"}], [])
        given["parts"][0]["limit"] = 0
        part = parse_report(program().report(given)).parts[0]
        self.assertTrue(part.given_up)
        self.assertEqual(resources_at_end(part), [])


if __name__ == "__main__":
    unittest.main()
