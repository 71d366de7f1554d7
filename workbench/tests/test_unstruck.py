"""Which faults struck, by a report and its scenario, compared with the program's own traces of each burst."""

import json
import random
import unittest

import drawn
from common import bench, example, example_path, file_of, program

from nooks_bench.report import parse_report
from nooks_bench.unstruck import strikes_of


def fault(draw: random.Random) -> dict:
    made = {"burst": draw.randint(1, 9), "after": draw.choice([0, 1, 2, 3, 5, 8, 13, 20, 90]),
            "kind": draw.choice(["trap", "hang", "poke", "code", "reg"])}
    if made["kind"] in ("poke", "code"):
        made["address"] = draw.randint(0, 60) if made["kind"] == "code" else draw.randint(2048, 5000)
    if made["kind"] == "reg":
        made["register"] = draw.randrange(16)
    if made["kind"] in ("poke", "code", "reg"):
        made["value"] = draw.randint(0, 9)
    return made


def trace_form(given: dict) -> str:
    """A fault as a trace writes it."""
    words = [given[key] for key in ("register", "address", "value") if key in given]
    return " ".join(map(str, [given["after"], given["kind"], *words]))


class Unstruck(unittest.TestCase):
    def test_as_the_traces_say(self):
        draw = random.Random(11)
        struck = missed = nowhere = 0
        for seed in range(60):
            given = drawn.scenario(seed)
            faults = [fault(draw) for _ in range(draw.randint(4, 12))]
            given["parts"][0] |= {"faults": faults, "limit": 16}
            part = parse_report(program().report(given)).parts[0]
            strikes = strikes_of(part, faults)
            for burst in sorted({each["burst"] for each in faults}):
                ours = [each for each in strikes if each.fault["burst"] == burst]
                ended = program().ask(["trace", "0", str(burst)], json.dumps(given))
                if ended.status == 3:
                    self.assertTrue(all("the run has no burst" in each.why for each in ours))
                    nowhere += len(ours)
                    continue
                unstruck = [line[9:] for line in ended.out.split("\n") if line.startswith("unstruck ")]
                self.assertEqual(sorted(trace_form(each.fault) for each in ours if each.why), sorted(unstruck), given)
                missed += len(unstruck)
                struck += sum(not each.why for each in ours)
        self.assertGreater(min(struck, missed, nowhere), 30)

    def test_each_why(self):
        given = example("block.json")
        given["parts"][0] |= {"limit": 1, "faults": [
            {"burst": 5, "after": 90, "kind": "trap"},
            {"burst": 3, "after": 20, "kind": "reg", "register": 13, "value": 4},
            {"burst": 3, "after": 9, "kind": "trap"},
            {"burst": 99, "after": 0, "kind": "trap"},
        ]}
        report = program().report(given)
        with file_of(given) as path, file_of(report, ".report") as report_path:
            _, explained, _ = bench("explain", report_path, "--input", path)
            _, text, _ = bench("timeline", "--text", report_path, "--input", path)
            _, svg, _ = bench("timeline", report_path, "--input", path)
            _, alone, _ = bench("explain", report_path)
        count = len(parse_report(report).parts[0].bursts())
        for line in [
            "fault 0: trap after 90 instructions of burst 5 did not strike: burst 5 ended after 2 instructions",
            "fault 1: reg r13 = 4 after 20 instructions of burst 3 did not strike: fault 2, a trap after 9 instructions, ended the burst before",
            f"fault 3: trap after 0 instructions of burst 99 did not strike: the run has no burst 99: disk has bursts 1 to {count}",
        ]:
            self.assertIn(line, explained)
            self.assertIn(line, text)
            self.assertIn(line, svg)
        self.assertIn("fault 2: trap after 9 instructions of burst 3 struck, event 8", explained)
        self.assertIn("faults ", text)
        self.assertNotIn("fault 1", alone)

    def test_another_scenario_is_a_mistake(self):
        status, _, err = bench("explain", example_path("block.report"), "--input", example_path("net.json"))
        self.assertEqual(status, 2)
        self.assertIn("another scenario", err)


if __name__ == "__main__":
    unittest.main()
