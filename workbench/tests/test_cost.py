"""cost: three examples counted by hand, a large run counted from its report, and models."""

from __future__ import annotations

import json
import os
import re
import unittest

from common import TOP, bench, example, example_path, file_of, program

from nooks_bench.cost import costs_of
from nooks_bench.cost_model import model_of, reckon

MODEL = os.path.join(TOP, "workbench/examples/costs.toml")

COLUMNS = ("calls", "refused", "entries", "crossings", "kernel_calls", "pauses", "copied", "cleared", "rights", "pages",
           "resets", "instructions", "acts")

# Counted by hand from examples/*.report. A buffer has 128 words, the pages below the kernel's objects are 115.
BY_HAND = {
    # c1 writes 2 blocks: 32 words in, 96 cleared. c2 reads one: 128 cleared, 2 pages lent and 2 taken back, 16 words out.
    # c3 sets, c4 gets: 1 word out. c5 is refused.
    "block.json": {
        "write": (1, 0, 1, 2, 0, 0, 32, 96, 0, 0, 0, 176, 2),
        "read": (2, 1, 1, 2, 0, 0, 16, 128, 4, 0, 0, 89, 1),
        "set": (1, 0, 1, 2, 0, 0, 0, 0, 0, 0, 0, 4, 1),
        "get": (1, 0, 1, 2, 0, 0, 1, 128, 4, 0, 0, 6, 0),
        "boot": (0, 0, 0, 4, 1, 0, 0, 0, 0, 115, 0, 4, 0),
    },
    # c1 opens, c8 is answered by the shadow. c7 plays 8 samples and is interrupted after 24 instructions, c10 plays 2.
    # c2, c4 and c6 get; c3, c5 and c9 set. The recovery: two bursts of init, two replayed sets, one replayed open.
    "sound-skips.json": {
        "open": (2, 0, 1, 2, 0, 0, 0, 0, 0, 0, 0, 1, 0),
        "play": (2, 0, 2, 4, 0, 0, 10, 120 + 126, 0, 0, 0, 24 + 12, 5 + 2),
        "get": (3, 0, 3, 6, 0, 0, 3, 3 * 128, 3 * 4, 0, 0, 10 + 10 + 6, 0),
        "set": (3, 0, 3, 6, 0, 0, 0, 0, 0, 0, 0, 8 + 4 + 4, 3),
        "boot": (0, 0, 0, 4, 1, 0, 0, 0, 0, 115, 0, 4, 0),
        "recovery": (1, 0, 0, 10, 1, 0, 0, 0, 0, 115, 1, 2 + 2 + 8 + 4 + 1, 2),
    },
    # Three sends of one word; each borrows object 7, which copies 64 words, and two give it back. c2 is interrupted.
    # c3 sets.
    "borrowed-object.json": {
        "send": (3, 0, 3, 16, 5, 0, 3 * 1 + 5 * 64, 3 * 127, 0, 0, 0, 10 + 6 + 1 + 10 + 4 + 10 + 6 + 1, 3),
        "set": (1, 0, 1, 2, 0, 0, 0, 0, 0, 0, 0, 6, 1),
        "boot": (0, 0, 0, 4, 1, 0, 0, 0, 0, 115, 0, 4, 0),
        "recovery": (1, 0, 0, 4, 1, 0, 0, 0, 0, 115, 1, 4, 0),
    },
}


def shown(*words: str) -> list[dict]:
    status, out, err = bench("cost", *words, "--json")
    assert (status, err) == (0, ""), err
    return json.loads(out)


def by_lines(text: str) -> dict[str, int]:
    """The totals of a report, counted over its lines."""
    bursts = re.findall(r"(?m)^\d+ burst x\d+ c\d+ b\d+ n(\d+) (.*)$", text)
    return {
        "instructions": sum(int(instructions) for instructions, _ in bursts),
        "crossings": 2 * len(bursts),
        "kernel_calls": sum(rest.startswith("service ") for _, rest in bursts),
        "acts": sum(rest.count(" | ") for _, rest in bursts),
        "calls": len(re.findall(r"(?m)^\d+ invoke ", text)),
        "entries": len(re.findall(r"(?m)^\d+ enter [^>\n]*$", text)),
        "pages": 115 * len(re.findall(r"(?m)^\d+ stage load$", text)),
        "resets": len(re.findall(r"(?m)^\d+ stage reset$", text)),
    }


class CountsByHand(unittest.TestCase):
    def test_examples(self):
        for name, rows in BY_HAND.items():
            cost, = shown(example_path(name))
            found = {**cost["operations"], "boot": cost["boot"], **({"recovery": cost["recoveries"][0]} if cost["recoveries"] else {})}
            expected = {row: dict(zip(COLUMNS, numbers)) for row, numbers in rows.items()}
            self.assertEqual(found, expected, name)
            self.assertLessEqual(len(cost["recoveries"]), 1)

    def test_a_lent_buffer_that_a_failure_takes_back(self):
        """A get of examples/block.json is interrupted: its two pages are lent, and the collect takes them back."""
        base = example("block.json")
        base["parts"][0].update(limit=1, faults=[{"burst": 6, "after": 2, "kind": "trap"}])
        with file_of(base) as path:
            cost, = shown(path)
        self.assertEqual(cost["operations"]["get"]["rights"], 2)
        self.assertEqual(cost["recoveries"][0]["rights"], 2)
        self.assertEqual(cost["operations"]["get"]["instructions"], 2)

    def test_an_injected_hang_counts_its_instructions(self):
        base = example("block.json")
        base["parts"][0].update(limit=1, faults=[{"burst": 3, "after": 7, "kind": "hang"}])
        with file_of(base) as path:
            cost, = shown(path)
        self.assertEqual(cost["operations"]["write"]["instructions"], 7 + 176)


class ALargeRun(unittest.TestCase):
    def test_sums_are_those_of_the_report(self):
        scenario = json.loads(program().answer(["gen", "48", "scenario"], "").out)
        text = program().report(scenario)
        sums = by_lines(text)
        self.assertGreater(sums["calls"], 150)
        with file_of(scenario) as path:
            costs = shown(path)
        whole: dict[str, int] = dict.fromkeys(sums, 0)
        for cost in costs:
            for row in (cost["all"], cost["boot"], *cost["recoveries"]):
                for name in whole:
                    # A recovery is counted as one call of itself.
                    whole[name] += 0 if name == "calls" and row in cost["recoveries"] else row[name]
        self.assertFalse(any(fault["kind"] == "hang" for part in scenario["parts"] for fault in part.get("faults", [])))
        self.assertEqual(whole, sums)

    def test_copied_words_are_those_of_operations_and_answers(self):
        scenario = json.loads(program().answer(["gen", "24", "scenario"], "").out)
        for part in scenario["parts"]:
            part["faults"] = []
        text = program().report(scenario)
        entered = set(re.findall(r"(?m)^\d+ enter (c\d+) x\d+ try \d+$", text.split("\npart 1 ")[0]))
        first = text.split("\npart 1 ")[0]
        words = 0
        for call, asked in re.findall(r"(?m)^\d+ invoke (c\d+) t\d+ (\S+ .*)$", first):
            if call in entered and "[" in asked:
                words += asked.count(",") + 1
        for answer in re.findall(r"(?m)-> (data \[.*\]|value \d+)$", first):
            words += answer.count(",") + 1
        for moved in re.findall(r"(?m) service \d+ \d+ \d+ = \d+ \[(.*?)\]", first):
            words += moved.count(",") + 1
        with file_of(scenario) as path:
            self.assertEqual(shown(path)[0]["all"]["copied"], words)


class Models(unittest.TestCase):
    def test_cycles_by_hand(self):
        """The write, read, set and get of examples/block.json, under workbench/examples/costs.toml."""
        cost, = costs_of(program(), example("block.json"))
        found = reckon(model_of(MODEL), cost)
        bare = 5 * 10_000 + 275 * 1 + 4 * 100 + 4 * 20
        added = 8 * 500 + 49 * 1 + 352 * 1 + 8 * 200
        self.assertEqual((found.bare, found.guarded), (bare, bare + added))
        self.assertEqual(found.boot, 4 + 4 * 500 + 115 * 300)
        self.assertAlmostEqual(found.relative, bare / (bare + added))
        self.assertAlmostEqual(found.twice, (bare - 49 - 352 - 1600) / 8)
        self.assertIsNone(found.pays)

    def test_what_a_recovery_saves(self):
        cost, = costs_of(program(), example("sound-skips.json"))
        found = reckon(model_of(MODEL), cost)
        recovery = 17 * 1 + 2 * 100 + 10 * 500 + 115 * 300 + 100_000
        added = 18 * 500 + 13 + 630 + 12 * 200
        self.assertEqual(found.recoveries, recovery)
        self.assertAlmostEqual(found.pays, (50_000_000_000 - recovery) / (added / 10))

    def test_at_the_break_even_it_takes_twice_as_long(self):
        cost, = costs_of(program(), example("net.json"))
        model = model_of(MODEL)
        found = reckon(model, cost)
        again = reckon(type(model)(**{**vars(model), "crossing": found.twice}), cost)
        self.assertAlmostEqual(again.guarded, 2 * again.bare)

    def test_texts(self):
        status, out, _ = bench("cost", example_path("sound-skips.json"), "--model", MODEL)
        self.assertEqual(status, 0)
        self.assertIn("not measured", out)
        self.assertRegex(out, r"(?m)^  all calls +10 +9 +18 ")
        self.assertRegex(out, r"(?m)^  1 recovery +0 +10 +1 ")
        self.assertNotIn("cycles", bench("cost", example_path("sound-skips.json"))[1])
        cost, = shown(example_path("block.json"), "--model", MODEL)
        self.assertEqual(cost["reckoned"]["measured"], False)

    def test_mistakes(self):
        for text, about in [("x = [", "input.toml: "), ("[cycle]\n", "no table `cycles`"), ("[cycles]\nact = 1\n", "lacks operation"),
                            ("[cycles]\nacts = 1\n", "no use for acts"), ("[cycles]\nact = -1\n", "lacks")]:
            with file_of(text, ".toml") as path:
                status, out, err = bench("cost", example_path("block.json"), "--model", path)
            self.assertEqual((status, out), (2, ""))
            self.assertIn(about, err)
        with open(MODEL, encoding="utf-8") as file:
            text = file.read()
        with file_of(re.sub(r"word = 1 ", 'word = "x" ', text), ".toml") as path:
            self.assertIn("`word` has to be a number", bench("cost", example_path("block.json"), "--model", path)[2])


if __name__ == "__main__":
    unittest.main()
