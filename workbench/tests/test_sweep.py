"""sweep: each outcome is that of the single run with that fault, found here from the texts of the reports alone."""

import json
import os
import re
import tempfile
import unittest

from common import bench, example, example_path, file_of, program

from nooks_bench.scenario import with_faults, with_schedule


def numbers(text: str, line: str) -> int:
    """The sum of a number over all lines that begin with a pattern."""
    return sum(int(found) for found in re.findall(rf"(?m)^{line}", text))


def lost_kinds(text: str) -> dict[str, int]:
    frames = [rf"frames .* {word} (\d+)" for word in ("reset", "full_ring", "full_queue")]
    return {
        "sends": numbers(text, r"losses sends (\d+)"),
        "samples": numbers(text, r"losses samples (\d+)"),
        "busy": numbers(text, r"losses .* busy (\d+)"),
        "frames": sum(numbers(text, form) for form in frames),
    }


def lost_more(base: str, member: str) -> bool:
    before, after = lost_kinds(base), lost_kinds(member)
    return any(after[kind] > before[kind] for kind in before)


def answers(text: str) -> str:
    return text[text.index("\nthread ") : text.index("\ntap ")]


def burst_line(text: str, burst: int) -> str:
    found = re.search(rf"(?m)^\d+ burst x\d+ c\d+ b{burst} .*$", text)
    return found[0] if found else ""


def expected(base: str, member: str, fault: dict, limits: list[int]) -> str:
    """The outcome of a fault, from the reports without it and with it."""
    line = burst_line(base, fault["burst"])
    instructions = int(re.search(r" n(\d+) ", line)[1]) if line else 0
    if fault["after"] >= instructions:
        assert base == member, "a fault that does not strike changed the report"
        return "did not strike"
    if "contract broken" in member:
        return "contract broken"
    failures = [int(each) for each in re.findall(r"(?m)^failures (\d+)", member)]
    if any(failed > limit for failed, limit in zip(failures, limits)):
        return "given up"
    causes = [burst_line(text, fault["burst"]).partition(" ! ")[2] for text in (base, member)]
    stopped = causes[1] and (fault["kind"] in ("trap", "hang") or causes[0] != causes[1])
    if sum(failures) > numbers(base, r"failures (\d+)") or stopped:
        return "recovered with losses" if lost_more(base, member) else "recovered, nothing lost"
    left = [re.sub(r"(?m)^\d+ (invoke|enter|burst|stage|arrive) .*\n", "", each) for each in (base, member)]
    return "struck, no trace" if left[0] == left[1] else "answers changed, contract kept"


def swept(*words: str) -> dict:
    status, out, err = bench("sweep", *words, "--json", "--quiet")
    assert (status, err) == (0, ""), err
    return json.loads(out)


class Sweeps(unittest.TestCase):
    def one_for_one(self, name: str, *words: str, limit: int = 1) -> set[str]:
        """Compares each outcome of a sweep with the single run; returns the outcomes that occurred."""
        found = swept(example_path(name), "--limit", str(limit), *words)
        for run in found["runs"]:
            base = program().report(run["base"])
            limits = [part.get("limit", 0) for part in run["base"]["parts"]]
            for entry in run["faults"]:
                member = program().report(with_faults(run["base"], found["part"], [entry["fault"]]))
                self.assertEqual(entry["outcome"], expected(base, member, entry["fault"], limits), entry)
                before, after = lost_kinds(base), lost_kinds(member)
                self.assertEqual(entry["losses"], {kind: after[kind] - before[kind] for kind in before}, entry)
        names = [entry["outcome"] for run in found["runs"] for entry in run["faults"]]
        self.assertEqual(found["outcomes"], {name: names.count(name) for name in found["outcomes"]})
        self.assertEqual(sum(row["count"] for row in found["rows"]), len(names))
        return set(names)

    def test_traps(self):
        self.one_for_one("block.json", "--burst", "3-6,99", "--every", "7")
        self.one_for_one("net.json", "--kind", "trap", "--kind", "hang", "--every", "4")
        came = self.one_for_one("sound.json", "--call", "5")
        self.assertEqual(came, {"recovered, nothing lost", "recovered with losses"})
        self.assertEqual(self.one_for_one("sound.json", "--call", "5", "--every", "9", limit=0), {"given up"})

    def test_silent_faults(self):
        poke = ["--kind", "poke", "--address", "5186,5190", "--value", "99", "--burst", "4", "--every", "3"]
        self.assertEqual(self.one_for_one("block.json", *poke), {"contract broken", "struck, no trace"})
        self.one_for_one("net.json", "--kind", "reg", "--register", "7-9", "--value", "3", "--every", "5")
        self.one_for_one("net.json", "--kind", "code", "--address", "5-12", "--value", "0x18000000", "--every", "9")

    def test_random_ones(self):
        words = ["--kind", "poke", "--kind", "reg", "--kind", "code", "--kind", "trap", "--random", "40", "--seed", "7"]
        for name in ["block.json", "net.json", "sound-skips.json"]:
            self.one_for_one(name, *words)

    def test_a_base_with_its_own_faults(self):
        self.one_for_one("write-cut.json", "--every", "40", limit=2)

    def test_own_hangs_end_bursts_early(self):
        base = example("block.json")
        base["parts"][0]["limit"] = 2
        base = with_faults(base, 0, [{"burst": 3, "after": 10, "kind": "hang"}])
        with file_of(base) as path:
            found = swept(path, "--burst", "3", "--kind", "hang", "--every", "5")
        outcomes = [entry["outcome"] for entry in found["runs"][0]["faults"]]
        self.assertEqual(outcomes[:2], ["recovered, nothing lost"] * 2)
        self.assertEqual(set(outcomes[2:]), {"did not strike"})

    def test_schedules(self):
        found = swept(example_path("sound-skips.json"), "--limit", "2", "--schedules", "3", "--seed", "5", "--every", "6")
        self.assertEqual([run["base"]["schedule"]["start"] for run in found["runs"]], [5, 6, 7])
        drawn = with_schedule(example("sound-skips.json"), {"kind": "drawn", "start": 6})
        drawn["parts"][0]["limit"] = 2
        self.assertEqual(found["runs"][1]["base"], drawn)
        self.one_for_one("sound-skips.json", "--schedules", "2", "--every", "9", limit=2)

    def test_acts_and_attempts(self):
        found = swept(example_path("block.json"), "--limit", "1", "--call", "1", "--try", "1", "--at-acts")
        struck = [entry["fault"]["after"] for entry in found["runs"][0]["faults"]]
        for after, acts in zip(struck, [0, 1, 1, 2]):
            fault = {"burst": 3, "after": after, "kind": "trap"}
            line = burst_line(program().report(with_faults(found["runs"][0]["base"], 0, [fault])), 3)
            self.assertEqual(line.count(" | store"), acts)
        self.assertEqual(len(struck), 4)
        found = swept(example_path("write-cut.json"), "--call", "3", "--try", "2", "--every", "50")
        self.assertEqual({entry["fault"]["burst"] for entry in found["runs"][0]["faults"]}, {9})

    def test_the_table_and_its_members(self):
        with tempfile.TemporaryDirectory() as folder:
            words = [example_path("sound.json"), "--limit", "1", "--call", "5", "--quiet"]
            status, out, _ = bench("sweep", *words, "--instructions", "--members", folder, "--fail-on", "given-up")
            self.assertEqual(status, 0)
            self.assertIn("at 8: OUT r8 0, after 2-22 by 5", out)
            self.assertEqual(bench("sweep", *words, "--fail-on", "losses")[0], 1)
            rows = re.findall(r"(?m)^ +(\{.*\})\n +nooks run < (.*)$", out)
            self.assertGreaterEqual(len(rows), 2)
            for fault, path in rows:
                with open(path, encoding="utf-8") as file:
                    self.assertEqual(json.load(file)["parts"][0]["faults"], [json.loads(fault)])
                self.assertEqual(os.path.dirname(path), folder)

    def test_mistakes(self):
        for words in [("--part", "3"), ("--call", "77"), ("--try", "1"), ("--kind", "poke"), ("--burst", "x"), ("--every", "0")]:
            status, out, err = bench("sweep", example_path("block.json"), *words)
            self.assertEqual((status, out), (2, ""), words)
            self.assertEqual(err.count("\n"), 1)


if __name__ == "__main__":
    unittest.main()
