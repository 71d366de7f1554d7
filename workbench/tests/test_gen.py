"""gen: its scenarios of each class are valid and run, and depend only on the seed."""

import contextlib
import json
import os
import tempfile
import unittest

from common import TOP, bench, example_path, file_of, program

CLASSES = ("block", "net", "sound")


def generated(kind: str, *words: str) -> dict:
    """A scenario for a driver of examples/, as people write it."""
    status, out, err = bench("gen", example_path(f"{kind}.asm"), *words)
    assert (status, err) == (0, ""), err
    return json.loads(out)


def built(scenario: dict) -> dict:
    """The scenario as the program reads it, after `build` had the program check it."""
    with file_of(scenario) as path:
        status, out, err = bench("build", path)
        assert (status, err) == (0, ""), err
        return json.loads(out)


def operations(scenario: dict) -> list[dict]:
    return [op for thread in scenario["threads"] for op in thread["ops"]]


class Generates(unittest.TestCase):
    def test_each_class_is_valid_and_runs(self):
        for kind in CLASSES:
            for seed in range(4):
                made = built(generated(kind, "--seed", str(seed), "--ops", "50", "--threads", str(seed + 1)))
                self.assertEqual(len(made["threads"]), seed + 1)
                self.assertEqual(len(operations(made)), 50)
                ended = program().ask(["run"], json.dumps(made))
                self.assertEqual(ended.status, 0, (kind, seed))
                self.assertIn("\ncontract kept\n", ended.out)

    def test_the_drivers_are_worked(self):
        for kind, acts in [("block", ("store", "load", "register")), ("net", ("sent", "popped", "register")), ("sound", ("played",))]:
            report = program().report(built(generated(kind, "--ops", "60")))
            for act in acts:
                self.assertIn(f"| {act} ", report)

    def test_the_same_seed_gives_the_same(self):
        for kind in CLASSES:
            self.assertEqual(generated(kind, "--seed", "7"), generated(kind, "--seed", "7"))
            self.assertNotEqual(generated(kind, "--seed", "7"), generated(kind, "--seed", "8"))

    def test_sizes_at_the_edges_come(self):
        link = built(generated("net", "--ops", "250", "--threads", "1"))
        audio = built(generated("sound", "--ops", "250", "--threads", "1"))
        disk = operations(built(generated("block", "--ops", "250", "--threads", "1")))
        edges = {1, 4, 31, 32, 63, 64}
        self.assertLessEqual(edges, {len(op["frame"]) for op in operations(link) if op["op"] == "send"})
        self.assertLessEqual(edges, {len(frame) for frame in link["parts"][0]["arrivals"]})
        self.assertLessEqual(edges, {len(op["samples"]) for op in operations(audio) if op["op"] == "play"})
        self.assertLessEqual({1, 2, 7, 8}, {op["count"] for op in disk if op["op"] == "read"})
        self.assertLessEqual({16, 128}, {len(op["data"]) for op in disk if op["op"] == "write"})
        self.assertIn(15, {op["first"] + op["count"] - 1 for op in disk if op["op"] == "read"})

    def test_beyond_what_may_be_asked(self):
        for kind, wrong in [("block", "bad_range"), ("net", "bad_length"), ("sound", "bad_length")]:
            plain, beyond = (program().report(built(generated(kind, "--ops", "200", *more))) for more in [(), ("--beyond",)])
            self.assertNotRegex(plain, r"(?m)^\d+ p0 bad_")
            self.assertIn(wrong, beyond)
            self.assertIn("bad_key", beyond)

    def test_a_file_elsewhere_names_the_driver_from_its_folder(self):
        with tempfile.TemporaryDirectory() as folder, contextlib.chdir(TOP):
            made = os.path.join(folder, "work.jsonc")
            self.assertEqual(bench("gen", "examples/net.asm", "--output", made), (0, "", ""))
            with contextlib.chdir("/"):
                self.assertEqual(bench("build", made)[0], 0)

    def test_mistakes(self):
        disk = example_path("block.asm")
        cases = [
            (("--ops", "600"), "--ops 600: allowed is a number from 1 to 512"),
            (("--threads", "17"), "--threads 17: allowed is a number from 1 to 16"),
            (("--blocks", "0"), "--blocks 0: allowed is a number from 1 to 256"),
            (("--output", "/nowhere/x.json"), "/nowhere/x.json: No such file or directory"),
        ]
        for words, message in cases:
            self.assertEqual(bench("gen", disk, *words), (2, "", f"nooks-bench: {message}\n"))
        with file_of("LI r1 0\n", ".asm") as path:
            self.assertIn("no line names a class", bench("gen", path)[2])


if __name__ == "__main__":
    unittest.main()
