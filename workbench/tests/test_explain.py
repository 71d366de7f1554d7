"""explain: reports and refused inputs in words."""

import json
import os
import re
import tempfile
import unittest

from common import TOP, bench, example, example_path, example_text, file_of, program

from nooks_bench.folding import folded_lines
from nooks_bench.words import CLAUSES, SERVICES, cause_words, folded, parse_ranges, ranges_text, short


def explained(scenario: str, words: list[str]) -> str:
    """The explanation of an input that the program refuses, without the name of its file."""
    line = program().ask(words, scenario).out
    with file_of(scenario) as path, file_of(line, ".line") as line_path:
        status, out, err = bench("explain", line_path, "--input", path)
        assert (status, err) == (0, ""), err
        return out.replace(f"{path}:", "").strip()


class Explains(unittest.TestCase):
    def test_calls_and_who_answered_them(self):
        status, out, _ = bench("explain", example_path("write-cut.report"))
        self.assertEqual(status, 0)
        for line in [
            "status 0: no part was given up, and every driver kept its class's contract",
            "    2  p0 write 9 [11 x16, 12 x16, 13 x16]  done  c3 answered by the driver at event 29, interrupted by a failure at event 15",
            "    2  p0 get 1      value 6        c4 answered by the shadow at event 16",
            "    3  p0 get 1      value 6        c5 answered by the shadow at event 17",
            "  6 calls, answered: 4 by the driver, 2 by the shadow",
            "  failed at event 15, burst 5, instruction 205, in c3 write 9 [11 x16, 12 x16, 13 x16]: "
            "trap injected (a fault of the scenario stopped it)",
            "  recovered from event 16 to 27",
        ]:
            self.assertIn(line, out.split("\n"))

    def test_a_broken_clause_in_words(self):
        _, out, _ = bench("explain", example_path("contract-broken.report"))
        self.assertIn("CONTRACT BROKEN at event 8, clause 3: the driver replied that a write is done, and a block", out)
        self.assertIn("    8 burst x0 c1 b3 n175 reply 0 | store 1 [51 x16] -> done", out)

    def test_who_answers_at_once(self):
        _, out, _ = bench("explain", example_path("block.report"))
        self.assertIn("bad_range          c5 answered at once, as a wrong operation, event ", out)
        _, out, _ = bench("explain", example_path("given-up.report"))
        self.assertIn("gone 2  c3 answered with gone, since the part is given up, event 23", out)
        self.assertIn("4 calls, answered: 4 with gone, since the part is given up", out)

    def test_repeated_lines_are_folded(self):
        _, out, _ = bench("explain", example_path("sound-skips.report"))
        self.assertIn("  played [61 to 65] 44100 3\n  played [71, 72] 44100 4\n", out)
        played = [f"played {word} 8000 5" for word in (1, 2, 2, 2)] + ["played 3 8000 6"]
        self.assertEqual(folded_lines(played), ["played [1, 2 x3] 8000 5", "played 3 8000 6"])
        self.assertEqual(folded_lines(["wire [4]", "wire [4]", "wire [5]"]), ["wire [4] x2", "wire [5]"])
        blocks = [f"disk {block} [7,7,7]" for block in (1, 2, 3, 9)]
        self.assertEqual(folded_lines(blocks), ["disk 1-3 [7 x3]", "disk 9 [7 x3]"])

    def test_every_example_and_a_generated_one(self):
        for name in ["given-up", "link-loses", "media-errors", "borrowed-object", "sound-skips"]:
            status, out, _ = bench("explain", example_path(name + ".report"))
            self.assertEqual((status, "not answered" in out), (0, False))

    def test_input_errors_at_their_positions(self):
        text = json.dumps(example("write-cut.json"), indent=1)
        cases = [
            ('"limit": 2', '"limit": null', '/parts/0/limit: wrong kind of value: null; expected a whole number from 0 to 16'),
            ('"limit": 2', '"limit": 2,', "this is no JSON: "),
            ('"key": 1', '"kee": 1', '/threads/0/ops/0: unknown key "kee" of the operation set (did you mean "key"?)'),
            ('"blocks": 16,', "", 'missing key "blocks"; expected a whole number from 1 to 256'),
            ("LI r5 16", "LI r5", "line 11, column 7 of this assembler text: too few operands; LI takes a register"),
        ]
        for old, new, words in cases:
            changed = text.replace(old, new, 1)
            line, column, rest = explained(changed, ["run"]).split(":", 2)
            self.assertTrue(rest.strip().startswith(words), rest)
            spot = changed.split("\n")[int(line) - 1][int(column) - 1 :]
            self.assertTrue(spot, (line, column))

    def test_campaigns_images_and_texts(self):
        campaign = example("campaign-block.json")
        campaign["faults"][2]["kind"] = "trip"
        self.assertIn('/faults/2/kind: unknown name "trip" (did you mean "trap"?); expected "trap"', explained(json.dumps(campaign), ["campaign"]))
        campaign = example("campaign-block.json")
        campaign["base"]["parts"][0]["blocks"] = 0
        self.assertIn("/parts/0/blocks: 0 is out of range", explained(json.dumps(campaign), ["campaign"]))
        image = json.loads(example_text("block.image"))
        image["text"][1] = "1600003"
        self.assertIn('/text/1: "1600003" is not a word of an image', explained(json.dumps(image), ["dis"]))
        self.assertIn("5:1: 'nope' is not a mnemonic", explained(".class block\n\n\n\nnope r1\n", ["asm"]))

    def test_an_input_error_needs_its_input(self):
        with file_of("fault 1 not_json /\n", ".line") as path:
            self.assertEqual(bench("explain", path)[0], 2)


LOOPS = ".class block\n" + "".join(f".entry {name} a\n" for name in ("init", "read", "write", "get", "set")) + "a: JMP a\n"


def given_up_at(report: str) -> list[int]:
    """The events that gave a part up, by the lines of a report: a stop that answers an open call with gone."""
    return [int(number) for number in re.findall(r"(?m)^(\d+) stage stop(?: -> c\d+ \S+(?: \[\S*\])?)* -> c\d+ gone \d+\b", report)]


class GivenUp(unittest.TestCase):
    """A driver that fails again before it serves calls is stopped several times before its part is given up."""

    def check(self, scenario: dict, limit: int) -> None:
        report = program().report(scenario)
        expected = given_up_at(report)
        self.assertEqual(len(expected), 1)
        line = f"given up at event {expected[0]}: {limit + 1} failure{'s' if limit else ''}, and its limit is {limit}"
        with file_of(report, ".report") as path:
            _, out, _ = bench("explain", path)
        self.assertEqual([each.strip() for each in out.split("\n") if "given up at" in each], [line])
        with file_of(scenario) as path:
            _, page, _ = bench("page", path)
        data = json.loads(re.search(r'<script type="application/json" id="data">(.*?)</script>', page, re.DOTALL)[1])
        self.assertEqual([each for each in data["parts"][0]["summary"] if "given up at" in each], [line])

    def test_a_driver_that_loops_from_its_start(self):
        with tempfile.TemporaryDirectory() as folder:
            driver, made = os.path.join(folder, "loop.asm"), os.path.join(folder, "loop.jsonc")
            with open(driver, "w", encoding="utf-8") as file:
                file.write(LOOPS)
            found = []
            for limit in (0, 1, 2, 16):
                self.assertEqual(bench("gen", driver, "--ops", "4", "--limit", str(limit), "-o", made)[0], 0)
                scenario = json.loads(bench("build", made)[1])
                self.check(scenario, limit)
                found += given_up_at(program().report(scenario))
        self.assertEqual(found, [6, 12, 18, 102])

    def test_a_driver_that_serves_in_between(self):
        """Recoveries that ended keep their lines, and only the last stop gives the part up."""
        scenario = example("given-up.json")
        limit = scenario["parts"][0]["limit"]
        report = program().report(scenario)
        self.assertGreater(len(re.findall(r"(?m)^\d+ stage resume", report)), 1)
        self.check(scenario, limit)
        with file_of(report, ".report") as path:
            _, out, _ = bench("explain", path)
        stops = [int(number) for number in re.findall(r"(?m)^(\d+) stage stop", report)]
        self.assertEqual([int(number) for number in re.findall(r"recovered from event (\d+) to", out)], stops[:-1])


class Words(unittest.TestCase):
    def table(self, head: str) -> list[list[str]]:
        """The rows of a table of docs/REPORT.md."""
        with open(os.path.join(TOP, "docs/REPORT.md"), encoding="utf-8") as file:
            text = file.read()
        rows = text[text.index(head) :].split("\n\n")[0].split("\n")[2:]
        return [[cell.strip() for cell in row.strip("|").split("|")] for row in rows]

    def test_every_cause_has_words(self):
        rows = [row[0].strip("`") for row in self.table("| Cause |")]
        self.assertEqual(len(rows), 12)
        for row in rows:
            cause = re.sub(r"\b[ASP]\b", "1", row)
            self.assertNotEqual(cause_words(cause), cause)
        self.assertEqual(cause_words("bad_param 2 1"), "argument 1 of the service free failed its check")
        self.assertEqual(cause_words("bad_param 12 0"), "it may not call the service 12")
        self.assertEqual(cause_words("trap foreign_write 7691"), "it wrote to address 7691, which is not its own")
        self.assertEqual(cause_words("trap unheard_of"), "trap unheard_of")

    def test_every_service_and_clause_is_named(self):
        with open(os.path.join(TOP, "docs/DRIVER_MACHINE.md"), encoding="utf-8") as file:
            named = re.findall(r"(?m)^\| (\d+) \| (\w+) \|", file.read())
        self.assertEqual({int(number): name for number, name in named}, SERVICES)
        clauses = {int(number): words for number, words in self.table("| Clause |")}
        self.assertEqual(clauses, CLAUSES)

    def test_lists_are_shortened(self):
        self.assertEqual(folded("7 7 7 7 1 2".split()), ["7 x4", "1", "2"])
        self.assertEqual(short("write 5 [1,2,3,4,5] -> done"), "write 5 [1 to 5] -> done")
        self.assertEqual(short("data [" + ",".join(str(word * word) for word in range(32)) + "]"), "data [0, 1, 4, .. 32 words]")
        self.assertEqual(short("data []"), "data []")

    def test_ranges(self):
        self.assertEqual(parse_ranges("1,5-7,0x10"), [1, 5, 6, 7, 16])
        self.assertEqual(ranges_text([1, 2, 3, 9, 12, 15, 40]), "1-3, 9-15 by 3, 40")
        self.assertEqual(ranges_text([4, 8]), "4, 8")


if __name__ == "__main__":
    unittest.main()
