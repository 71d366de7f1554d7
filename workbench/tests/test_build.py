"""build: the program accepts what it writes, and mistakes are reported at their line and column."""

import json
import os
import unittest

from common import DATA, TOP, bench, example, example_path, example_text, file_of, program

from nooks_bench.jsontext import json_text
from nooks_bench.source import Misplaced, Reader

try:
    import hypothesis
    from hypothesis import strategies
except ImportError:
    hypothesis = None

HAND = os.path.join(DATA, "handmade.jsonc")


def handmade() -> str:
    with open(HAND, encoding="utf-8") as file:
        return file.read()


def mistake(text: str) -> str:
    """The message about a refused text, without the name of its file."""
    with file_of(text) as path:
        status, out, err = bench("build", path)
        assert status == 2 and out == "", (status, out)
        return err.replace(f"nooks-bench: {path}:", "").strip()


class Build(unittest.TestCase):
    def test_all_that_people_write(self):
        status, out, err = bench("build", HAND)
        self.assertEqual((status, err), (0, ""))
        made = json.loads(out)
        self.assertEqual(made["parts"][0]["driver"], {"asm": example_text("block.asm")})
        self.assertEqual(made["parts"][1]["arrivals"], [[5, 5, 5], [1, 2]])
        self.assertEqual(made["threads"][0]["ops"][0]["data"], [7] * 16)
        self.assertNotIn("notes", out)
        self.assertNotIn("drivers", made)
        self.assertIn("2 p0 data [7,7,", program().report(made))

    def test_a_plain_scenario_stays(self):
        for name in ["write-cut.json", "media-errors.json", "write-and-read.json"]:
            status, out, _ = bench("build", example_path(name))
            self.assertEqual((status, json.loads(out)), (0, example(name)))

    def test_mistakes_of_the_file(self):
        cases = [
            ('{"version": 1,\n "parts": [,]}', "2:12: expected a value"),
            ('{"version": 1 "parts": []}', "1:15: expected ',' between the keys of the object, found '\"'"),
            ('{"version": 1', "1:14: expected ',' between the keys of the object, found the end of the file"),
            ('{"a": 1, "a": 2}', "1:10: duplicate key 'a'"),
            ('{"a": "x\ny"}', "1:7: this text does not end on its line"),
            ('{} {}', "1:4: unexpected text after the value"),
            ('[]', "1:1: a scenario is an object"),
            ("[" * 300, "1:202: lists and objects are nested too deep"),
        ]
        for text, message in cases:
            self.assertEqual(mistake(text), message)

    def test_mistakes_that_the_program_reports(self):
        cases = [
            ('"limit": 2', '"limit": 22', "10:60: /parts/0/limit: 22 is out of range; expected a whole number from 0 to 16"),
            ('"blocks": 8, ', "", '10:5: missing key "blocks"; expected a whole number from 1 to 256'),
            ('"limit"', '"limmit"', '10:51: /parts/0: unknown key "limmit" of a part of class block (did you mean "limit"?)'),
            ('"driver": "link"', '"driver": "lonk"', "11:46: there is no driver 'lonk' in the table"),
            ("block.asm", "nowhere.asm", "6:26: "),
            ('"repeat": 3', '"repeat": -3', "11:79: expected a count from 0 to 65536"),
            ('"op": "recv"', '"op": "receive"', '19:27: /threads/0/ops/2/op: unknown name "receive" (did you mean "recv"?); expected "read" or'),
            ('"part": 1', '"part": 2', "19:18: /threads/0/ops/2/part: 2 is out of range; expected 0 to 1, since there are 2 parts"),
        ]
        for old, new, message in cases:
            self.assertEqual(mistake(handmade().replace("../../..", TOP).replace(old, new))[: len(message)], message)

    def test_an_assembler_error_names_its_file(self):
        with file_of(".class block\n.entry init init\ninit: LI r1\n", ".asm") as asm:
            text = handmade().replace("../../../examples/block.asm", asm).replace("../../..", TOP)
            with file_of(text) as path:
                _, _, err = bench("build", path)
        self.assertIn(f"{asm}:3:7: too few operands; LI takes a register and a number or a label", err)
        self.assertIn("'init: LI r1'", err)


@unittest.skipUnless(hypothesis, "python3-hypothesis is not installed")
class Texts(unittest.TestCase):
    """The writer's text of any value is JSON, and the reader reads it as Python's own reader does."""

    def test_any_value_comes_back(self):
        texts = strategies.text(strategies.characters(blacklist_categories=["Cs"]), max_size=9)
        plain = strategies.none() | strategies.booleans() | strategies.integers() | texts
        values = strategies.recursive(
            plain, lambda inner: strategies.lists(inner, max_size=4) | strategies.dictionaries(texts, inner, max_size=4)
        )

        @hypothesis.settings(max_examples=200, deadline=None)
        @hypothesis.given(values)
        def holds(value):
            text = json_text(value)
            self.assertEqual(json.loads(text), value)
            self.assertEqual(Reader(text, "f").whole().plain(), value)

        holds()

    def test_any_text_is_read_or_refused_at_a_position_in_it(self):
        pieces = strategies.sampled_from(['{"a": ', "[1", ", ", "]", "}", '"', "// x\n", "\n", "nul", "true", "-0", "1e9", "\\u00", " "])

        @hypothesis.settings(max_examples=200, deadline=None)
        @hypothesis.given(strategies.lists(pieces | strategies.text(max_size=3), max_size=12).map("".join))
        def holds(text):
            try:
                Reader(text, "f").whole()
            except Misplaced as mistake:
                lines = text.split("\n")
                self.assertLessEqual(mistake.position.line, len(lines))
                self.assertLessEqual(mistake.position.column, len(lines[mistake.position.line - 1]) + 1)

        holds()


if __name__ == "__main__":
    unittest.main()
