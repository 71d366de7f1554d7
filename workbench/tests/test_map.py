"""map: a cell for each fault of a sweep, with its outcome, and the strip of what the driver did at its instruction."""

import contextlib
import json
import os
import re
import shlex
import shutil
import subprocess
import tempfile
import unittest
import xml.etree.ElementTree as ElementTree
from unittest import mock

from common import TOP, bench, example_path, example_text, file_of, program

from nooks_bench.facts import STATUSES

SVG = "{http://www.w3.org/2000/svg}"


def titles(text: str, tag: str = "rect") -> list[str]:
    """The titles of the elements of a kind, which a browser shows under the pointer."""
    found = ElementTree.fromstring(text).iter(SVG + tag)
    return [each.find(SVG + "title").text for each in found if each.find(SVG + "title") is not None]


def cells(text: str) -> list[str]:
    return [title for title in titles(text) if title.startswith("{")]


def drawn_words(text: str) -> list[str]:
    elements = ElementTree.fromstring(text).iter(SVG + "text")
    return [(each.text or "") + "".join(inner.tail or "" for inner in each) for each in elements]


def mapped(*words: str) -> str:
    status, out, err = bench("map", *words, "--quiet")
    assert (status, err) == (0, ""), err
    return out


class Maps(unittest.TestCase):
    def test_each_fault_has_its_cell(self):
        words = [example_path("sound.json"), "--limit", "1"]
        _, swept, _ = bench("sweep", *words, "--json", "--instructions", "--quiet")
        entries = json.loads(swept)["runs"][0]["faults"]
        out = mapped(*words)
        self.assertEqual(len(cells(out)), len(entries))
        for cell, entry in zip(cells(out), entries):
            fault, outcome, *lost, at = cell.split("\n")
            self.assertEqual(json.loads(fault), entry["fault"])
            self.assertEqual(outcome, f"{entry['outcome']}: {entry['cause']}")
            named = ", ".join(f"{kind} {number}" for kind, number in entry["losses"].items() if number)
            self.assertEqual(lost, [f"lost: {named}"] if named else [])
            self.assertEqual(at, f"at {entry['instruction']}")
        with file_of(swept) as path:
            again = mapped("--from", path, "--title", "Faults of speaker")
        self.assertEqual(again.split("nooks-bench map")[0], out.split("nooks-bench map")[0])

    def test_losses_are_in_the_cells(self):
        out = mapped(example_path("sound.json"), "--limit", "1", "--burst", "6")
        lost = [int(re.search(r"lost: samples (\d+)", cell)[1]) for cell in cells(out) if "\nlost: " in cell]
        self.assertEqual((max(lost), min(lost)), (5, 1))
        words = drawn_words(out)
        for amount in range(1, 6):
            # The legend has the least and the most, and the ruler has the number 5.
            others = (amount in (1, 5)) + (amount == 5)
            self.assertEqual(words.count(str(amount)), lost.count(amount) + others)
        self.assertIn(f"recovered with losses: from 1 to 5 ({len(lost)})", words)

    def test_the_strip_shows_instructions_and_acts(self):
        path = example_path("block.json")
        out = mapped(path, "--limit", "1", "--burst", "3")
        trace = program().ask(["trace", "0", "3"], example_text("block.json")).out
        executed = [line for line in trace.split("\n") if re.match(r"\d+ \d+ [A-Z]", line)]
        steps = [title for title in titles(out) if re.match(r"after \d+: \d+: ", title)]
        instructions = {int(step.split(":")[0][6:]): step.split("\n")[0].split(": ", 1)[1] for step in steps}
        traced = {int(line.split(" ")[0]) - 1: ": ".join(line.split(" | ")[0].split(" ", 2)[1:]) for line in executed}
        self.assertEqual(instructions, traced)
        mnemonics = [word for word in drawn_words(out) if re.fullmatch("[A-Z]{2,5}", word)]
        self.assertEqual(len(mnemonics), 176)
        stores = [int(line.split(" ")[0]) - 1 for line in executed if " | store " in line]
        lines = [title for title in titles(out, "line") if title.startswith("after ")]
        self.assertEqual([int(re.match(r"after (\d+)", line)[1]) for line in lines], stores)
        self.assertIn("line ", lines[0])
        whole = mapped(path, "--limit", "1", "--burst", "3", "--strip", "instructions")
        self.assertIn("ADDI r3 r3 1", drawn_words(whole))
        self.assertEqual([title for title in titles(mapped(path, "--limit", "1", "--burst", "3", "--no-instructions"))
                          if title.startswith("after ")], [])

    def test_equal_rows_are_one(self):
        words = [example_path("net.json"), "--limit", "1", "--burst", "3", "--kind", "reg", "--register", "0-15", "--value", "0"]
        folded, whole = mapped(*words), mapped(*words, "--no-fold")
        labels = [word for word in drawn_words(folded) if word.startswith("reg ")]
        self.assertEqual(labels[0], "reg r0-r1, r4-r5, r7, r9-r15 = 0: no trace")
        self.assertEqual(labels[1:], ["reg r2 = 0", "reg r3 = 0", "reg r6 = 0", "reg r8 = 0"])
        self.assertEqual(len([word for word in drawn_words(whole) if word.startswith("reg ")]), 16)
        self.assertIn("and 11 faults more that look the same", cells(folded)[0])
        counts = [re.findall(r"\((\d+)\)", "".join(drawn_words(out))) for out in (folded, whole)]
        self.assertEqual(counts[0], counts[1])

    def test_each_poked_address_has_a_row_with_its_clause(self):
        words = ["--burst", "4", "--kind", "poke", "--address", "5184-5186", "--value", "99", "--every", "5", "--limit", "1"]
        out = mapped(example_path("block.json"), *words, "--no-instructions")
        self.assertEqual(len(cells(out)), 3 * 18)
        self.assertEqual(out.count(">poke 5185 = 99<"), 1)
        broken = [cell for cell in cells(out) if "contract broken: clause 4" in cell]
        legend = int(re.search(r"contract broken, clause 4: .* \((\d+)\)", out)[1])
        self.assertEqual(len(broken), legend)
        self.assertEqual(drawn_words(out).count("4"), legend + 1)

    def test_clauses_are_hatched_if_no_number_fits(self):
        words = [example_path("net.json"), "--limit", "1", "--kind", "reg", "--register", "3,6,8", "--value", "0", "--burst", "3"]
        wide, narrow = mapped(*words), mapped(*words, "--width", "90", "--wrap", "18")
        self.assertTrue({"5", "7"} <= set(drawn_words(wide)))
        self.assertFalse({"5", "7"} & set(drawn_words(narrow)))
        self.assertEqual(('id="clause1"' in wide, 'id="clause1"' in narrow), (False, True))
        self.assertIn('fill="url(#clause1)"', narrow)

    def test_wrapped_maps(self):
        words = [example_path("block.json"), "--limit", "1", "--burst", "3"]
        out = mapped(*words, "--wrap", "40")
        labels = [word for word in drawn_words(out) if word.startswith("b3 t0 write")]
        self.assertEqual(len(labels), 5)
        self.assertEqual(len(cells(out)), 176)
        large = ElementTree.fromstring(mapped(*words, "--width", "1000", "--font-size", "22"))
        self.assertLessEqual(float(large.get("width")), 1001)
        self.assertAlmostEqual(float(large.get("width")), 2 * float(large.get("viewBox").split(" ")[2]), delta=1)

    def test_the_caption(self):
        words = [example_path("sound.json"), "--limit", "1", "--burst", "3"]
        texts = drawn_words(mapped(*words))
        self.assertEqual(texts[-2], "nooks-bench map " + " ".join(words))
        self.assertRegex(texts[-1], r"^nooks-bench [0-9.]+, nooks .*; scenario [0-9a-f]{12}$")
        other = [*words[:2], "2", *words[3:]]
        self.assertNotEqual(drawn_words(mapped(*other))[-1], texts[-1])

    def test_drawn_faults_and_schedules(self):
        words = [example_path("sound-skips.json"), "--limit", "2", "--no-instructions"]
        out = mapped(*words, "--random", "30", "--seed", "3", "--kind", "reg")
        self.assertEqual(sum(cell.count('{"burst"') for cell in cells(out)), 30)
        self.assertEqual(sum(map(int, re.findall(r"\((\d+)\)<", out))), 30)
        self.assertIn("start 2: ", mapped(*words, "--schedules", "2", "--every", "8"))

    def test_a_program_without_traces(self):
        with mock.patch("nooks_bench.heatmap.writes_traces", return_value=False), \
                mock.patch("nooks_bench.strip.strip_by_trace", return_value=None):
            out = mapped(example_path("sound.json"), "--limit", "1", "--burst", "4")
        self.assertEqual(out.count("\nat "), len(cells(out)))
        self.assertGreater(len(cells(out)), 5)
        self.assertIn("RET", drawn_words(out))

    def test_mistakes(self):
        path = example_path("sound.json")
        for words in [[], ["--wrap", "0", path], ["--font-size", "1", path], ["-o", "x.gif", path],
                      ["--pdf", "-o", "x.svg", path], ["--width", "0", path]]:
            self.assertEqual(bench("map", *words)[0], 2, words)
        for wrong in [{"runs": 3}, {"runs": []}]:
            with file_of(wrong) as given:
                self.assertEqual(bench("map", "--from", given)[0], 2)


class Documented(unittest.TestCase):
    """Any program makes the maps of docs/WORKBENCH.md by the commands above them."""

    def test_each_map(self):
        with open(os.path.join(TOP, "docs/WORKBENCH.md"), encoding="utf-8") as file:
            text = file.read()
        section = text[text.index("## Maps of the reference drivers") :].split("\n## ")[0]
        pairs = re.findall(r"(?m)^    nooks-bench (map .*)\n\n!\[.*?\]\((.*?)\)", section)
        self.assertEqual(len(pairs), len(os.listdir(os.path.join(TOP, "docs/maps"))))
        has_guard = program().ask(["guard"], "").status != STATUSES["usage"]
        for command, picture in pairs:
            if "--guard" in command and not has_guard:
                continue
            with open(os.path.join(TOP, "docs", picture), encoding="utf-8") as file:
                drawn = file.read()
            # The caption names the versions that drew the map. It may be wider than the map, and then sets the width.
            versions = re.search(r">(nooks-bench [^<]*); scenario", drawn)[1]
            with contextlib.chdir(TOP), mock.patch("nooks_bench.picture.version_of", return_value=versions):
                status, out, _ = bench(*shlex.split(command))
            self.assertEqual(status, 0)
            self.assertTrue(out == drawn, f"{picture} is not what `{command}` makes")


class Files(unittest.TestCase):
    words = ["map", example_path("sound.json"), "--limit", "1", "--burst", "3", "--quiet"]

    def written(self, name: str, *more: str) -> bytes:
        with tempfile.TemporaryDirectory() as folder:
            path = os.path.join(folder, name)
            self.assertEqual(bench(*self.words, "-o", path, *more), (0, "", ""))
            with open(path, "rb") as file:
                return file.read()

    def test_an_svg(self):
        self.assertEqual(self.written("map.svg").decode(), bench(*self.words)[1])

    @unittest.skipUnless(shutil.which("rsvg-convert"), "there is no rsvg-convert here")
    def test_a_pdf_and_a_png(self):
        self.assertTrue(self.written("map.pdf", "--pdf").startswith(b"%PDF-"))
        self.assertTrue(self.written("map.png").startswith(b"\x89PNG"))

    @unittest.skipUnless(shutil.which("rsvg-convert"), "there is no rsvg-convert here")
    def test_a_pdf_to_standard_output(self):
        command = os.path.join(TOP, "workbench/nooks-bench")
        words = [command, *self.words, "--pdf", "--program", program().path]
        ended = subprocess.run(words, capture_output=True, check=True)
        self.assertTrue(ended.stdout.startswith(b"%PDF-"))
        self.assertEqual(ended.stderr, b"")
        with open("/dev/full", "wb") as full:
            ended = subprocess.run(words, stdout=full, stderr=subprocess.PIPE, check=False)
        self.assertEqual(ended.returncode, 5)
        self.assertEqual(len(ended.stderr.splitlines()), 1)

    def test_no_converter(self):
        with mock.patch("nooks_bench.picture.shutil.which", return_value=None), \
                mock.patch("nooks_bench.picture.cairosvg", return_value=None):
            status, out, err = bench(*self.words, "--pdf", "--program", program().path)
        self.assertEqual((status, out), (2, ""))
        self.assertEqual(err, "nooks-bench: nothing here makes a PDF of an SVG: "
                         "install librsvg2-bin (rsvg-convert), chromium or the Python package cairosvg\n")


if __name__ == "__main__":
    unittest.main()
