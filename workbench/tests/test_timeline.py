"""timeline: the lanes show what the report says, and each SVG is well-formed."""

import contextlib
import glob
import shutil
import tempfile
import unittest
import xml.etree.ElementTree as ElementTree

from common import bench, example_path, example_text, file_of

from nooks_bench.report import parse_report
from nooks_bench.timeline_text import lanes_of
from nooks_bench.times import BOOT, GIVEN_UP, RECOVERS, SERVES, times_of

SVG = "{http://www.w3.org/2000/svg}"


def shapes(text: str) -> list[ElementTree.Element]:
    return list(ElementTree.fromstring(text).iter())


def texts_of(text: str) -> list[str]:
    """The drawn texts, without the titles, which a browser shows under the pointer."""
    elements = [each for each in shapes(text) if each.tag == SVG + "text"]
    return [(each.text or "") + "".join(inner.tail or "" for inner in each) for each in elements]


class Timelines(unittest.TestCase):
    def test_modes(self):
        times = times_of(parse_report(example_text("given-up.report")))[0]
        spans = [(span.mode, span.first, span.last) for span in times.spans]
        self.assertEqual(spans, [(BOOT, 1, 7), (SERVES, 8, 10), (RECOVERS, 11, 18), (SERVES, 19, 21), (GIVEN_UP, 22, 25)])

    def test_text_lanes(self):
        times = times_of(parse_report(example_text("sound-skips.report")))[0]
        lanes = dict(lanes_of(times))
        self.assertEqual(lanes["part"], "^^LI^^U--------------------S~CRLI~~P~P~O~U-----")
        self.assertEqual(lanes["player"][22:28], "i.(=XH")
        self.assertEqual({len(lane) for lane in lanes.values()}, {47})

    def test_text_is_wrapped_to_a_width(self):
        status, out, _ = bench("timeline", "--text", "--width", "50", example_path("link-loses.report"))
        self.assertEqual(status, 0)
        self.assertIn("losses: sends 1, frames by a reset 16, frames at a full ring 2", out)
        lanes = [line for line in out.split("\n") if line.startswith("frames   ") or line.startswith("frames     ")]
        self.assertGreater(len(lanes), 1)

    def test_every_example_is_a_well_formed_svg(self):
        for path in glob.glob(example_path("*.report")):
            status, out, _ = bench("timeline", path)
            self.assertEqual(status, 0)
            titles = [each.text or "" for each in shapes(out) if each.tag == SVG + "title"]
            with open(path, encoding="utf-8") as file:
                report = parse_report(file.read())
            failures = sum(event.failed for part in report.parts for event in part.bursts())
            self.assertGreaterEqual(sum(": interrupted at event" in title or " trap " in title for title in titles), failures)
            self.assertIn("Timeline of", titles[0])

    def test_the_shadow_answers_in_a_recovery(self):
        times = times_of(parse_report(example_text("write-cut.report")))[0]
        lanes = dict(lanes_of(times))
        self.assertEqual(lanes["reader"][15:17], "HH")
        _, out, _ = bench("timeline", example_path("write-cut.report"))
        self.assertIn("<title>c5 get 1: value 6 (by the shadow)</title>", out)

    def test_a_break_is_marked(self):
        path = example_path("contract-broken.report")
        _, text, _ = bench("timeline", "--text", path)
        self.assertRegex(text, r"\ncontract {9}\*\n")
        self.assertIn("  CONTRACT BROKEN at event 8, clause 3: the driver replied that a write is done", text)
        _, svg, _ = bench("timeline", path)
        titles = [each.text or "" for each in shapes(svg) if each.tag == SVG + "title"]
        marks = [title for title in titles if title.startswith("contract broken, clause 3\n8 burst")]
        self.assertEqual(len(marks), 3)
        self.assertNotIn("contract", bench("timeline", "--text", example_path("block.report"))[1])

    def test_acts_are_shown(self):
        times = times_of(parse_report(example_text("write-cut.report")))[0]
        lane = dict(lanes_of(times))["device"]
        self.assertEqual({at + 1: letter for at, letter in enumerate(lane) if letter != " "},
                         {9: "r", 15: "s", 26: "r", 29: "s", 31: "l"})
        _, svg, _ = bench("timeline", example_path("link-loses.report"))
        self.assertIn("<title>event 43, b6: sent [45]</title>", svg)

    def test_some_events(self):
        path = example_path("write-cut.report")
        _, text, _ = bench("timeline", "--text", "--events", "14-18", path)
        self.assertIn("\npart      --S~C\n", text)
        lanes = [line for line in text.split("\n") if line.startswith("reader")]
        self.assertEqual(lanes, ["reader    i.HH"])
        _, svg, _ = bench("timeline", "--events", "14-18", path)
        self.assertNotIn("c1 set", svg)
        for wrong in ("9-3", "0-4", "x", "400"):
            self.assertEqual(bench("timeline", "--events", wrong, path)[0], 2)

    def test_long_reports_are_wrapped(self):
        path = example_path("link-loses.report")
        _, wide, _ = bench("timeline", path)
        _, high, _ = bench("timeline", "--wrap", "20", path)
        sizes = [ElementTree.fromstring(out).attrib for out in (wide, high)]
        self.assertLess(float(sizes[1]["width"]), float(sizes[0]["width"]))
        self.assertGreater(float(sizes[1]["height"]), 2 * float(sizes[0]["height"]) - 200)
        words = texts_of(high)
        self.assertEqual([words.count(name) for name in ("sender", "listener", "part")], [3, 3, 3])
        large = ElementTree.fromstring(bench("timeline", "--font-size", "22", "--width", "900", path)[1])
        self.assertAlmostEqual(float(large.get("width")), 900, delta=1)
        self.assertAlmostEqual(float(large.get("viewBox").split(" ")[2]), 450, delta=1)

    def test_the_width_is_kept(self):
        """A drawing is as wide as it was asked to be, whatever the report and the length of its path in the caption."""
        for path in glob.glob(example_path("*.report")):
            for size, least in (("11", 300), ("22", 600)):
                for width in (least, 900, 1501):
                    out = bench("timeline", "--font-size", size, "--width", str(width), path)[1]
                    self.assertEqual(ElementTree.fromstring(out).get("width"), str(width), path)

    def test_the_width_is_kept_whatever_the_path(self):
        with tempfile.TemporaryDirectory() as folder, contextlib.chdir(folder):
            for length in range(1, 81):
                for letter in "aiM":
                    path = letter * length
                    shutil.copyfile(example_path("link-loses.report"), path)
                    for size, width in (("22", "900"), ("11", "700"), ("11", "200")):
                        words = ["timeline", "--font-size", size, "--width", width, path]
                        out = bench(*words)[1]
                        self.assertEqual(ElementTree.fromstring(out).get("width"), width, path)
                        self.assertIn(" ".join(["nooks-bench", *words]).replace(" ", ""), "".join(texts_of(out)).replace(" ", ""))

    def test_each_stage_has_its_name_or_a_key(self):
        for words in ([], ["--wrap", "60"]):
            _, out, _ = bench("timeline", example_path("link-loses.report"), *words)
            texts = texts_of(out)
            for name, letter in zip(["stop", "collect", "reset", "load", "init", "resume"], "SCRLIU"):
                self.assertIn(name, texts)
                self.assertTrue(letter in texts or texts.count(name) >= 1)
        small = bench("timeline", example_path("write-cut.report"), "--events", "14-28")[1]
        texts = texts_of(small)
        self.assertEqual([texts.count(name) for name in ("collect", "C")], [1, 0])

    def test_the_caption(self):
        words = ["--wrap", "20", example_path("block.report")]
        _, out, _ = bench("timeline", *words)
        texts = texts_of(out)
        self.assertEqual(texts[-2], "nooks-bench timeline " + " ".join(words))
        self.assertRegex(texts[-1], r"nooks-bench [0-9.]+; report [0-9a-f]{12}, status 0")

    def test_parts_one_below_the_other(self):
        one = example_text("block.report")
        first, rest = one.split("disk 5", 1)[0], one[one.index("disk 5") :]
        section = first + rest[: rest.index("thread 0")]
        two = section + section.replace("part 0 disk", "part 1 tape") + rest[rest.index("thread 0") :]
        with file_of(two, ".report") as path:
            status, out, _ = bench("timeline", path)
            self.assertEqual(status, 0)
            heads = [each.text for each in shapes(out) if each.tag == SVG + "text" and each.get("font-weight") == "bold"]
            self.assertEqual([head.split(",")[0] for head in heads], ["part 0 disk", "part 1 tape"])
            self.assertNotIn("part 0", bench("timeline", "--text", "--part", "1", path)[1])


if __name__ == "__main__":
    unittest.main()
