"""Reports are read completely: every line of the examples' reports is understood."""

import glob
import re
import unittest

from common import example_path, example_text

from nooks_bench.outcomes import Losses, losses_of_part
from nooks_bench.program import Mistake
from nooks_bench.report import parse_report


class Reports(unittest.TestCase):
    def test_each_example(self):
        paths = glob.glob(example_path("*.report"))
        self.assertGreater(len(paths), 10)
        for path in paths:
            with open(path, encoding="utf-8") as file:
                text = file.read()
            report = parse_report(text)
            events = [event.line for part in report.parts for event in part.events]
            self.assertEqual(events, [line for line in text.split("\n") if line in events])
            answers = sum(len(thread.answers) for thread in report.threads)
            self.assertEqual(answers, len(re.findall(r"(?m)^\d+ p\d+ ", text)))

    def test_a_burst_with_all_that_it_may_have(self):
        part = parse_report(example_text("sound-skips.report")).parts[0]
        stopped = part.event(27)
        self.assertEqual((stopped.burst, stopped.instructions, stopped.text, stopped.cause), (9, 24, "trap", "trap injected"))
        self.assertEqual(stopped.acts[0], "played 61 44100 3")
        self.assertEqual(part.event(28).replies, ((7, "done"), (8, "busy stop")))
        self.assertEqual(losses_of_part(part), Losses(samples=3, busy=1))

    def test_replies_with_words(self):
        part = parse_report(example_text("given-up.report")).parts[0]
        self.assertEqual(part.event(22).replies, ((1, "gone 2"), (2, "gone 2")))
        self.assertTrue(part.given_up)

    def test_what_is_no_report(self):
        whole = example_text("block.report")
        for text in ["", "fault 1 not_json /\n", whole[: len(whole) // 2], whole.replace("3 stage", "4 stage", 1)]:
            with self.assertRaises(Mistake):
                parse_report(text)


if __name__ == "__main__":
    unittest.main()
