"""The state of a part after each event, compared with a table made by hand and with other lines of reports."""

import bisect
import glob
import json
import unittest

from common import example_path, example_text, program
from drawn import scenario
from write_cut import TABLE, Worked

from nooks_bench.report import Part, parse_report
from nooks_bench.state import HELD, PartState, states_of
from nooks_bench.state_rows import SECTIONS, WITHOUT, histories, resource_words
from nooks_bench.times import GIVEN_UP


def shown(event: int, now: PartState) -> Worked:
    """A state as a line of the table."""
    calls = {thread: f"c{answered.call} answered" for thread, answered in now.last_answers.items()}
    calls |= {call.thread: f"c{call.number} {call.where}" for call in now.calls}
    blocks = {block: int(words.strip("[]").split(",")[0]) for block, words in now.blocks.items()}
    return Worked(event, now.mode, now.stage, now.shadow, (calls.get(0, ""), calls.get(1, "")), now.record, now.registers, blocks,
                  ", ".join(resource_words(now.resources, now.lent)), now.failures)


def parts() -> list[Part]:
    """The parts of the examples and of drawn scenarios."""
    found = []
    for path in sorted(glob.glob(example_path("*.report"))):
        with open(path, encoding="utf-8") as file:
            found.extend(parse_report(file.read()).parts)
    drawn = [scenario(seed) for seed in range(40)] + [opening(start) for start in range(8)]
    return found + [part for each in drawn for part in parse_report(program().report(each)).parts]


def opening(start: int) -> dict:
    """Two threads that open and close a stream while its driver fails, under a drawn schedule."""
    part = {"name": "audio", "class": "sound", "limit": 9, "driver": {"asm": example_text("sound.asm")},
            "faults": [{"burst": burst, "after": 0, "kind": "trap"} for burst in (3, 6, 9, 12)]}
    asked = [{"part": 0, "op": name} for name in ("open", "close") * 4]
    threads = [{"name": name, "ops": asked} for name in ("one", "two")]
    return {"version": 1, "schedule": {"kind": "drawn", "start": start}, "parts": [part], "threads": threads}


class Table(unittest.TestCase):
    def test_every_event_of_write_cut(self):
        states = states_of(parse_report(example_text("write-cut.report")).parts[0])
        self.assertEqual([shown(event, now) for event, now in enumerate(states)], TABLE)


class Reports(unittest.TestCase):
    """Some lines of a report follow from the state that its other lines give."""

    @classmethod
    def setUpClass(cls) -> None:
        cls.runs = [(part, states_of(part)) for part in parts()]

    def test_there_are_all_kinds_of_runs(self):
        self.assertEqual({part.kind for part, _ in self.runs}, {"block", "net", "sound"})
        self.assertGreater(sum(part.failures for part, _ in self.runs), 30)
        self.assertGreater(sum(part.given_up for part, _ in self.runs), 1)
        stages = {event.text.split(" ")[0] for part, _ in self.runs for event in part.events if event.kind == "stage"}
        self.assertEqual(len(stages), 8)

    def test_each_stage_is_the_one_that_was_due(self):
        for part, states in self.runs:
            for event in part.events:
                before = states[event.number - 1]
                if event.kind == "stage":
                    self.assertEqual((event.text, before.shadow), (before.stage, False), event.line)
                self.assertEqual(event.kind == "burst" and event.context == 16, before.shadow and event.kind not in ("invoke", "arrive"), event.line)

    def test_busy_names_the_stage_that_is_due(self):
        busy = 0
        for part, states in self.runs:
            for event in part.events:
                for answer in (event.answer or "", *(each for _, each in event.replies)):
                    if answer.startswith("busy "):
                        self.assertEqual(answer.split(" ")[1], states[event.number - 1].stage.split(" ")[0])
                        busy += 1
        self.assertGreater(busy, 2)

    def test_collect_names_what_was_held(self):
        found = 0
        for part, states in self.runs:
            for event in part.events:
                if event.kind == "stage" and event.text == "collect":
                    now = states[event.number - 1]
                    collected = "".join(" " + each for each in resource_words(now.resources, now.lent))
                    self.assertEqual(event.line.partition("stage collect")[2], collected)
                    found += bool(collected)
        self.assertGreater(found, 10)

    def test_calls_enter_that_wait_for_none(self):
        for part, states in self.runs:
            for event in part.events:
                call = states[event.number - 1].call(event.call)
                if event.kind == "enter":
                    self.assertEqual((call.where, call.waits_for, event.attempt), (HELD, (), call.attempts + 1))
                if event.kind == "burst" and event.call:
                    self.assertEqual(call.where, "inside")

    def test_answers_of_the_record_the_queue_and_the_stream(self):
        for part, states in self.runs:
            for event in part.events:
                before, after = states[event.number - 1], states[event.number]
                answers = [event.answer] if event.answer else [answer for _, answer in event.replies]
                for answer in answers:
                    if answer.startswith("frame ") and event.kind != "burst":
                        self.assertIn(answer[6:], before.queue)
                    if answer.startswith("in_use "):
                        self.assertEqual(int(answer[7:]), before.holder)
                    if answer.startswith("value ") and event.kind == "invoke":
                        self.assertEqual(int(answer[6:]), after.record[int(event.text.split(" ")[1])])

    def test_what_is_left_at_the_end(self):
        for part, states in self.runs:
            last = states[-1]
            left = [f"object {number} {words}" for number, words in sorted(last.objects.items())]
            left += [f"disk {block} {words}" for block, words in sorted(last.blocks.items())]
            self.assertEqual([line for line in part.left if line.startswith(("object", "disk"))], left)
            self.assertEqual(sum(line.startswith("wire") for line in part.left), last.wire[0])
            self.assertEqual(sum(line.startswith("played") for line in part.left), last.played[0])
            self.assertEqual(" ".join(map(str, last.record)), part.config)
            self.assertEqual((last.failures, last.broken), (part.failures, part.broken))
            self.assertEqual(last.mode == GIVEN_UP, part.given_up)

    def test_losses_and_where_frames_are(self):
        for part, states in self.runs:
            last = states[-1]
            named = {}
            for line in part.losses:
                words = line.split(" ")
                named |= dict(zip(words[1::2], map(int, words[2::2])))
            lost = {name: named[name] for name in ("sends", "samples", "busy", "reset", "full_ring", "full_queue") if named.get(name)}
            self.assertEqual(dict(last.losses), lost)
            if part.kind == "net" and part.broken is None:
                self.assertEqual((len(last.ring), len(last.popped), len(last.queue)), (named["ring"], named["driver"], named["queued"]))

    def test_histories_say_what_the_states_say(self):
        for part, states in self.runs:
            found = histories(states, part.kind)
            self.assertEqual(set(found), set(SECTIONS) - WITHOUT[part.kind])
            for name, rows in found.items():
                for event, now in enumerate(states):
                    said = {row: value for row, value in ((row, at(history, event)) for row, history in rows.items()) if value is not None}
                    self.assertEqual(json.loads(json.dumps(said)), json.loads(json.dumps(SECTIONS[name][1](now))))


def at(history: list, event: int) -> object:
    """The value of a row at an event; None before its first one."""
    count = bisect.bisect_right([first for first, _ in history], event)
    return history[count - 1][1] if count else None


if __name__ == "__main__":
    unittest.main()
