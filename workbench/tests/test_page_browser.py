"""The page in a browser: what it shows at each event, by the keyboard alone, and how fast."""

import os
import re
import tempfile
import time
import unittest

from browser import CHROMIUM, MISSING, Browser
from common import bench, example, example_path, file_of
from test_page import many_events
from write_cut import TABLE

from nooks_bench.calls import BY_SHADOW

# The most processor time for a step, from the key to the drawn page, and the number of steps to measure.
MOST_SECONDS = 0.05
MOST_STEPS = 20

# Reads from the tables of the page what they show of the state.
SHOWN = """(() => {
  const text = (element) => (element ? element.textContent.replace(/\\s+/g, " ").trim() : "");
  const cards = new Map([...document.querySelectorAll(".of-state .card")].map((card) => [text(card.querySelector("h3")), card]));
  const rows = (name) => [...cards.get(name).querySelectorAll("tbody tr")].map((row) => [...row.cells].slice(1).map(text));
  const where = [...cards.get("Calls, each thread's last one").querySelectorAll("td.where")].map((cell) => cell.classList[1]);
  return {
    event: text(document.querySelector(".event-where")),
    sentence: text(document.querySelector(".sentence")),
    part: text(cards.get("Part").querySelector("p")),
    calls: rows("Calls, each thread's last one").map((row, index) => [row[0], `${row[1]} ${where[index]}`]),
    configuration: rows("Configuration"),
    disk: rows("Disk"),
    rest: rows("Driver and applications"),
    burst: text(document.querySelector(".burst h3")),
  };
})()"""

# Waits for two frames, after which changes are drawn.
DRAWN = "new Promise((done) => requestAnimationFrame(() => requestAnimationFrame(() => done(performance.now()))))"


# Presses a key several times, and waits each time until the page is drawn.
STEPS = """(async () => {
  for (let step = 0; step < %d; step += 1) {
    dispatchEvent(new KeyboardEvent("keydown", { key: "%s" }));
    await new Promise((done) => requestAnimationFrame(() => setTimeout(done)));
  }
})()"""


@unittest.skipUnless(CHROMIUM, MISSING)
class InABrowser(unittest.TestCase):
    @classmethod
    def setUpClass(cls) -> None:
        cls.holder = tempfile.TemporaryDirectory()
        cls.browser = Browser()

    @classmethod
    def tearDownClass(cls) -> None:
        cls.browser.close()
        cls.holder.cleanup()

    def page(self, path: str, *words: str) -> str:
        """Makes the page of a scenario; returns the path of its file."""
        made = os.path.join(self.holder.name, f"{os.path.basename(path)}.html")
        status, _, err = bench("page", path, "-o", made, *words)
        self.assertEqual((status, err.count("\n") <= 1), (0, True), err)
        return made

    def open(self, path: str, fragment: str = "", *words: str) -> None:
        self.browser.open(self.page(path, *words), fragment)
        self.browser.errors.clear()

    def shown(self) -> dict:
        return self.browser.value(SHOWN)

    def test_it_asks_for_nothing(self):
        made = self.page(example_path("write-cut.json"))
        self.browser.errors.clear()
        self.browser.open(made)
        self.browser.press("ArrowRight", 31)
        self.browser.value(DRAWN)
        asked = [address for address in self.browser.asked if not address.startswith("data:")]
        self.assertEqual(asked, [f"file://{made}"])
        self.assertEqual(self.browser.errors, [])

    def test_each_event_of_write_cut(self):
        """At each event, reached by the arrow key, the page shows the state of the table worked out by hand."""
        self.open(example_path("write-cut.json"))
        for line in TABLE:
            shown = self.shown()
            if line.event:
                self.assertTrue(shown["event"].startswith(f"event {line.event} of 31"), shown["event"])
            stage = "" if not line.stage else f", stage {line.stage}" + (": the shadow is in the driver for it" if line.shadow else " is due")
            self.assertEqual(shown["part"], f"{line.mode}{stage}; failures {line.failures}, limit 2")
            calls = [[name, call] for name, call in zip(("writer", "reader"), line.calls) if call]
            self.assertEqual(shown["calls"], calls)
            self.assertEqual([row[1] for row in shown["configuration"]], [str(word) for word in line.record])
            self.assertEqual([row[2] for row in shown["configuration"]], [str(word) for word in line.registers])
            self.assertEqual([row[3] for row in shown["configuration"]],
                             ["" if one == other else "differs" for one, other in zip(line.record, line.registers)])
            self.assertEqual(shown["disk"], [[str(block), f"[{word} x16]"] for block, word in line.blocks.items()])
            self.assertEqual(shown["rest"][0], ["the driver holds", line.holds or "nothing"])
            self.browser.press("ArrowRight")
        self.assertEqual(self.browser.errors, [])

    def test_keys(self):
        self.open(example_path("write-cut.json"))
        press, shown = self.browser.press, self.shown
        for key, times, shift, event in [("ArrowRight", 3, False, 3), ("ArrowRight", 1, True, 13), ("ArrowLeft", 1, False, 12),
                                         ("End", 1, False, 31), ("ArrowRight", 1, False, 31), ("Home", 1, False, 0), ("ArrowLeft", 1, False, 0),
                                         ("n", 1, False, 15), ("N", 1, True, 15)]:
            press(key, times, shift)
            self.assertEqual(shown()["event"].split(" ")[1 if event else 0], str(event) if event else "the", key)
        position = "document.querySelector('.turn-where').textContent"
        self.assertEqual(self.browser.value(position), "a fault, after instruction 205")
        press("ArrowUp")
        self.assertEqual(self.browser.value(position), "instruction 205 of 205")
        press("ArrowUp", 2, True)
        self.assertEqual(self.browser.value(position), "instruction 185 of 205")
        press("ArrowDown", 5)
        self.assertEqual(self.browser.value(position), "instruction 190 of 205")
        instruction = self.browser.value("document.querySelector('.items .chosen .instruction').textContent")
        self.assertIn(instruction.split(" ")[0], self.browser.value("document.querySelector('.source .chosen').textContent"))
        self.browser.value("document.activeElement.blur()")
        press("?")
        self.assertEqual(self.browser.value("document.querySelector('.keys').hidden"), False)

    def test_each_button_is_reached_by_tab(self):
        self.open(example_path("write-cut.json"))
        names = set()
        for _ in range(60):
            self.browser.press("Tab")
            names.add(self.browser.value("document.activeElement.textContent.trim()"))
        buttons = self.browser.value("[...document.querySelectorAll('button')].filter((each) => each.offsetParent).map((each) => each.textContent.trim())")
        self.assertLessEqual(set(buttons), names)

    def test_play(self):
        self.open(example_path("write-cut.json"))
        self.browser.press(" ")
        ends = time.monotonic() + 60
        while not re.match("event ([2-9]|[123][0-9]) ", self.shown_event()) and time.monotonic() < ends:
            time.sleep(0.1)
        self.browser.press(" ")
        stopped = self.shown_event()
        self.assertRegex(stopped, "^event ([2-9]|[123][0-9]) ")
        self.browser.value("new Promise((done) => setTimeout(done, 1500))")
        self.assertEqual(self.shown_event(), stopped)

    def test_addresses(self):
        self.open(example_path("write-cut.json"), "#p0e15")
        self.assertTrue(self.shown()["event"].startswith("event 15 "))
        self.assertIn("It fails: ", self.shown()["sentence"])
        self.browser.value("location.hash = '#p0e17'; 0")
        self.browser.value(DRAWN)
        self.assertIn(BY_SHADOW, self.shown()["sentence"])
        self.browser.press("ArrowRight")
        self.browser.value("new Promise((done) => setTimeout(done, 400))")
        self.assertEqual(self.browser.value("location.hash"), "#p0e18")

    def test_a_broken_contract_is_shown_at_its_instruction(self):
        made = example("block.json")
        made["parts"][0]["faults"] = [{"burst": 3, "after": 6, "kind": "reg", "register": 8, "value": 2}]
        with file_of(made) as path:
            self.open(path)
            self.browser.press("n")
            notes = self.browser.value("[...document.querySelectorAll('.note')].map((each) => each.textContent)")
            self.assertEqual(len(notes), 2)
            self.assertRegex(notes[1], r"CONTRACT BROKEN here, clause 2: the driver stored other words .* The deed: store 5 ")
            row = self.browser.value("document.querySelector('.items .chosen').textContent")
            self.assertIn("store 5", row)
            self.assertIn("BREAKS", row)

    def test_two_parts(self):
        made = example("block.json")
        other = example("net.json")
        made["parts"] += other["parts"]
        for thread in other["threads"]:
            made["threads"].append({"name": f"{thread['name']}_2", "ops": [{**each, "part": 1} for each in thread["ops"]]})
        with file_of(made) as path:
            self.open(path)
            self.browser.press("2")
            self.browser.press("ArrowRight")
            self.browser.value("new Promise((done) => setTimeout(done, 400))")
            self.assertEqual(self.browser.value("location.hash"), "#p1e1")
            cards = self.browser.value("[...document.querySelectorAll('.card h3')].map((each) => each.textContent)")
            self.assertIn("Frames", cards)
            self.assertEqual(self.browser.errors, [])

    def test_every_example_opens_without_an_error(self):
        for name in ("net", "sound", "given-up", "link-loses", "borrowed-object", "write-and-read", "media-errors"):
            self.open(example_path(f"{name}.json"))
            self.browser.press("End")
            self.assertTrue(self.shown_event())
            self.assertEqual(self.browser.errors, [])

    def shown_event(self) -> str:
        return self.browser.value("document.querySelector('.event-where').textContent")

    def test_ten_thousand_events(self):
        """A step takes less than 50 ms of the page's thread, and the page has only the visible elements."""
        with file_of(many_events()) as path:
            self.open(path, "", "--traces", "20")
        events = int(self.shown_event().split(" of ")[1])
        self.assertGreater(events, 10_000)
        for start, key in (("Home", "ArrowRight"), ("n", "ArrowRight"), ("End", "ArrowLeft")):
            self.browser.press(start)
            before = self.browser.busy()
            self.browser.value(STEPS % (MOST_STEPS, key))
            self.assertLess((self.browser.busy() - before) / MOST_STEPS, MOST_SECONDS)
            self.assertLess(self.browser.value("document.querySelectorAll('*').length"), 3_000)

    def test_print(self):
        self.open(example_path("write-cut.json"), "#p0e15")
        self.assertTrue(self.browser.printed().startswith(b"%PDF"))
        self.assertTrue(self.shown()["event"].startswith("event 15 "))


if __name__ == "__main__":
    unittest.main()
