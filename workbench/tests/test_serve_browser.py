"""The page of `serve` in a browser: the pointer and the keyboard make the same as the command line."""

import json
import os
import re
import unittest

from browser import CHROMIUM, MISSING, Browser
from common import bench, example, program
from race import racing_scenario
from serving import site
from test_page import many_events
from test_page_browser import DRAWN, MOST_SECONDS, MOST_STEPS, STEPS
from test_serve import ends, group

from nooks_bench.report import parse_report
from nooks_bench.scenario import with_faults

SAID = "document.querySelector('.bench-said').textContent"
CHOOSE = "(() => {{ const one = document.querySelector('{0}'); one.value = '{1}'; one.dispatchEvent(new Event('change')); return 0; }})()"


@unittest.skipUnless(CHROMIUM, MISSING)
class Served(unittest.TestCase):
    @classmethod
    def setUpClass(cls) -> None:
        cls.holder = site("write-cut.json", "block.json", "sends-twice.json", "contract-broken.json")
        cls.site = cls.holder.__enter__()
        cls.browser = Browser()

    @classmethod
    def tearDownClass(cls) -> None:
        cls.browser.close()
        cls.holder.__exit__(None, None, None)

    def open(self, name: str) -> None:
        self.browser.visit(self.site.address)
        self.browser.errors.clear()
        self.browser.until("document.querySelector('.files')?.options.length > 1")
        self.choose(".files", name)
        self.until_run()

    def choose(self, selector: str, value: str) -> None:
        self.browser.value(CHOOSE.format(selector, value))

    def until_run(self) -> str:
        """Waits until a run is shown; returns how it ended."""
        return self.browser.until(f"document.querySelector('.bench-said.ran') && /status \\d/.test({SAID}) && {SAID}")

    def until_said(self, pattern: str) -> str:
        return self.browser.until(f"/{pattern}/.test({SAID}) && {SAID}")

    def text(self, selector: str) -> str:
        return self.browser.value(f"document.querySelector('{selector}')?.textContent ?? ''")

    def go(self, event: int) -> None:
        self.browser.press("Home")
        self.browser.press("ArrowRight", event)
        self.browser.value(DRAWN)

    def report(self) -> str:
        """The report that the page makes of its run."""
        name = f"made-{len(os.listdir(self.site.folder))}"
        self.choose(".makes", "report")
        self.browser.value(f"document.querySelector('.field-target').value = '{name}'; 0")
        self.browser.click("document.querySelector('.make')")
        self.until_said(f"^made: {name}")
        return self.site.text(f"{name}.report")

    def test_it_asks_its_server_alone(self):
        self.open("write-cut.json")
        self.browser.press("ArrowRight", 31)
        asked = [address for address in self.browser.asked if not address.startswith("data:")]
        self.assertTrue(asked)
        self.assertEqual({re.sub(r"^http://[^/]*", "", address).split("?")[0] for address in asked}, {"/", "/files", "/work"})
        self.assertEqual({address.split("/")[2] for address in asked}, {self.site.host})
        self.assertEqual(self.browser.errors, [])

    def test_without_a_token(self):
        self.browser.visit(self.site.address.split("?")[0])
        self.assertIn("the token is missing", self.browser.value("document.body.textContent"))

    def test_another_origin_is_refused(self):
        """A page of another origin in the same browser gets no answer and makes no file, even with the token."""
        self.browser.visit("data:text/html,<title>elsewhere</title>")
        for headers in ("{}", f"{{'X-Nooks-Token': '{self.site.token}', 'Content-Type': 'application/json'}}"):
            asked = f"fetch('http://{self.site.host}/save', {{method: 'POST', headers: {headers}, body: '{{\"name\":\"x.json\",\"text\":\"\",\"was\":\"\"}}'}})"
            self.assertEqual(self.browser.value(f"{asked}.then((one) => one.status, () => 'refused')"), "refused")
        self.assertFalse(os.path.exists(self.site.path("x.json")))

    def test_a_click_on_an_instruction_adds_a_fault(self):
        self.open("write-cut.json")
        self.go(9)
        self.assertIn("b3", self.text(".said .line"))
        self.browser.press("ArrowUp", 2)
        self.browser.value(DRAWN)
        row = "document.querySelector('.items .chosen')"
        instruction = int(self.browser.value(f"{row}.querySelector('.number').textContent"))
        self.browser.click(f"{row}.querySelector('.place')")
        self.browser.until("document.querySelectorAll('.note.fault').length > 0")
        fault = {"burst": 3, "after": instruction - 1, "kind": "trap"}
        expected = program().report(with_faults(example("write-cut.json"), 0, [fault]))
        part = parse_report(expected).parts[0]
        struck = next(event for event in part.events if event.burst == 3)
        self.assertTrue(self.text(".event-where").startswith(f"event {struck.number} of {len(part.events)}"))
        self.assertIn(json.dumps(fault), self.browser.value("document.querySelector('.text-area').value"))
        self.assertEqual(self.report(), expected)
        self.browser.press("Escape")
        self.browser.press("u")
        self.browser.until("!document.querySelector('.text-area').value.includes('\"after\": %d')" % fault["after"])
        self.until_run()
        self.assertEqual(self.report(), program().report(example("write-cut.json")))
        self.assertEqual(self.browser.errors, [])

    def test_a_click_on_a_cell_adds_a_fault(self):
        self.open("block.json")
        self.browser.press("Home")
        event = next(each.number for each in parse_report(program().report(example("block.json"))).parts[0].events if each.burst == 3)
        self.go(event)
        self.choose(".kind", "reg")
        self.browser.press("m")
        self.until_said("^nooks-bench map")
        cells = "[...document.querySelectorAll('.map-drawing rect')].filter((one) => one.querySelector('title')?.textContent.startsWith('{'))"
        broken = f"{cells}.find((one) => one.querySelector('title').textContent.includes('contract broken'))"
        fault = json.loads(self.browser.value(f"{broken}.querySelector('title').textContent").split("\n")[0])
        self.browser.click(broken)
        self.browser.until("document.querySelectorAll('.note.broken').length > 0")
        expected = program().report(with_faults(example("block.json"), 0, [fault]))
        self.assertEqual(parse_report(expected).status, 7)
        self.assertEqual(self.report(), expected)
        self.assertEqual(self.browser.errors, [])

    def test_an_assembler_error_is_shown_at_its_line(self):
        self.open("write-cut.json")
        self.browser.click("document.querySelectorAll('.text-tabs button')[1]")
        lines = example("write-cut.json")["parts"][0]["driver"]["asm"].split("\n")
        offset = sum(len(line) + 1 for line in lines[:11])
        self.browser.value(f"(() => {{ const one = document.querySelector('.text-area'); one.focus(); one.setSelectionRange({offset}, {offset}); return 0; }})()")
        self.browser.type("  LI r1, r99x y\n")
        said = self.until_said("write-cut.asm:12:")
        self.assertEqual(self.text(".bad-number"), "12")
        mark, area = (self.browser.value(f"document.querySelector('{name}').getBoundingClientRect().top") for name in (".bad-line", ".text-area"))
        scrolled = self.browser.value("document.querySelector('.text-area').scrollTop")
        self.assertEqual(round(mark - area + scrolled), 4 + 11 * 17)
        self.assertEqual(self.browser.value("getComputedStyle(document.querySelector('.run.stale'), '::before').content !== 'none'"), True)
        self.browser.press("s", ctrl=True)
        self.until_said("^saved: write-cut.jsonc, write-cut.asm")
        _, _, err = bench("build", self.site.path("write-cut.jsonc"))
        self.assertEqual(err.replace(f"{self.site.folder}/", ""), f"nooks-bench: {said}\n")
        self.browser.press("Escape")
        self.browser.press("r")
        self.until_said("write-cut.asm:12:")
        for name in ("write-cut.jsonc", "write-cut.asm"):
            os.unlink(self.site.path(name))

    def test_an_error_of_the_scenario_is_shown_at_its_line(self):
        self.open("block.json")
        self.browser.value("(() => { const one = document.querySelector('.text-area'); one.value = one.value.replace('\"blocks\": ', '\"limit\": 99, \"blocks\": '); "
                           "one.dispatchEvent(new Event('input')); return 0; })()")
        said = self.until_said("limit: 99 is out of range")
        self.assertTrue(self.browser.value("document.querySelector('.run.stale') !== null"))
        line = int(said.split(":")[1])
        self.assertEqual(self.text(".bad-number"), str(line))
        shown = self.browser.value("document.querySelector('.text-area').value").split("\n")[line - 1]
        self.assertIn("99", shown)
        self.browser.click("document.querySelector('.bench-said')")
        chosen = self.browser.value("document.querySelector('.text-area').selectionStart")
        self.assertTrue(self.browser.value("document.querySelector('.text-area').value")[chosen:].startswith("99"))
        self.browser.value("(() => { const one = document.querySelector('.text-area'); one.value = one.value.replace('\"limit\": 99, ', ''); "
                           "one.dispatchEvent(new Event('input')); return 0; })()")
        self.until_said("the program takes these texts")
        self.assertFalse(self.browser.value("document.querySelector('.run.stale') !== null"))
        self.assertTrue(self.browser.value("document.querySelector('.bad-number').hidden"))

    def test_a_guard_turns_a_broken_run_into_a_recovered_one(self):
        self.open("sends-twice.json")
        self.assertIn("status 7", self.text(".status"))
        self.browser.press("n")
        self.assertIn("CONTRACT BROKEN", self.text(".said"))
        self.browser.click("document.querySelector('.guard input')")
        self.browser.until("/with a guard: status/.test(%s)" % SAID)
        self.assertIn("status 0", self.text(".status"))
        self.browser.press("Escape")
        self.browser.press("Home")
        self.browser.press("n")
        self.assertIn("The guard stopped the driver here", self.text(".said"))
        self.assertIn("The guard stops it", self.text(".sentence"))
        self.assertIn("after 16 the guard stops the driver", self.text(".items .chosen"))
        self.assertIn("BNE r5 r4", self.text(".items"))
        self.assertEqual(self.browser.value("document.querySelector('.run').textContent.includes('CONTRACT BROKEN')"), False)
        self.assertEqual(self.report(), program().guard(example("sends-twice.json")))
        self.browser.press("Escape")
        self.browser.press("g")
        self.browser.until("/without a guard: status 7/.test(%s)" % SAID)

    def test_by_the_keyboard_alone(self):
        """Chooses a scenario, looks at its driver, adds a fault, draws a map, chooses a cell, and saves all."""
        press = self.browser.press
        self.browser.visit(self.site.address)
        self.browser.errors.clear()
        self.browser.until("document.activeElement.className === 'files' && document.activeElement.options.length > 1")
        press("w")
        self.until_run()
        self.assertIn("write-cut.jsonc", self.text(".bench-said"))
        press("ArrowRight", 9)
        press("f")
        self.browser.until("document.querySelectorAll('.note.fault').length > 0")
        press("m")
        self.until_said("^nooks-bench map")
        self.assertEqual(self.browser.value("document.activeElement.className"), "map-drawing")
        press("ArrowRight", 2)
        chosen = json.loads(self.text(".cell-words").split(" \u00b7 ")[0])
        self.assertEqual((chosen["burst"], chosen["after"]), (3, 2))
        press("Enter")
        self.browser.until("document.querySelector('.text-area').value.includes('%s')" % json.dumps(chosen))
        self.until_run()
        press("e")
        self.assertEqual(self.browser.value("document.activeElement.className"), "text-area mono")
        press("Escape")
        press("g")
        self.browser.until("/with a guard: status/.test(%s)" % SAID)
        press("s", ctrl=True)
        self.until_said("^saved: ")
        scenario = json.loads(bench("build", self.site.path("write-cut.jsonc"))[1])
        self.assertEqual(scenario["parts"][0]["faults"][-1], chosen)
        self.assertEqual(len(scenario["parts"][0]["faults"]), 3)
        for name in ("write-cut.jsonc", "write-cut.asm"):
            os.unlink(self.site.path(name))
        self.assertEqual(self.browser.errors, [])

    def test_each_control_is_reached_by_tab(self):
        self.open("write-cut.json")
        self.browser.value("document.activeElement.blur()")
        names = set()
        for _ in range(60):
            self.browser.press("Tab")
            names.add(self.browser.value("document.activeElement.className || document.activeElement.textContent"))
        controls = self.browser.value("[...document.querySelectorAll('.bench button, .bench select, .bench input, .bench textarea')]"
                                      ".filter((one) => one.offsetParent && !one.disabled).map((one) => one.className || one.textContent)")
        self.assertLessEqual(set(controls), names)

    def test_a_long_run_is_stopped(self):
        """Esc stops a run, and so does leaving the page."""
        runs = self.site.server.served.runs
        self.site.put("long.json", json.dumps(many_events()))
        for way in ("Escape", "away"):
            self.browser.visit(self.site.address)
            self.browser.until("document.querySelector('.files')?.options.length > 1")
            self.choose(".files", "long.json")
            self.until_said("at work")
            ends(self, lambda: len(runs.processes) == 1)
            number = next(iter(runs.processes)).pid
            if way == "Escape":
                self.browser.press("Escape")
                self.until_said("stopped")
            else:
                self.browser.call("Page.navigate", url="about:blank")
            ends(self, lambda: not runs.processes)
            ends(self, lambda: not group(number))
        os.unlink(self.site.path("long.json"))

    def test_ten_thousand_events(self):
        self.site.put("many.json", json.dumps(many_events()))
        self.open("many.json")
        self.assertGreater(int(self.text(".event-where").split(" of ")[1]), 10_000)
        for start, key in (("Home", "ArrowRight"), ("n", "ArrowRight"), ("End", "ArrowLeft")):
            self.browser.press(start)
            before = self.browser.busy()
            self.browser.value(STEPS % (MOST_STEPS, key))
            self.assertLess((self.browser.busy() - before) / MOST_STEPS, MOST_SECONDS)
        os.unlink(self.site.path("many.json"))

    def test_a_loaded_page_opens_what_was_open(self):
        self.open("write-cut.json")
        self.browser.press("ArrowRight", 4)
        self.browser.value("new Promise((done) => setTimeout(done, 400))")
        address = self.browser.value("location.href")
        self.assertTrue(address.endswith("&open=write-cut.json#p0e4"), address)
        self.browser.visit(address)
        self.until_run()
        self.assertTrue(self.text(".event-where").startswith("event 4 of 31"))

    def test_changes_are_not_dropped_at_once(self):
        self.open("write-cut.json")
        self.browser.press("ArrowRight", 9)
        self.browser.press("f")
        self.browser.until("document.querySelectorAll('.note.fault').length > 0")
        self.choose(".files", "block.json")
        self.until_said("changes that are not saved")
        self.assertIn("write-cut", self.text(".text-tabs"))
        self.choose(".files", "block.json")
        self.browser.until("document.querySelector('.text-tabs').textContent.includes('block.jsonc')")

    def test_a_program_without_explore(self):
        path = self.site.path("../nooks")
        with open(path, "w", encoding="utf-8") as file:
            file.write(f'#!/bin/sh\n[ "$1" = explore ] && {{ echo "usage: nooks run | asm"; exit 2; }}\nexec {program().path} "$@"\n')
        os.chmod(path, 0o755)
        about = self.site.server.served.runs.about
        known, about["program"] = about["program"], path
        try:
            self.open("write-cut.json")
            self.browser.press("x")
            self.assertIn("it has no `explore`", self.until_said("is too old"))
        finally:
            about["program"] = known

    def test_orders(self):
        """The button of an outcome opens the run of its schedule."""
        self.site.put("race.json", json.dumps(racing_scenario()))
        self.open("race.json")
        self.assertIn("status 0", self.text(".status"))
        self.browser.press("x")
        self.until_said("every order: ")
        self.browser.click("document.querySelector('.outcome.status-7')")
        self.browser.until("document.querySelectorAll('.note.broken').length > 0")
        self.assertIn("clause 5", self.text(".note.broken"))
        self.browser.press("u")
        self.browser.until("document.querySelector('.status').textContent.includes('status 0')")
        os.unlink(self.site.path("race.json"))


if __name__ == "__main__":
    unittest.main()
