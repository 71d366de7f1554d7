"""page: a file that needs no other, with each event in words and each traced burst."""

import glob
import json
import os
import re
import shutil
import subprocess
import tempfile
import time
import unittest

from common import bench, example, example_path, example_text, file_of, program

from nooks_bench.deeds import deed_of
from nooks_bench.event_words import Sentences
from nooks_bench.page_text import FOLDER, MODULES, SERVED_MODULES, script_text
from nooks_bench.report import parse_report
from nooks_bench.state import states_of

WRITE_CUT = example_path("write-cut.json")
SCRIPTS = sorted({*MODULES, *SERVED_MODULES})


def page_of(path: str, *words: str) -> str:
    status, out, err = bench("page", path, *words)
    assert (status, err.count("\n") <= 1) == (0, True), err
    return out


def data_of(page: str) -> dict:
    """The data of a page."""
    return json.loads(re.search(r'<script type="application/json" id="data">(.*?)</script>', page, re.DOTALL)[1])


def many_events() -> dict:
    """A scenario whose report has more than 10,000 events: sixteen threads of 256 operations."""
    asked = [{"part": 0, "op": "get", "key": 1}, {"part": 0, "op": "read", "first": 3, "count": 1}]
    threads = [{"name": f"t{number}", "ops": asked * 128} for number in range(16)]
    part = {"name": "disk", "class": "block", "blocks": 8, "limit": 2, "driver": {"asm": example_text("block.asm")},
            "faults": [{"burst": 2000, "after": 3, "kind": "trap"}]}
    return {"version": 1, "parts": [part], "threads": threads}


class Pages(unittest.TestCase):
    def test_it_asks_for_nothing(self):
        page = page_of(WRITE_CUT)
        self.assertFalse("@import" in page or "url(http" in page)
        self.assertEqual(set(re.findall(r"https?://[^\"'\s]*", page)), {"http://www.w3.org/2000/svg"})
        self.assertEqual(re.findall(r"(?:src|href)=\"([^\"]*)\"", page), ["data:,"])
        self.assertTrue("default-src 'none'; script-src 'sha256-" in page)

    def test_text_of_a_scenario_is_no_markup(self):
        made = example("write-cut.json")
        made["parts"][0]["driver"]["asm"] += "; </script><script>alert(1)</script><!-- <b>\n"
        with file_of(made) as path:
            page = page_of(path)
        self.assertEqual(page.count("<script"), 2)
        self.assertFalse("<!--" in page)
        self.assertIn("; </script><script>alert(1)</script><!-- <b>", data_of(page)["parts"][0]["source"]["lines"])

    def test_every_example(self):
        for path in glob.glob(example_path("*.json")):
            if "campaign" in path:
                self.assertEqual(bench("page", path)[0], 2)
                continue
            data = data_of(page_of(path, "--traces", "3"))
            report = parse_report(program().report(example(os.path.basename(path))))
            for part, shown in zip(report.parts, data["parts"]):
                self.assertEqual(len(shown["events"]), len(part.events))
                self.assertTrue(all(words.endswith((".", "]")) and "None" not in words for words, *_ in shown["events"]))

    def test_words(self):
        part = data_of(page_of(WRITE_CUT))["parts"][0]
        words = [each[0] for each in part["events"]]
        self.assertEqual(words[13], "reader invokes get 1. Call c4 is held until it enters.")
        self.assertEqual(words[14], "The driver works 205 instructions for writer's c3 write 9 [11 x16, 12 x16, 13 x16]: store 9 [11 x16], "
                                    "store 10 [12 x16]. It fails: a fault of the scenario stopped it (trap injected).")
        self.assertEqual(words[15], "The driver is stopped: all of its contexts end. c4 is answered by the shadow: value 6. "
                                    "c3 write 9 [11 x16, 12 x16, 13 x16] is held.")
        self.assertEqual(words[16], "reader invokes get 1. Call c5 is answered by the shadow: value 6.")
        self.assertEqual(words[24], "The shadow enters the driver at its set, to bring register 1 back to 6.")
        self.assertIn("its try 2: it starts from the beginning", words[27])
        self.assertEqual(part["events"][14][3], [["fault", "A fault of the scenario struck here: fault 0: trap after 205 instructions of burst 5."]])

    def test_a_broken_contract_names_its_deed(self):
        data = data_of(page_of(example_path("contract-broken.json")))
        part = data["parts"][0]
        self.assertIn("status 7", data["status"])
        self.assertEqual(part["broken"], 8)
        self.assertEqual(part["events"][7][3], [["broken", "CONTRACT BROKEN here, clause 3: the driver replied that a write is done, and a block of "
                                                           "it does not hold its words. The deed: reply 0"]])
        burst = part["bursts"]["3"]
        self.assertEqual(burst["breaks"], len(burst["items"]))

    def test_bursts(self):
        part = data_of(page_of(WRITE_CUT))["parts"][0]
        self.assertEqual(len(part["bursts"]), 10)
        burst = part["bursts"]["5"]
        self.assertEqual([len(burst["items"]), burst["items"][-1]], [206, [0, 205, "trap"]])
        self.assertEqual(burst["items"][0][:3], [1, 18, "r5 = 16"])
        self.assertEqual(burst["registers"]["5"], [[0, 0], [1, 16]])
        self.assertEqual(part["source"]["words"]["18"], [25, "LI r5 16", []])
        read = part["bursts"]["10"]
        self.assertEqual(read["areas"]["5312"], "buffer of context 1")
        self.assertEqual(read["words"]["5312"][0][1], 12)

    def test_bursts_that_are_left_out(self):
        status, out, err = bench("page", WRITE_CUT, "--traces", "1")
        self.assertEqual((status, err), (0, "nooks-bench: part 0 disk: 1 of 10 bursts are traced, first those that failed or were "
                                            "struck; --traces N traces N\n"))
        part = data_of(out)["parts"][0]
        self.assertEqual(list(part["bursts"]), ["5"])
        self.assertIn("not known, since burst", part["bursts"]["5"]["device"])
        self.assertEqual(bench("page", WRITE_CUT, "--traces=-1")[0], 2)

    def test_a_guarded_run(self):
        """The burst that the guard stopped is shown next to the driver's text, and says who stopped it."""
        data = data_of(page_of(example_path("sends-twice.json"), "--guard"))
        part = data["parts"][0]
        words = [words for words, *_ in part["events"] if "guard stops" in words]
        self.assertEqual(words, ["The driver works 16 instructions for app's c3 send [911, 7]: sent [911, 7]. The guard stops it: a failure like any other."])
        self.assertEqual(part["lanes"]["faults"], {"17": ["G"]})
        burst = part["bursts"]["6"]
        self.assertEqual(burst["items"][-1], [0, 16, 'the guard stops the driver: by "sent [911, 7]" it would have sent a second frame in one send (clause 6)', True])
        self.assertEqual(part["source"]["words"]["4"][0], 11)
        self.assertEqual(part["source"]["lines"][10], "send: LI r4 911")

    def test_a_file(self):
        with tempfile.TemporaryDirectory() as folder:
            path = os.path.join(folder, "page.html")
            self.assertEqual(bench("page", WRITE_CUT, "-o", path), (0, "", ""))
            with open(path, encoding="utf-8") as file:
                self.assertIn("<title>write-cut</title>", file.read())
            self.assertEqual(bench("page", WRITE_CUT, "-o", os.path.join(folder, "no", "page.html"))[0], 2)

    def test_ten_thousand_events(self):
        text = program().report(many_events())
        begun = time.process_time()
        part = parse_report(text).parts[0]
        states = states_of(part)
        self.assertGreater(len(part.events), 10_000)
        self.assertLess(time.process_time() - begun, 4)
        sentences = Sentences({})
        self.assertTrue(all(sentences.of(event, one, other) for event, one, other in zip(part.events, states, states[1:])))


class Deeds(unittest.TestCase):
    """The deed that broke the contract belongs to the clause that the report names."""

    def deed(self, scenario: dict) -> tuple[int, str]:
        part = parse_report(program().report(scenario)).parts[0]
        deed = deed_of(part, states_of(part))
        return (deed.clause, deed.text) if deed else (0, "")

    def struck(self, name: str, **fault: object) -> dict:
        made = example(name)
        made["parts"][0]["faults"] = [{"kind": "reg", **fault}]
        return made

    def test_acts(self):
        self.assertEqual(self.deed(self.struck("block.json", burst=3, after=6, register=8, value=2))[0], 2)
        found = {self.deed(self.struck(name, burst=burst, after=after, register=register, value=2))
                 for name, burst in (("block.json", 3), ("net.json", 3), ("sound.json", 6))
                 for after in range(0, 24, 2) for register in (1, 2, 3, 8)}
        self.assertLessEqual({1, 2, 5, 10}, {clause for clause, _ in found})
        for clause, text in found:
            acts = {1: "store", 2: "store", 5: "sent", 6: "sent", 10: "played", 12: "register"}
            if clause:
                self.assertEqual(text.split(" ")[0], acts.get(clause, text.split(" ")[0]))
                self.assertEqual(text.startswith(("reply", "service")), clause not in acts)

    def test_none(self):
        self.assertEqual(self.deed(example("block.json")), (0, ""))


class Scripts(unittest.TestCase):
    def test_names_of_modules_differ(self):
        """The page joins the modules into one script, so no two may declare the same name."""
        for modules in (MODULES, SERVED_MODULES):
            names = re.findall(r"(?m)^(?:const|let|function\*?|class) (\w+)", script_text(modules))
            self.assertEqual(sorted(names), sorted(set(names)))

    def test_modules_follow_what_they_import(self):
        for modules in (MODULES, SERVED_MODULES):
            for index, name in enumerate(modules):
                with open(os.path.join(FOLDER, name), encoding="utf-8") as file:
                    needed = re.findall(r'^import .* from "\./(.*)";$', file.read(), re.MULTILINE)
                self.assertLessEqual(set(needed), set(modules[:index]), name)
            self.assertEqual(re.findall(r"(?m)^(?:import|export) .*", script_text(modules)), [])
        self.assertEqual(SCRIPTS, sorted(name for name in os.listdir(FOLDER) if name.endswith(".js")))

    def test_the_page_of_a_run_has_nothing_of_the_server(self):
        self.assertEqual([word for word in ("fetch(", "XMLHttpRequest", "WebSocket", "sendBeacon", "EventSource") if word in script_text()], [])

    @unittest.skipUnless(shutil.which("node"), "there is no node, which reads the modules")
    def test_node_reads_them(self):
        with tempfile.TemporaryDirectory() as folder:
            for name in SCRIPTS:
                shutil.copy(os.path.join(FOLDER, name), os.path.join(folder, name.replace(".js", ".mjs")))
            for name in SCRIPTS:
                ended = subprocess.run(["node", "--check", os.path.join(folder, name.replace(".js", ".mjs"))], capture_output=True, text=True, check=False)
                self.assertEqual((ended.returncode, ended.stderr), (0, ""))

    def types(self, *paths: str) -> str:
        """The errors that the type checker prints."""
        words = ["tsc", "--noEmit", "--allowJs", "--checkJs", "--target", "es2022", "--module", "es2022", "--lib", "es2022,dom,dom.iterable"]
        ended = subprocess.run([*words, *paths], capture_output=True, text=True, check=False)
        self.assertEqual(ended.returncode == 0, ended.stdout == "")
        return ended.stdout

    @unittest.skipUnless(shutil.which("tsc"), "there is no tsc, which checks the types of the script: apt-get install node-typescript")
    def test_types(self):
        self.assertEqual(self.types(*(os.path.join(FOLDER, name) for name in SCRIPTS)), "")
        with tempfile.TemporaryDirectory() as folder:
            for name in SCRIPTS:
                shutil.copy(os.path.join(FOLDER, name), folder)
            with open(os.path.join(folder, "wrong.js"), "w", encoding="utf-8") as file:
                file.write('import { addressOf } from "./elements.js";\naddressOf(1, 2).missing();\n')
            self.assertIn("wrong.js(2,17): error TS2339", self.types(os.path.join(folder, "wrong.js")))


if __name__ == "__main__":
    unittest.main()
