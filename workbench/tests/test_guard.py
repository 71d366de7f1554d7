"""Guarded runs in sweeps, maps, timelines, pages and explanations, compared with `guard` and `run` themselves."""

import json
import os
import re
import stat
import tempfile
import unittest
import xml.etree.ElementTree as ElementTree
from unittest import mock

from common import TOP, bench, example, example_path, example_text, file_of, program
from test_map import cells, drawn_words
from test_sweep import expected, lost_kinds

from nooks_bench.facts import CLAUSES, STATUSES
from nooks_bench.program import Program
from nooks_bench.report import parse_report
from nooks_bench.scenario import with_faults, with_limit
from nooks_bench.sweeping import Sweep
from nooks_bench.unstruck import strikes_of

GUARDED = ["stale-read", "sends-twice", "plays-on"]
TRAP = re.compile(r"(?m)^guard (\d+) burst (\d+) after (\d+) clause (\d+)\n")
SOME = ["--kind", "reg", "--register", "2,8", "--value", "2"]
REGISTERS = ["--kind", "reg", "--register", "0-15", "--value", "2"]

HAS_GUARD = program().ask(["guard"], "").status != STATUSES["usage"]
HAS_EVERY = program().has_campaign_key("every")


def guard(scenario: dict) -> tuple[list[tuple[int, ...]], str]:
    """The traps and the report that `guard` writes, parsed by these tests."""
    text = program().guard(scenario)
    return [tuple(map(int, found)) for found in TRAP.findall(text)], TRAP.sub("", text)


def swept(path: str, *words: str) -> dict:
    status, out, err = bench("sweep", path, "--guard", "--quiet", "--json", *words)
    assert (status, err) == (0, ""), err
    return json.loads(out)


def old_program(folder: str) -> str:
    """A program like an old one without a guard: it prints its usage for `guard`, and refuses the campaign keys."""
    path = os.path.join(folder, "nooks")
    with open(path, "w", encoding="utf-8") as file:
        file.write(f"""#!/bin/sh
case "$1" in
    guard) echo 'usage: nooks run'; exit 2;;
    campaign) cat > {folder}/given.$$; grep -q '"every"\\|"detail"\\|"guard"' {folder}/given.$$ && echo 'fault 2 unknown_key /' && exit 3
        exec '{program().path}' campaign < {folder}/given.$$;;
esac
exec '{program().path}' "$@"
""")
    os.chmod(path, os.stat(path).st_mode | stat.S_IXUSR)
    return path


@unittest.skipUnless(HAS_GUARD, "the program has no guard")
class Reported(unittest.TestCase):
    def test_the_lines_of_guard(self):
        for name in GUARDED:
            report = parse_report(example_text(name + ".guard"))
            traps, text = guard(example(name + ".json"))
            self.assertEqual([(each.part, each.burst, each.after, each.clause) for each in report.guards], traps)
            self.assertEqual(example_text(name + ".guard").count("guard "), len(traps))
            self.assertEqual(report.status, int(re.search(r"(?m)^status (\d+)$", text)[1]))
            for trap in report.guards:
                burst = next(each for each in report.parts[trap.part].bursts() if each.burst == trap.burst)
                self.assertEqual((burst.instructions, burst.cause), (trap.after, "trap injected"))
                self.assertIs(report.parts[trap.part].guards[trap.burst], trap)

    def test_a_guard_line_within_a_report_is_refused(self):
        with file_of(example_text("block.report") + "guard 0 burst 3 after 4 clause 5\n", ".report") as path:
            self.assertEqual(bench("explain", path)[0], 2)

    def test_explained(self):
        """The explanation has the first deed that would break the contract; without the scenario, only its clause."""
        for name, deed in DEEDS.items():
            status, out, err = bench("explain", "--guard", example_path(name + ".json"))
            self.assertEqual((status, err), (0, ""))
            self.assertIn(f"  {deed}\n", out)
            self.assertIn("\nwith a guard, which stopped drivers 1 time\n", out)
            self.assertNotIn("a fault of the scenario", out)
            _, explained, _ = bench("explain", example_path(name + ".guard"))
            self.assertIn("  " + re.sub(r': by ".*?" it would', ": it would", deed) + "\n", explained)

    def test_drawn(self):
        for name, deed in DEEDS.items():
            status, text, _ = bench("timeline", "--text", "--guard", example_path(name + ".json"))
            self.assertEqual(status, 0)
            short = re.sub(r", in c\d+ .*?(?=: by )", "", deed)
            self.assertIn(f"  {short}\n", text)
            event = int(re.search(r"at event (\d+)", deed)[1])
            lane = re.search(r"(?m)^guard ( +G)$", text)[1]
            wide = re.search(r"(?m)^part( +)\^", text)[1]
            self.assertEqual(len("guard " + lane) - len("part" + wide), event)
            _, svg, _ = bench("timeline", "--guard", example_path(name + ".json"))
            titles = [each.text or "" for each in ElementTree.fromstring(svg).iter() if each.tag.endswith("title")]
            # Three elements have the title: the letter, its box, and the line of the failure.
            self.assertEqual(titles.count(short), 3)
            self.assertIn("stopped by a guard", drawn_words(svg))
        self.assertNotIn("guard", bench("timeline", "--text", example_path("block.report"))[1])

    def test_paged(self):
        for name, deed in DEEDS.items():
            status, page, _ = bench("page", "--guard", example_path(name + ".json"))
            self.assertEqual(status, 0)
            data = json.loads(re.search(r'<script type="application/json" id="data">(.*?)</script>', page, re.DOTALL)[1])
            would = deed.partition(": ")[2]
            notes = [note for event in data["parts"][0]["events"] for note in event[3]]
            turn = re.search(r"before instruction (\d+)", deed)[1]
            self.assertEqual(notes, [["fault", f"The guard stopped the driver here, before instruction {turn}: {would}."]])
            self.assertIn(deed, data["parts"][0]["summary"])

    def test_own_faults_after_the_trap(self):
        """A fault of the scenario after the guard's trap does not strike, and the reason is given."""
        report = parse_report(example_text("stale-read.guard"))
        trap = report.guards[0]
        fault = {"burst": trap.burst, "kind": "reg", "register": 4, "value": 0}
        faults = [{**fault, "after": trap.after}, {**fault, "after": trap.after + 1}, {**fault, "after": 0, "kind": "trap", "burst": 99}]
        strikes = strikes_of(report.parts[0], faults)
        self.assertTrue(strikes[0].event and not strikes[0].why)
        self.assertEqual(strikes[1].why, f"the guard's trap after {trap.after} instructions, ended the burst before")

    def test_several_traps(self):
        """A driver that is always wrong has several traps; each is explained by the deed of that burst."""
        scenario = with_limit(example("contract-broken.json"), 0, 2)
        with file_of(scenario) as path:
            _, out, _ = bench("explain", "--guard", path)
        traps, _ = guard(scenario)
        self.assertEqual(len(traps), 3)
        for _, burst, after, clause in traps:
            line = f"burst {burst}, before instruction {after + 1}, in c1 write 1 [51 x16, 52 x16]: by \"reply 0 -> done\" " \
                   f"it would have {CLAUSES[clause]} (clause {clause})"
            self.assertIn(line, out)
        self.assertIn("with a guard, which stopped drivers 3 times", out)
        self.assertIn("given up", out)


# The lines about the guarded examples, worked out from their drivers: the stop, the call, and the deed.
DEEDS = {
    "stale-read": 'stopped by the guard at event 17, burst 6, before instruction 90, in c4 read 2 1: by "reply 0 -> data [55 x16]" '
    "it would have replied that a read is done, with other words than the disk's (clause 4)",
    "sends-twice": 'stopped by the guard at event 17, burst 6, before instruction 17, in c3 send [911, 7]: by "sent [911, 7]" '
    "it would have sent a second frame in one send (clause 6)",
    "plays-on": 'stopped by the guard at event 16, burst 5, before instruction 11, in c4 play [21, 22, 23]: by "played 0 8000 5" '
    "it would have played a sample that is not the next one of the play inside it (clause 10)",
}


@unittest.skipUnless(HAS_GUARD, "the program has no guard")
class Swept(unittest.TestCase):
    def one_for_one(self, path: str, scenario: dict, *words: str) -> list[dict]:
        """Compares each guarded outcome with that of a guarded run, read from its text; returns the entries."""
        found = swept(path, *words)
        base_traps, base = guard(scenario)
        limits = [part.get("limit", 0) for part in scenario["parts"]]
        for entry in found["runs"][0]["faults"]:
            traps, member = guard(with_faults(scenario, found["part"], [entry["fault"]]))
            self.assertNotIn("contract broken", member)
            became = entry["guarded"]
            if not base_traps:
                self.assertEqual(became["outcome"], expected(base, member, entry["fault"], limits), entry)
                self.assertEqual(became["cause"].startswith("guard, "), bool(traps), entry)
                self.assertEqual(bool(traps), entry["outcome"] == "contract broken", entry)
            if traps and not base_traps:
                self.assertEqual(became["cause"], f"guard, clause {traps[0][3]}")
            before, after = lost_kinds(base), lost_kinds(member)
            self.assertEqual(became["losses"], {kind: after[kind] - before[kind] for kind in before}, entry)
        names = [entry["guarded"]["outcome"] for entry in found["runs"][0]["faults"]]
        self.assertEqual(found["guarded"], {name: names.count(name) for name in found["guarded"]})
        self.assertEqual(sum(found["guarded"].values()), len(names))
        self.assertNotIn("contract broken", names)
        return found["runs"][0]["faults"]

    def test_registers(self):
        for name, limit, words in [("block", 1, ["--call", "1", "--every", "9"]), ("net", 2, ["--every", "3"]),
                                   ("sound", 1, ["--every", "2"])]:
            scenario = with_limit(example(name + ".json"), 0, limit)
            with file_of(scenario) as path:
                entries = self.one_for_one(path, scenario, "--kind", "reg", "--register", "1-3,6-8", "--value", "2", *words)
            self.assertIn("contract broken", {entry["outcome"] for entry in entries})

    def test_traps_are_as_without(self):
        scenario = with_limit(example("sound.json"), 0, 1)
        with file_of(scenario) as path:
            for entry in self.one_for_one(path, scenario, "--every", "4"):
                self.assertEqual({key: entry[key] for key in ("outcome", "cause", "losses")}, entry["guarded"])

    def test_a_base_that_breaks_its_contract(self):
        """Outcomes are relative to the guarded base. Faults strike up to the instruction of its trap, not after it."""
        scenario = with_limit(example("plays-on.json"), 0, 3)
        traps, _ = guard(scenario)
        burst, after = traps[0][1:3]
        with file_of(scenario) as path:
            entries = self.one_for_one(path, scenario, "--burst", str(burst), "--kind", "reg", "--register", "8", "--value", "2")
            _, out, _ = bench("sweep", path, "--guard", "--quiet", "--burst", str(burst))
        missed = [entry["fault"]["after"] for entry in entries if entry["guarded"]["outcome"] == "did not strike"]
        self.assertEqual(missed, list(range(after + 1, len(entries))))
        self.assertRegex(out, r"\nwithout, with a guard: status 0, \d+ events, 1 failures, 0 gone, \d+ lost, 1 trap\n")

    def test_the_table(self):
        words = [example_path("block.json"), "--limit", "1", "--call", "1", "--kind", "reg", "--register", "8", "--value", "2"]
        status, out, err = bench("sweep", *words, "--guard", "--quiet")
        self.assertEqual((status, err), (0, ""))
        lines = out.split("\n")
        broken = lines.index("    32  contract broken: clause 2: stored other words in a block than that write's")
        self.assertEqual(lines[broken + 1], "        with a guard: recovered, nothing lost: guard, clause 2")
        self.assertEqual(lines.count("        with a guard: the same"), 1)
        self.assertIn("      32  18.2 %               .  contract broken", lines)
        self.assertIn("               .      32  18.2 %  recovered, nothing lost", lines)
        self.assertIn("     144  81.8 %     144  81.8 %  struck, no trace", lines)
        self.assertEqual(bench("sweep", *words, "--quiet", "--fail-on", "broken")[0], 1)
        self.assertEqual(bench("sweep", *words, "--quiet", "--fail-on", "broken", "--guard")[0], 0)
        self.assertEqual(bench("sweep", *words, "--quiet", "--fail-on", "recovered", "--guard")[0], 1)

    def test_under_schedules(self):
        found = swept(example_path("sound-skips.json"), "--limit", "2", "--schedules", "2", "--every", "9",
                      "--kind", "reg", "--register", "2", "--value", "2")
        for run in found["runs"]:
            base = program().guard(run["base"])
            self.assertEqual(run["guarded"], {"status": int(base.split()[-1]), "traps": len(TRAP.findall(base))})
            for entry in run["faults"]:
                self.assertNotEqual(entry["guarded"]["outcome"], "contract broken")

    def test_a_journal_is_continued(self):
        words = [example_path("sound.json"), "--limit", "1", "--quiet", "--guard", "--kind", "reg", "--register", "2,8", "--value", "2"]
        status, out, err = bench("sweep", *words)
        # A journal has no results of a table over every instruction.
        whole = (status, re.sub(r"\n\n[\d,]+ faults at every burst(?s:.*)", "\n", out), err)
        with tempfile.TemporaryDirectory() as folder:
            journal = os.path.join(folder, "journal")
            self.assertEqual(bench("sweep", *words, "--journal", journal), whole)
            with open(journal, encoding="utf-8") as file:
                lines = file.readlines()
            for count in (1, 2, len(lines) - 1):
                with open(journal, "w", encoding="utf-8") as file:
                    file.writelines(lines[:count])
                self.assertEqual(bench("sweep", *words, "--journal", journal, "--resume"), whole)
            unguarded = [word for word in words if word != "--guard"]
            status, _, err = bench("sweep", *unguarded, "--journal", journal, "--resume")
            self.assertEqual((status, "another choice of faults" in err), (2, True))

    def test_no_room_for_traps(self):
        scenario = with_faults(with_limit(example("sound.json"), 0, 16), 0, [{"burst": 99, "after": 0, "kind": "trap"}] * 48)
        with file_of(scenario) as path:
            status, out, err = bench("sweep", path, "--guard", "--quiet", "--burst", "3")
        self.assertEqual((status, out), (2, ""))
        self.assertIn("fault 6 too_many /parts/0/faults", err)


@unittest.skipUnless(HAS_GUARD, "the program has no guard")
class Mapped(unittest.TestCase):
    words = [example_path("block.json"), "--limit", "1", "--call", "1", "--kind", "reg", "--register", "7,8", "--value", "2"]

    def test_both_halves(self):
        status, out, err = bench("map", *self.words, "--guard", "--quiet")
        self.assertEqual((status, err), (0, ""))
        found = swept(*self.words[:1], *self.words[1:])
        entries = found["runs"][0]["faults"]
        shown = [cell.split("\n")[:2] for cell in cells(out)]
        for entry in entries:
            fault = json.dumps(entry["fault"])
            outcomes = [outcome.partition(":")[0] for first, outcome in shown if first == fault]
            self.assertEqual(outcomes, [entry["outcome"], entry["guarded"]["outcome"]])
        self.assertEqual(len(shown), 2 * len(entries))
        words = drawn_words(out)
        for name in set(found["outcomes"]) | set(found["guarded"]) - {"contract broken"}:
            if name != "contract broken":
                counts = f"({found['outcomes'].get(name, 0)}, with a guard {found['guarded'].get(name, 0)})"
                self.assertIn(f"{name} {counts}", words)
        self.assertEqual((words.count("without a guard"), words.count("with a guard")), (1, 1))
        with file_of(json.dumps(found)) as path:
            again = bench("map", "--from", path, "--quiet")[1]
        self.assertEqual(cells(again), cells(out))

    def test_rows_fold_if_both_halves_look_the_same(self):
        words = [example_path("net.json"), "--limit", "1", "--burst", "3", "--kind", "reg", "--register", "0-15", "--value", "0"]
        labels = [[word for word in drawn_words(bench("map", *words, *more, "--quiet")[1]) if word.startswith("reg ")]
                  for more in ([], ["--guard"])]
        self.assertEqual(labels[0], labels[1])

    def test_halves_do_not_overlap(self):
        """The cells of the two halves are drawn next to each other, in the same rows."""
        _, out, _ = bench("map", *self.words, "--guard", "--quiet", "--no-fold")
        boxes = [each for each in ElementTree.fromstring(out).iter() if each.tag.endswith("rect")]
        cell_boxes = [each for each in boxes if any((inner.text or "").startswith("{") for inner in each)]
        rows: dict[str, list[float]] = {}
        for each in cell_boxes:
            rows.setdefault(each.get("y"), []).append(float(each.get("x")))
        for lefts in rows.values():
            self.assertEqual(len(lefts) % 2, 0)
            half = len(lefts) // 2
            self.assertLess(max(lefts[:half]) + 12, min(lefts[half:]))


@unittest.skipUnless(HAS_EVERY, "the program has no campaigns with `every`")
class Whole(unittest.TestCase):
    """A choice of all faults is one campaign with `every`; its table is the same as that of listed faults."""

    def tables(self, *words: str) -> list[dict]:
        found = []
        for has in (True, False):
            with mock.patch.object(Program, "has_campaign_key", return_value=has):
                status, out, err = bench("sweep", *words, "--quiet", "--json")
                self.assertEqual((status, err), (0, ""))
                found.append(json.loads(out))
        return found

    def test_the_same_as_by_lists(self):
        for words in [("block.json", "--limit", "1"), ("net.json", "--limit", "1", *SOME), ("sound.json", "--limit", "2", *SOME),
                      ("media-errors.json", "--kind", "hang"), ("write-cut.json", "--kind", "reg", "--register", "3", "--value", "9"),
                      ("plays-on.json", "--kind", "reg", "--register", "6", "--value", "1"), ("given-up.json", "--kind", "trap")]:
            by_every, by_lists = self.tables(example_path(words[0]), *words[1:])
            self.assertEqual(by_every.pop("every")[0]["guard"], False)
            self.assertEqual(by_every, by_lists, words)

    def test_own_hangs(self):
        base = with_limit(with_faults(example("block.json"), 0, [{"burst": 3, "after": 10, "kind": "hang"}]), 0, 2)
        with file_of(base) as path:
            by_every, by_lists = self.tables(path, "--kind", "reg", "--register", "7", "--value", "3")
        by_every.pop("every")
        self.assertEqual(by_every, by_lists)

    def test_it_is_used_for_whole_choices_only(self):
        with mock.patch.object(Sweep, "fill", side_effect=AssertionError("asked")):
            for words in [("--burst", "3-6"), ("--every", "2"), ("--call", "1"), ("--at-acts",), ("--random", "9")]:
                self.assertEqual(bench("sweep", example_path("sound.json"), "--quiet", *words)[0], 0)
            with self.assertRaises(AssertionError):
                bench("sweep", example_path("sound.json"), "--quiet")

    def test_the_last_line(self):
        """The counts are those of the program's own table, which includes the shadow's bursts."""
        base = with_limit(example("sound.json"), 0, 16)
        kinds = [{"kind": "reg", "register": register, "value": 2} for register in range(16)]
        for guarded in (False, True):
            campaign = {"base": base, "part": 0, "every": kinds, "guard": guarded}
            last = program().ask(["campaign"], json.dumps(campaign)).out.split("\n")[-2].split(" ")
            members, given_up, broken = last[1], last[5], last[7]
            words = ["--limit", "16", *REGISTERS, "--quiet"] + (["--guard"] if guarded else [])
            _, out, _ = bench("sweep", example_path("sound.json"), *words)
            line = next(line for line in out.split("\n") if "at every burst and instruction" in line and line.startswith("with a guard") == guarded)
            self.assertIn(f"{int(members):,} faults at every burst and instruction, those of the shadow's bursts too: "
                          f"{int(given_up):,} given up, {int(broken):,} broken", line)
            self.assertEqual("so no single fault of these" in out, guarded)

    def test_the_tables_of_the_documents(self):
        """docs/guard has the whole tables of net and sound, and the table of the workbench for each class."""
        kinds = [{"kind": "reg", "register": register, "value": 2} for register in range(16)]
        for name in ("net", "sound"):
            base = with_limit(example(name + ".json"), 0, 16)
            campaign = {"base": base, "part": 0, "every": kinds, "guard": True, "detail": True}
            found = program().ask(["campaign"], json.dumps(campaign)).out
            self.assertEqual(found, documented(f"{name}.table"))
        for name in ("block", "net", "sound"):
            words = [example_path(name + ".json"), "--limit", "16", *REGISTERS, "--guard", "--quiet"]
            self.assertEqual(bench("sweep", *words), (0, documented(f"{name}.txt"), ""))


def documented(name: str) -> str:
    with open(os.path.join(TOP, "docs/guard", name), encoding="utf-8") as file:
        return file.read()


class Old(unittest.TestCase):
    """A program that has no guard yet, and no campaigns with the newer keys."""

    def setUp(self):
        folder = tempfile.TemporaryDirectory()
        self.addCleanup(folder.cleanup)
        self.path = old_program(folder.name)

    def test_it_is_reported(self):
        scenario = example_path("sound.json")
        for words in (["sweep", scenario, "--guard"], ["map", scenario, "--guard"], ["explain", "--guard", scenario],
                      ["timeline", "--guard", scenario], ["page", "--guard", scenario]):
            status, out, err = bench(*words, "--program", self.path)
            self.assertEqual((status, out), (2, ""), words)
            self.assertEqual(err, f"nooks-bench: {self.path} is too old: it has no `guard`; "
                             "the program that ./nooks-plain builds has it\n", words)

    def test_a_sweep_without_a_guard_is_the_same(self):
        words = ["sweep", example_path("sound.json"), "--quiet", "--limit", "1", "--kind", "reg", "--register", "2,8", "--value", "2"]
        old, new = bench(*words, "--program", self.path), bench(*words)
        self.assertEqual((old[0], old[2]), (0, ""))
        self.assertEqual(old[1], re.sub(r"\n\n[\d,]+ faults at every burst(?s:.*)", "\n", new[1]))

    def test_a_campaign_that_it_refuses(self):
        campaign = {"base": example("sound.json"), "part": 0, "every": [{"kind": "trap"}], "guard": True}
        with file_of(campaign) as path, file_of("fault 2 unknown_key /\n", ".line") as line:
            status, out, _ = bench("explain", line, "--input", path)
        self.assertEqual(status, 0)
        self.assertIn('the program is too old for "every", "guard" in a campaign; the program that ./nooks-plain builds has it', out)


if __name__ == "__main__":
    unittest.main()
