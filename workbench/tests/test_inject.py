"""inject: the mutants of each kind, draws, outcomes compared with those of full reports, and repeated trials."""

from __future__ import annotations

import json
import os
import tempfile
import unittest
from collections import Counter

from able import ABLE, WHY_NOT
from common import EXAMPLES, TOP, bench, example, file_of, program
from plain_trials import outcome_by_reports

from nooks_bench.build import built
from nooks_bench.inject_code import FROM_CALLER, code_of, flow_of
from nooks_bench.inject_counts import ENDINGS, wait_name
from nooks_bench.inject_found import parse_detail
from nooks_bench.inject_mutants import KINDS, mutants_of
from nooks_bench.inject_run import check_base, setting_of
from nooks_bench.inject_trials import Asked, populations
from nooks_bench.program import REFUSED, Mistake
from nooks_bench.report import parse_report
from nooks_bench.scenario import with_faults, with_schedule

LOADS = {name: os.path.join(TOP, f"workbench/examples/load-{name}.jsonc") for name in ("block", "media", "net", "sound")}
DRIVERS = {"block": "block.asm", "media": "block-media.asm", "net": "net.asm", "sound": "sound.asm"}

# The mutants of each kind, counted by hand: 15 other registers for each operand, 16 bits of an offset, 32 of a word.
MUTANTS = {
    "block": {"source": 47 * 15, "destination": 29 * 15, "pointer": 3 * 31 + 2, "interface": 19 * 15 + 2, "branch": 13,
              "loop": 4, "nop": 62, "text": 62 * 32, "off_by_one": 39},
    "media": {"source": 54 * 15, "destination": 35 * 15, "pointer": 3 * 31 + 2, "interface": 19 * 15 + 6, "branch": 15,
              "loop": 4, "nop": 71, "text": 71 * 32, "off_by_one": 47},
    "net": {"source": 45 * 15, "destination": 28 * 15, "pointer": 3 * 31 + 3, "interface": 15 * 15 + 4, "branch": 12,
            "loop": 2, "nop": 60, "text": 60 * 32, "off_by_one": 27},
    "sound": {"source": 31 * 15, "destination": 16 * 15, "pointer": 2 * 31 + 1, "interface": 13 * 15 + 2, "branch": 10,
              "loop": 1, "nop": 42, "text": 42 * 32, "off_by_one": 18},
}


def load(name: str) -> dict:
    """The scenario that exercises a driver."""
    return built(LOADS[name]).plain()


def injected(*words: str) -> list[dict]:
    """The lines that an experiment writes."""
    status, out, err = bench("inject", *words, "--program", ABLE.path, "--quiet", "--json")
    assert (status, err) == (0, ""), err
    return [json.loads(line) for line in out.splitlines()]


def driver(name: str) -> dict:
    with open(os.path.join(EXAMPLES, DRIVERS[name]), encoding="utf-8") as file:
        return {"asm": file.read()}


class Mutants(unittest.TestCase):
    def test_every_kind_has_as_many_as_counted_by_hand(self):
        for name, counts in MUTANTS.items():
            code = code_of(program(), driver(name))
            found = {kind: len(each) for kind, each in mutants_of(program(), code, KINDS).items()}
            self.assertEqual(found, counts, name)

    def test_words_are_those_of_their_texts(self):
        code = code_of(program(), driver("net"))
        for kind, mutants in mutants_of(program(), code, KINDS).items():
            image = code.image
            for start in range(0, len(mutants), 2000):
                some = mutants[start : start + 2000]
                listed = program().listing({"image": {**image, "text": ["%08x" % each.word for each in some]}})
                for mutant, text in zip(some, listed):
                    here = next(each for each in code.instructions if each.address == mutant.address)
                    self.assertEqual(mutant.was, here.text)
                    self.assertNotEqual(mutant.word, here.word)
                    if kind == "text":
                        self.assertEqual(bin(mutant.word ^ here.word).count("1"), 1)
                    else:
                        self.assertEqual(mutant.now, text)

    def test_flow(self):
        text = ".class sound\n" + "".join(f".entry {name} {name}\n" for name in ("init", "open", "play", "close", "get", "set"))
        text += "init: LI r1 2\nKCALL 3\nRET r0\nopen: RET r0\nclose: RET r0\nget: RET r0\nset: RET r0\n"
        text += "play: MOV r4 r3\nloop: LD r5 r4 0\nADDI r4 r4 1\nSUB r2 r6\nBNE r2 r0 loop\nRET r5\n"
        flow = flow_of(code_of(program(), {"asm": text}))
        at = {each.address: each for each in flow.code.instructions}
        self.assertEqual(flow.of(at[7], 3), {FROM_CALLER})
        self.assertEqual(flow.of(at[8], 4), {7, 9})
        self.assertEqual(flow.of(at[10], 2), {FROM_CALLER, 10})
        self.assertEqual(flow.of(at[12], 5), {8})
        self.assertEqual(flow.of(at[1], 1), {0})
        self.assertEqual(flow.of(at[3], 1), set())

    def test_a_word_that_is_no_instruction_has_no_mutant(self):
        image = json.loads(program().answer(["asm"], driver("sound")["asm"]).out)
        image["text"][40] = "ffffffff"
        code = code_of(program(), {"image": image})
        self.assertNotIn(40, {each.address for each in code.instructions})
        found = mutants_of(program(), code, KINDS)
        self.assertNotIn(40, {mutant.address for each in found.values() for mutant in each})


class Trials(unittest.TestCase):
    def trials(self, name: str, asked: Asked) -> dict[str, object]:
        setting = setting_of(program(), load(name), 0, False)
        part = check_base(program(), setting.base, 0).parts[0]
        pool = mutants_of(program(), setting.code, KINDS)
        return {each.kind: each for each in populations(asked, pool, part)}

    def test_a_kind_with_few_trials_has_all_of_them(self):
        found = self.trials("block", Asked(("loop", "branch"), 400, 5, 1))
        calls = len({trial.strike for trial in found["loop"].trials})
        self.assertTrue(found["loop"].is_whole)
        self.assertEqual(len(found["loop"].trials), calls)
        self.assertEqual({len(trial.mutants) for trial in found["loop"].trials}, {4})
        self.assertFalse(found["branch"].is_whole)
        self.assertEqual(len(found["branch"].trials), 400)
        two = self.trials("block", Asked(("loop",), 6 * calls, 2, 1))["loop"]
        self.assertEqual((two.is_whole, len(two.trials)), (True, 6 * calls))
        self.assertFalse(self.trials("block", Asked(("loop",), 6 * calls - 1, 2, 1))["loop"].is_whole)

    def test_no_trial_comes_twice(self):
        for asked in (Asked(KINDS, 300, 1, 5), Asked(KINDS, 50, 16, 5), Asked((*KINDS, "mixed"), 40, 3, 2, any_turn=True)):
            for kind, population in self.trials("sound", asked).items():
                keys = Counter((trial.strike, trial.mutants) for trial in population.trials)
                self.assertEqual(max(keys.values()), 1, kind)
                for trial in population.trials:
                    self.assertEqual(len({mutant.address for mutant in trial.mutants}), len(trial.mutants))

    def test_a_kind_has_the_same_trials_with_any_other(self):
        alone = self.trials("net", Asked(("nop",), 30, 2, 9))["nop"]
        together = self.trials("net", Asked(("source", "nop", "text"), 30, 2, 9))["nop"]
        self.assertEqual(alone, together)
        self.assertNotEqual(alone.trials, self.trials("net", Asked(("nop",), 30, 2, 10))["nop"].trials)

    def test_every_mutant(self):
        found = self.trials("net", Asked(KINDS, 1, 5, 1, latent=True, every=True))
        self.assertEqual({kind: len(each.trials) for kind, each in found.items()}, MUTANTS["net"])
        self.assertTrue(all(each.is_whole for each in found.values()))


class Loads(unittest.TestCase):
    """The scenarios that exercise the drivers."""

    def test_sizes(self):
        for name in LOADS:
            scenario = load(name)
            self.assertEqual(len(scenario["threads"]), 3, name)
            self.assertIn(sum(len(thread["ops"]) for thread in scenario["threads"]), range(30, 61), name)

    def test_nothing_depends_on_the_order_of_steps(self):
        for name in LOADS:
            seen = set()
            for start in range(40):
                report = parse_report(program().report(with_schedule(load(name), {"kind": "drawn", "start": start})))
                self.assertEqual((report.status, report.parts[0].failures), (0, 0), name)
                answers = tuple(tuple(thread.answers) for thread in report.threads)
                part = report.parts[0]
                seen.add((answers, tuple(part.left), part.config, tuple(part.losses)))
            self.assertEqual(len(seen), 1, name)


@unittest.skipUnless(ABLE, WHY_NOT)
class Outcomes(unittest.TestCase):
    """The outcomes that `inject` writes are those that a separate script finds in full reports."""

    def compared(self, name: str, *words: str) -> list[dict]:
        scenario = load(name)
        base = setting_of(ABLE, scenario, 0, False).base
        lines = injected(LOADS[name], *words)
        for line in lines:
            expected = outcome_by_reports(ABLE.path, base, 0, line)
            self.assertEqual({key: line[key] for key in expected}, expected, line)
        return lines

    def test_live_faults(self):
        for name in LOADS:
            lines = self.compared(name, "--trials", "6", "--faults", "3", "--seed", "4", "--kind", "mixed",
                                  *(word for kind in KINDS for word in ("--kind", kind)))
            self.assertGreater(len(lines), 50)
            self.assertGreater(len({line["ending"] for line in lines}), 3)

    def test_any_instruction_and_a_guard(self):
        for name in LOADS:
            lines = self.compared(name, "--trials", "4", "--seed", "8", "--any-turn", "--guard", "both")
            guarded = [line for line in lines if line["guard"]]
            self.assertEqual({line["contract"] for line in guarded}, {"kept"})
            self.assertTrue(any(line["traps"] for line in guarded))
            self.assertFalse(any(line["traps"] for line in lines if not line["guard"]))

    def test_latent_faults(self):
        for name in LOADS:
            words = ["--trials", "3", "--seed", "6", "--latent", "--limit", "0", "--limit", "2"]
            lines = self.compared(name, *words)
            self.assertEqual({line["limit"] for line in lines}, {0, 2})
            self.compared(name, "--trials", "1", "--latent", "--guard", "yes", "--limit", "3")

    def test_each_limit_has_its_own_runs(self):
        words = ["--trials", "10", "--faults", "2", "--latent", "--kind", "nop", "--kind", "text"]
        several = injected(LOADS["net"], *words, "--limit", "0", "--limit", "1", "--limit", "16")
        for limit in (0, 1, 16):
            alone = injected(LOADS["net"], *words, "--limit", str(limit))
            self.assertEqual([line for line in several if line["limit"] == limit], alone)

    def test_the_same_seed_gives_the_same_bytes(self):
        words = ["inject", LOADS["block"], "--trials", "5", "--faults", "2", "--guard", "both", "--program", ABLE.path]
        written = []
        for jobs in ("1", "3"):
            with tempfile.TemporaryDirectory() as folder:
                paths = [os.path.join(folder, name) for name in ("lines", "counts", "figure")]
                files = [word for option, path in zip(("--lines", "--counts", "--figure"), paths) for word in (option, path)]
                ended = bench(*words, *files, "--quiet", "--jobs", jobs)
                texts = []
                for path in paths:
                    with open(path, encoding="utf-8") as file:
                        texts.append(file.read())
                written.append((ended, texts))
        self.assertEqual(written[0], written[1])
        self.assertEqual(written[0][0][0], 0)
        self.assertIn("<svg", written[0][1][2])

    def test_a_trial_runs_again_alone(self):
        words = ["--trials", "4", "--faults", "2", "--guard", "both", "--limit", "1"]
        for more in ([], ["--latent"]):
            status, out, _ = bench("inject", LOADS["sound"], *words, *more, "--quiet", "--json", "--program", ABLE.path)
            lines = out.splitlines()
            self.assertEqual(status, 0)
            for line in lines[3::9]:
                with file_of(line + "\n", ".jsonl") as path:
                    self.assertEqual(bench("inject", LOADS["sound"], "--again", path, "--program", ABLE.path)[1], line + "\n")

    def test_the_scenario_of_a_trial(self):
        line = injected(LOADS["block"], "--kind", "nop", "--trials", "3", "--faults", "2", "--limit", "2")[1]
        with file_of(json.dumps(line), ".jsonl") as path:
            words = ["inject", LOADS["block"], "--again", path, "--scenario", "--program", ABLE.path]
            status, out, _ = bench(*words)
        self.assertEqual(status, 0)
        base = setting_of(ABLE, load("block"), 0, False).base
        base["parts"][0]["limit"] = 2
        strike = {"burst": line["strike"]["burst"], "after": 0, "kind": "code"}
        faults = [{**strike, "address": mutant["address"], "value": mutant["word"]} for mutant in line["faults"]]
        self.assertEqual(json.loads(out), with_faults(base, 0, faults))

    def test_counts_are_those_of_the_lines(self):
        with tempfile.TemporaryDirectory() as folder:
            paths = {name: os.path.join(folder, name) for name in ("lines", "counts")}
            files = ["--lines", paths["lines"], "--counts", paths["counts"]]
            words = ["inject", LOADS["net"], "--trials", "6", "--faults", "2", "--limit", "0", "--limit", "3"]
            status, out, _ = bench(*words, *files, "--quiet", "--program", ABLE.path)
            self.assertEqual(status, 0)
            with open(paths["lines"], encoding="utf-8") as file:
                lines = [json.loads(line) for line in file]
            with open(paths["counts"], encoding="utf-8") as file:
                counts = json.load(file)
        for table in counts["tables"]:
            here = [line for line in lines if line["limit"] == table["limit"]]
            for kind in table["kinds"]:
                some = [line for line in here if kind["kind"] in (line["kind"], "all")]
                self.assert_counts(kind, some)
                self.assertRegex(out, rf"(?m)^{kind['kind']} .* {kind['failures']} ")
            cells = Counter((line["system"], line["contract"]) for line in here)
            shown = {(system, contract): number for system, row in table["questions"].items() for contract, number in row.items()}
            self.assertEqual({key: number for key, number in shown.items() if number}, dict(cells))

    def assert_counts(self, kind: dict, lines: list[dict]) -> None:
        """Compares the counts of a kind with those of its lines."""
        self.assertEqual(kind["trials"], len(lines))
        endings = Counter(line["ending"] for line in lines)
        self.assertEqual(kind["endings"], {name: endings[name] for name in ENDINGS})
        effects = [line for line in lines if line["ending"] not in ("not executed", "no effect")]
        self.assertEqual(kind["failures"], len(effects))
        waits = Counter(wait_name(line["wait"]) for line in lines if line["wait"] is not None)
        self.assertEqual({name: number for name, number in kind["waits"].items() if number}, dict(waits))
        used = {(each["kind"], each["address"], each["word"]) for line in lines for each in line["faults"]}
        if kind["kind"] != "all":
            self.assertEqual(kind["used"], len(used))
        share = kind["percent"]["silent"]
        silent = endings["silent"]
        if effects:
            self.assertEqual(share[0], round(100 * silent / len(effects)))
            self.assertEqual(len(share), 1 if kind["whole"] else 3)


class Mistakes(unittest.TestCase):
    def mistaken(self, about: str, *words: str, path: str = LOADS["block"]) -> None:
        status, out, err = bench("inject", path, *words)
        self.assertEqual((status, out), (2, ""), err)
        self.assertEqual(err.count("\n"), 1)
        self.assertRegex(err, about)

    def test_options(self):
        self.mistaken("--faults 17: allowed", "--faults", "17")
        self.mistaken("--trials 0: allowed", "--trials", "0")
        self.mistaken("no part 1", "--part", "1")
        self.mistaken("--any-turn is for live faults", "--latent", "--any-turn")
        self.mistaken("no mixed kind", "--every-mutant", "--kind", "mixed")
        self.mistaken("--scenario is for --again", "--scenario")
        with file_of("{}\n", ".jsonl") as path:
            self.mistaken("no line of a trial", "--again", path)

    def test_a_base_that_fails(self):
        with file_of(example("contract-broken.json")) as path:
            self.mistaken("without faults has to go well", "--kind", "nop", path=path)

    def test_a_program_that_is_too_old(self):
        with tempfile.TemporaryDirectory() as folder:
            path = os.path.join(folder, "old")
            with open(path, "w", encoding="utf-8") as file:
                file.write(f"#!/bin/sh\nif [ \"$1\" = campaign ]; then echo 'fault 2 unknown_key /'; exit {REFUSED}; fi\n")
                file.write(f"exec {program().path} \"$@\"\n")
            os.chmod(path, 0o755)
            about = "is too old: it has no campaigns with `members`.*; the program that ./nooks-plain builds has it"
            self.mistaken(about, "--kind", "nop", "--program", path)

    def test_too_many_operations(self):
        scenario = load("block")
        scenario["threads"][0]["ops"] *= 3
        with file_of(scenario) as path:
            self.mistaken("at most 64 operations", "--kind", "nop", path=path)

    def test_rows(self):
        row = parse_detail("3 status 0 events 9 failures 1 gone 0 lost 2 answers other left same break - traps 1 cause trap injected")
        self.assertEqual((row.failures, row.same_answers, row.same_left, row.clause, row.traps), (1, False, True, None, 1))
        self.assertEqual(row.cause, "trap injected")
        self.assertRaises(Mistake, parse_detail, "3 status 0 events 9 failures 1 gone 0 lost 2")


if __name__ == "__main__":
    unittest.main()
