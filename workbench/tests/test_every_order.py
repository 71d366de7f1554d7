"""schedules: the outcomes of every order against `run` itself, and the search against a separate enumeration."""

import json
import os
import re
import stat
import tempfile
import unittest
from unittest import mock

from common import bench, example, example_path, file_of, program
from race import racing_scenario

from nooks_bench import explored
from nooks_bench.ends import differing, end_of, order_text
from nooks_bench.explored import INCOMPLETE
from nooks_bench.preemptions import Search, Switch, Walk, follow, setting_of
from nooks_bench.program import Mistake
from nooks_bench.report import parse_report
from nooks_bench.scenario import with_schedule
from nooks_bench.schedules_text import shortened

EXPLORER = program()

# What the program is called, by the words of its version line after the number.
CALLED = {
    "plain, nothing proved": "the plain program, of which nothing is proved",
    "unproved": "the program, built without proofs",
}

RACES = {"read-ahead": 7, "two-sends": 7, "shared-word": 7, "spins": 1}
ACTED = re.compile(r"(?m)^\d+ (?:invoke c\d+ t(\d+)|(?:enter c\d+|burst) x(\d+)|(stage|arrive))\b")


def schedules(name: str, *words: str) -> tuple[int, str, str]:
    """Runs the command on an example."""
    path = name if os.path.exists(name) else example_path(name + ".json")
    return bench("schedules", path, "--quiet", *words)


def report(scenario: dict, picks=None) -> str:
    made = scenario if picks is None else with_schedule(scenario, {"kind": "listed", "picks": list(picks)})
    return EXPLORER.ask(["run"], json.dumps(made)).out


def outcome(text: str) -> str:
    """The lines of a report that say how its run ended."""
    lines = [line for line in text.split("\n") if not ACTED.match(line) and not line.startswith("tap ")]
    return "\n".join(re.sub(r"broken event \d+", "broken", line) for line in lines)


def rows(scenario: dict) -> list[tuple[int, list[int]]]:
    """The statuses and the picks of the rows of `explore`."""
    text = EXPLORER.ask(["explore"], json.dumps(scenario)).out
    return [(int(status), json.loads(picks)) for status, picks in re.findall(r"(?m)^\d+ status (\d+) .* picks (.*)$", text)]


def actors(text: str, threads: int) -> list[int]:
    """The actor of each event, from the report of a scenario with one part."""
    found = []
    for invoked, context, other in ACTED.findall(text):
        if other:
            found.append(threads + (other == "arrive"))
        else:
            found.append(int(invoked) if invoked else threads if context == "16" else int(context))
    return found


def every_order(scenario: dict) -> dict[int, dict[tuple[int, ...], str]]:
    """All orders of a scenario with one part, by the number of their preemptions, each with its outcome. The enumeration
    tries each actor at each step."""
    threads = len(scenario["threads"])
    found: dict[int, dict[tuple[int, ...], str]] = {}
    waiting = [((), 0)]
    while waiting:
        prefix, preemptions = waiting.pop()
        runs = {actor: report(scenario, (*prefix, actor)) for actor in range(threads + 2)}
        able = [actor for actor, text in runs.items() if actors(text, threads)[: len(prefix) + 1] == [*prefix, actor]]
        if not able:
            found.setdefault(preemptions, {})[prefix] = outcome(runs[0])
        for actor in able:
            more = bool(prefix) and actor != prefix[-1] and prefix[-1] in able
            waiting.append(((*prefix, actor), preemptions + more))
    return found


def searched(scenario: dict, tries: int, most=None) -> Search:
    search = Search(EXPLORER, setting_of(EXPLORER, scenario), tries, 2, lambda tried, ends: None)
    search.run(most)
    return search


def tiny() -> dict:
    """A link with one frame to arrive, and a thread that asks for it, before or after it arrives."""
    scenario = racing_scenario()
    scenario["parts"][0]["arrivals"] = [[7]]
    scenario["threads"] = [{"name": "app", "ops": [{"part": 0, "op": "recv"}]}]
    return scenario


class EveryOrder(unittest.TestCase):
    def test_the_table(self):
        status, out, err = schedules("read-ahead")
        self.assertEqual((status, err), (0, ""))
        found = rows(example("read-ahead.json"))
        lines = [[int(word) for word in line.split()] for line in out.split("\n") if re.fullmatch(r"[ \d]+", line)]
        self.assertEqual([line[:3] for line in lines], [[number, each[0], len(each[1])] for number, each in enumerate(found, 1)])
        self.assertRegex(out, r"(?m)^every order of the steps: [\d,]+ states$")
        said = re.sub(r"^nooks [0-9.]+,? ", "", EXPLORER.version())
        self.assertIn(f"\nrun by {CALLED.get(said, 'the program')}, {EXPLORER.path}\n", out)
        self.assertTrue(out.endswith("some order breaks a contract\n"))
        read = report(example("read-ahead.json"), found[1][1])
        self.assertIn("\ncontract broken event 37 clause 4\n", read)
        self.assertRegex(out, r"contract of disk\n +1  kept\n +2  clause 4: replied that a read is done")
        self.assertRegex(out, r"reader 2, read 2 1\n +1  data \[0 x16\]\n +2  data \[58 x16\]\n")
        self.assertIn("1 p0 data [0,0,0,0,0,0,0,0,0,0,0,0,0,0,0,0]\n2 p0 data [58,58,", read)

    def test_no_order_breaks(self):
        status, out, _ = schedules("read-ahead-fixed", "--fail-on", "cut")
        self.assertEqual(status, 0)
        self.assertTrue(out.endswith("\nno order breaks a contract or gives a part up\n"))
        self.assertNotIn("schedule", out)
        self.assertTrue(schedules("spins")[1].endswith("\nno order breaks a contract, and some order gives a part up\n"))

    def test_each_race_is_found(self):
        for name, worst in RACES.items():
            scenario = example(name + ".json")
            self.assertEqual(EXPLORER.ask(["run"], json.dumps({**scenario, "schedule": {"kind": "round_robin"}})).status, 0)
            self.assertEqual(max(status for status, _ in rows(scenario)), worst)
            _, out, _ = schedules(name)
            pasted = json.loads("{" + re.search(r'(?m)^ *("schedule": .*)$', out)[1] + "}")
            self.assertEqual(EXPLORER.ask(["run"], json.dumps({**scenario, **pasted})).status, worst)
            self.assertEqual(EXPLORER.ask(["run"], json.dumps(scenario)).status, worst)

    def test_what_is_written_of_an_outcome(self):
        scenario = example("spins.json")
        for number, (_, picks) in enumerate(rows(scenario), 1):
            schedule = {"kind": "listed", "picks": picks}
            self.assertEqual(schedules("spins", "--schedule", str(number))[1], f'"schedule": {json.dumps(schedule)}\n')
            self.assertEqual(json.loads(schedules("spins", "--scenario", str(number))[1]), {**scenario, "schedule": schedule})
            with file_of(report(scenario, picks), ".report") as path:
                drawn = bench("timeline", "--text", "--width", "100", path)[1]
            with mock.patch("shutil.get_terminal_size", return_value=os.terminal_size((100, 24))):
                self.assertEqual(schedules("spins", "--timeline", str(number))[1], drawn)

    def test_json(self):
        scenario = example("net.json")
        shown = json.loads(schedules("net", "--json")[1])
        found = rows(scenario)
        self.assertEqual([each["schedule"]["picks"] for each in shown["outcomes"]], [picks for _, picks in found])
        self.assertEqual(len({json.dumps(each["things"]) for each in shown["outcomes"]}), len(found))
        self.assertEqual((shown["every_order"], shown["version"], shown["explored"]["front"]), (True, EXPLORER.version(), False))
        reports = [report(scenario, picks) for _, picks in found]
        received = [re.search(r"(?m)^frames .* received (\d+)", text)[1] for text in reports]
        values = next(each["values"] for each in shown["differs"] if each["what"] == "frames of wire, received")
        received_of = {number: value["value"] for value in values for number in value["outcomes"]}
        self.assertEqual([received_of[number] for number in range(1, len(found) + 1)], received)
        self.assertEqual(len({*received}), len(values))

    def test_what_differs_is_all_that_differs(self):
        """Outcomes differ exactly in the things that the table lists as different."""
        scenario = example("sound-skips.json")
        found = [end_of(EXPLORER, scenario, each) for each in explored.explored(EXPLORER, scenario).found]
        names = [each.name for each in differing(found)]
        self.assertEqual(len({tuple(end.things.get(name) for name in names) for end in found}), len(found))
        self.assertEqual(len({tuple((name, text) for name, text in end.things.items() if name not in names) for end in found}), 1)
        texts = [outcome(report(scenario, end.found.picks)) for end in found]
        self.assertEqual(len({*texts}), len(found))

    def test_many_outcomes_are_shortened(self):
        _, out, _ = schedules("sound-skips")
        _, whole, _ = schedules("sound-skips", "--all")
        count = len(rows(example("sound-skips.json")))
        self.assertIn(f".. and {count - 20} more (--all)\n", out)
        self.assertNotIn("(--all)", whole)
        self.assertEqual(len(re.findall(r"(?m)^\d+ +\d+ +\d+ +\d+ +\d+ +\d+$", whole)), count)

    def test_values_that_look_the_same(self):
        """Long values are shortened only as far as they remain distinct."""
        lists = ["[" + ",".join(str(word * word) for word in range(64)) + f",{last}]" for last in (1, 2, 3)]
        self.assertEqual(shortened(lists), lists)
        self.assertEqual(shortened([lists[0], "", "done"]), ["[0, 1, 4, .. 65 words]", "nothing", "done"])

    def test_order_in_words(self):
        scenario = {"threads": [{"name": "a"}, {"name": "b"}], "parts": [{"name": "p"}, {"name": "q"}]}
        self.assertEqual(order_text((0, 0, 1, 2, 5, 5, 4, 3), scenario),
                         "a x2, b, recovery of p, arrivals of q x2, recovery of q, arrivals of p")

    def test_fail_on(self):
        statuses = {name: [schedules(name, "--fail-on", what)[0] for what in ("broken", "given-up", "cut")]
                    for name in ("read-ahead", "spins", "net")}
        self.assertEqual(statuses, {"read-ahead": [1, 1, 1], "spins": [0, 1, 1], "net": [0, 0, 0]})
        self.assertEqual(schedules("net", "--fail-on", "cut", "--search", "--tries", "5")[0], 1)

    def test_mistakes(self):
        for words, message in [(["--schedule", "3"], "no outcome 3: there are 2"), (["--timeline", "0"], "no outcome 0"),
                               (["--search", "--tries", "0"], "nothing to run"), (["--tries", "-1"], "--tries")]:
            status, out, err = schedules("read-ahead", *words)
            self.assertEqual((status, out), (2, ""))
            self.assertIn(message, err)
        with file_of({**example("net.json"), "version": 3}) as path:
            status, out, err = schedules(path)
        self.assertEqual((status, out), (2, ""))
        self.assertIn("/version", err)
        for text in ["", "1 status 0 events 2\nexplored 3 states 1 outcomes kept 1 given_up 0 broken 0\n",
                     "explored 3 states 1 outcomes kept 1 given_up 0 broken 0\n"]:
            self.assertRaises(Mistake, explored.parse_explored, text)

    def test_the_program(self):
        """A program without `explore` is refused, except for a search."""
        with tempfile.TemporaryDirectory() as folder:
            old = os.path.join(folder, "nooks")
            with open(old, "w", encoding="utf-8") as file:
                file.write(f"#!/bin/sh\n[ $1 = explore ] && echo 'usage: nooks run' && exit 2\nexec '{EXPLORER.path}' \"$@\"\n")
            os.chmod(old, os.stat(old).st_mode | stat.S_IXUSR)
            status, out, err = bench("--program", old, "schedules", example_path("net.json"))
            self.assertEqual((status, out), (2, ""))
            self.assertIn("has no `explore`; the program that ./nooks-plain builds has it", err)
            status, out, _ = bench("--program", old, "schedules", example_path("net.json"), "--search", "--tries", "9", "--quiet")
            self.assertEqual(status, 0)
            self.assertIn("this proves nothing", out)


class ByPreemptions(unittest.TestCase):
    def test_against_all_orders(self):
        """Each order is run once, at the level of its preemptions, and no outcome is missing."""
        scenario = tiny()
        all_orders = every_order(scenario)
        search = searched(scenario, 10**6)
        self.assertTrue(search.is_whole)
        counts = {level.preemptions: level.orders for level in search.levels if level.orders}
        self.assertEqual(counts, {preemptions: len(orders) for preemptions, orders in all_orders.items()})
        self.assertGreater(len(counts), 2)
        outcomes = {text for orders in all_orders.values() for text in orders.values()}
        self.assertEqual({outcome(report(scenario, end.found.picks)) for end in search.found.values()}, outcomes)
        self.assertEqual(len(rows(scenario)), len(outcomes))
        known: set[str] = set()
        for level in search.levels[:-1]:
            fresh = {*all_orders[level.preemptions].values()} - known
            self.assertEqual(level.fresh, len(fresh))
            known |= fresh

    def test_several_parts(self):
        """The journals of two parts allow the picks of their run."""
        scenario = example("mirror-outlives.json")
        for _, picks in rows(scenario):
            walk = Walk(parse_report(report(scenario, picks)))
            for index, pick in enumerate(picks):
                self.assertFalse(walk.is_over)
                self.assertTrue(walk.take(pick), index)
            self.assertTrue(walk.is_over)
            self.assertFalse(any(walk.take(actor) for actor in range(-1 + len(scenario["threads"]), 9)))

    def test_a_pick_without_a_step(self):
        """A switch to an actor that has no step is refused; any other switch gives an order that starts with it."""
        scenario = example("read-ahead.json")
        setting = setting_of(EXPLORER, scenario)
        prefix = tuple(rows(scenario)[1][1])
        refused = [actor for actor in range(4) if follow(EXPLORER, setting, Switch(prefix[:9], actor)) is None]
        able = [actor for actor in range(4) if actors(report(scenario, (*prefix[:9], actor)), 2)[:10] == [*prefix[:9], actor]]
        self.assertEqual(sorted(refused + able), [0, 1, 2, 3])
        order, end = follow(EXPLORER, setting, Switch(prefix[:9], prefix[9]))
        self.assertEqual(order.picks[:10], prefix[:10])
        self.assertEqual(actors(report(scenario, order.picks), 2), list(order.picks))
        self.assertEqual(end.found.row.status, 7)

    def test_no_actor_is_interrupted_unasked(self):
        """After the switch that is asked for, each actor continues as long as it has a step."""
        scenario = example("two-sends.json")
        setting = setting_of(EXPLORER, scenario)
        root, _ = follow(EXPLORER, setting, Switch())
        for order in (root, follow(EXPLORER, setting, Switch((0, 1, 2, 2, 2, 2, 2, 0), 1))[0]):
            for index in range(order.asked, len(order.picks)):
                before = order.picks[index - 1] if index else None
                if before is not None and before != order.picks[index]:
                    text = report(scenario, (*order.picks[:index], before))
                    self.assertNotEqual(actors(text, 2)[: index + 1], [*order.picks[:index], before])

    def test_a_run_in_pieces(self):
        """With few picks for each actor, the order is found in several runs, and is the same."""
        scenario = example("read-ahead.json")
        setting = setting_of(EXPLORER, scenario)
        whole, _ = follow(EXPLORER, setting, Switch())
        few = type(setting)(scenario, (0,) * setting.actors)
        self.assertEqual(follow(EXPLORER, few, Switch())[0], whole)
        with mock.patch("nooks_bench.preemptions.MOST_PICKS", 20):
            self.assertRaisesRegex(Mistake, "more steps than the 20", follow, EXPLORER, setting, Switch())

    def test_a_bound(self):
        search = searched(example("read-ahead.json"), 10**6, most=0)
        self.assertEqual([level.preemptions for level in search.levels], [0])
        self.assertTrue(search.levels[0].is_whole)
        self.assertFalse(search.is_whole)
        short = searched(example("read-ahead.json"), 7)
        self.assertEqual((short.levels[0].tried, short.levels[0].is_whole, short.left), (7, False, 0))

    def test_past_the_limit(self):
        """With more states than the limit, this is reported, and the search runs some orders."""
        scenario = example("link-loses.json")
        self.assertEqual(EXPLORER.ask(["explore"], json.dumps(scenario)).status, INCOMPLETE)
        status, out, err = bench("schedules", example_path("link-loses.json"), "--tries", "120", "--fail-on", "cut")
        self.assertEqual(status, 1)
        self.assertIn("NOT every order: there are more than 65,536 states", out)
        self.assertIn("this proves nothing: any order that was not run may end otherwise", out)
        self.assertNotIn("no order breaks", out)
        self.assertRegex(err, r"120 of 120 switches in ")
        tried = re.findall(r"(?m)^(\d+) +(\d+) +(\d+) +(\d+)  +(all|a part)$", out)
        self.assertEqual(sum(int(line[1]) for line in tried), 120)
        shown = json.loads(schedules("link-loses", "--json", "--tries", "120")[1])
        self.assertEqual(sum(int(line[3]) for line in tried), len(shown["outcomes"]))
        self.assertFalse(shown["every_order"])
        for each in shown["outcomes"]:
            text = report(scenario, each["schedule"]["picks"])
            self.assertEqual(int(re.search(r"(?m)^status (\d+)$", text)[1]), each["status"])
        self.assertEqual(len({outcome(report(scenario, each["schedule"]["picks"])) for each in shown["outcomes"]}), len(shown["outcomes"]))
        self.assertIn("no outcome yet", schedules("link-loses", "--tries", "0")[1])


if __name__ == "__main__":
    unittest.main()
