"""inject: what becomes of a driver whose code has programmers' mistakes."""

from __future__ import annotations

import argparse
import json
import sys
from dataclasses import dataclass
from typing import Any, Iterator, Sequence

from .columns import text_lines
from .facts import INPUTS
from .faults import RANGES, check_range
from .inject_counts import Counts, counts_of, ending_of, together
from .inject_figure import figure
from .inject_found import CONTRACT, SYSTEM, Found
from .inject_mutants import KINDS, MIXED, Mutant, mutants_of
from .inject_run import Batch, Setting, check_base, check_live, results_of, run_trials, setting_of
from .inject_tables import ending_rows, question_rows
from .inject_trials import MOST_FAULTS, Asked, Population, Strike, Trial, populations, scenario_of
from .jsontext import json_text
from .outcomes import Outcome
from .pool import processors
from .program import Mistake, Program, find_program
from .progress import Progress
from .scenario import Scenario, with_limit
from .source import read_text
from .sweep import scenario_of as read_scenario

MOST_TRIALS = 1_000_000

# Whether runs are guarded: `both` runs the same trials twice.
GUARDS = {"no": (False,), "yes": (True,), "both": (False, True)}

ABOUT = """Changes instructions of the driver of the scenario FILE as programmers get them wrong, runs each such driver,
and counts what the system detected, and what the driver's contract detected before that. Live faults are written at
the first burst of a drawn call, and the next load overwrites them; latent faults are in the image from the beginning.
FILE is exact JSON, or a scenario as `build` takes it; without faults its run has to end with status 0."""


@dataclass(frozen=True)
class Ran:
    """An experiment that was run: its trials, and what became of each, guarded or not."""

    asked: Asked
    limits: tuple[int, ...]
    populations: list[Population]
    results: dict[bool, list[list[dict[int, Found]]]]

    def counts(self, guard: bool, limit: int) -> list[Counts]:
        """The counts of each kind, and of all together if there are several."""
        pairs = zip(self.populations, self.results[guard])
        found = [counts_of(population, results, limit, guard) for population, results in pairs]
        plain = [each for each in found if each.kind != MIXED]
        return found + ([together(plain, "all")] if len(plain) > 1 else [])

    def settings(self) -> Iterator[tuple[bool, int]]:
        """Whether guarded, and the limit, of each table."""
        return ((guard, limit) for guard in self.results for limit in self.limits)

    def lines(self) -> Iterator[str]:
        """A line of JSON for each trial under each limit, guarded or not."""
        for guard, results in self.results.items():
            for population, found in zip(self.populations, results):
                for trial, each in zip(population.trials, found):
                    yield from (line_of(trial, guard, limit, each[limit]) for limit in self.limits)

    def as_json(self) -> dict[str, Any]:
        """The counts of all tables, with what was asked for."""
        tables = [{"guard": guard, "limit": limit, "kinds": [each.as_json() for each in self.counts(guard, limit)],
                   "questions": questions_of(self, guard, limit)} for guard, limit in self.settings()]
        return {"asked": vars(self.asked), "tables": tables}


def questions_of(ran: Ran, guard: bool, limit: int) -> dict[str, dict[str, int]]:
    """How often the system saw one thing and the contract another, over all kinds except the mixed one."""
    cells = {name: dict.fromkeys(CONTRACT, 0) for name in SYSTEM}
    for population, results in zip(ran.populations, ran.results[guard]):
        for each in results if population.kind != MIXED or len(ran.populations) == 1 else []:
            cells[each[limit].system][each[limit].contract] += 1
    return cells


def line_of(trial: Trial, guard: bool, limit: int, found: Found) -> str:
    """A trial as a line of JSON, from which it can be run again."""
    strike = vars(trial.strike) if trial.strike else None
    faults = [vars(mutant) for mutant in trial.mutants]
    named = {"kind": trial.kind, "number": trial.number, "guard": guard, "limit": limit, "strike": strike}
    return json.dumps({**named, "faults": faults, "ending": ending_of(found), **found.as_json()})


def trial_of(line: str) -> tuple[Trial, bool, int]:
    """The trial of a line, whether it is guarded, and its limit."""
    try:
        value = json.loads(line)
        strike = Strike(**value["strike"]) if value["strike"] else None
        mutants = tuple(Mutant(**each) for each in value["faults"])
        return Trial(value["kind"], value["number"], mutants, strike), bool(value["guard"]), int(value["limit"])
    except (ValueError, KeyError, TypeError) as error:
        raise Mistake(f"no line of a trial: {line[:60]!r}") from error


def again(program: Program, scenario: Scenario, args: argparse.Namespace) -> int:
    """Runs the trials of some lines again, or writes the scenarios of their runs."""
    for line in filter(None, read_text(args.again).split("\n")):
        trial, guard, limit = trial_of(line)
        setting = setting_of(program, with_limit(scenario, args.part, limit), args.part, guard)
        if args.scenario:
            sys.stdout.write(json_text(scenario_of(trial, setting.base, args.part, setting.code)) + "\n")
        else:
            results = results_of(program, Batch(setting, (trial,), (limit,)))
            print(line_of(trial, guard, limit, results[0][limit]))
    return 0


def asked_of(args: argparse.Namespace) -> Asked:
    """What the options ask for."""
    for option, ends in {"part": RANGES["part"], "trials": (1, MOST_TRIALS), "faults": (1, MOST_FAULTS),
                         "seed": RANGES["seed"], "jobs": (1, 4096)}.items():
        check_range(option, getattr(args, option), ends)
    for limit in args.limit or ():
        check_range("limit", limit, INPUTS["part"]["limit"].ends)
    if args.latent and args.any_turn:
        raise Mistake("--any-turn is for live faults: latent ones are there from the beginning")
    if args.any_turn and args.every_mutant:
        raise Mistake("--any-turn draws, and --every-mutant does not")
    if args.scenario and not args.again:
        raise Mistake("--scenario is for --again")
    kinds = tuple(dict.fromkeys(args.kind or KINDS))
    if args.every_mutant and MIXED in kinds:
        raise Mistake("--every-mutant has one fault a trial, and no mixed kind")
    return Asked(kinds, args.trials, args.faults, args.seed, args.latent, args.any_turn, args.every_mutant)


def split(found: Sequence[dict[int, Found]], several: Sequence[Population]) -> list[list[dict[int, Found]]]:
    """The results of all trials, kind by kind."""
    parts: list[list[dict[int, Found]]] = []
    start = 0
    for population in several:
        parts.append(list(found[start : start + len(population.trials)]))
        start += len(population.trials)
    return parts


def run_all(program: Program, setting: Setting, trials: list[Trial], limits: tuple[int, ...],
            args: argparse.Namespace) -> list[dict[int, Found]]:
    """The results of all trials. A line on standard error shows the progress."""
    if trials and trials[0].strike is not None:
        check_live(program, setting.at_limit(max(limits)))
    progress = Progress(len(trials), args.quiet, noun="guarded trials" if setting.guard else "trials")
    found: list[dict[int, Found]] = [{} for _ in trials]
    try:
        for start, results in run_trials(program, setting, trials, limits, args.jobs):
            found[start : start + len(results)] = results
            progress.take([Outcome(ending_of(each[max(limits)])) for each in results], 0)
    finally:
        progress.end()
    return found


def experiment(program: Program, scenario: Scenario, asked: Asked, args: argparse.Namespace) -> Ran:
    """Runs the experiment that the options ask for."""
    limits = tuple(dict.fromkeys(args.limit or [scenario["parts"][args.part].get("limit", 0)]))
    setting = setting_of(program, with_limit(scenario, args.part, max(limits)), args.part, False)
    report = check_base(program, setting.base, args.part)
    drawn = tuple(KINDS) if MIXED in asked.kinds else asked.kinds
    several = populations(asked, mutants_of(program, setting.code, drawn), report.parts[args.part])
    trials = [trial for population in several for trial in population.trials]
    results: dict[bool, list[list[dict[int, Found]]]] = {}
    for guard in GUARDS[args.guard]:
        guarded = setting_of(program, setting.base, args.part, guard)
        results[guard] = split(run_all(program, guarded, trials, limits, args), several)
    return Ran(asked, limits, several, results)


def title_of(asked: Asked, guard: bool, limit: int) -> str:
    """The title of a table."""
    faults = "1 fault" if asked.every or asked.faults == 1 else f"up to {asked.faults} faults"
    when = "latent" if asked.latent else "live, at any instruction" if asked.any_turn else "live"
    drawn = "every mutant" if asked.every else f"seed {asked.seed}"
    return f"{when}, {faults} a trial, {drawn}, limit {limit}, {'with a guard' if guard else 'without a guard'}"


def text_of(ran: Ran) -> str:
    """All tables, for people."""
    lines: list[str] = []
    for guard, limit in ran.settings():
        counts = [each.as_json() for each in ran.counts(guard, limit)]
        lines += [title_of(ran.asked, guard, limit), "", *text_lines(ending_rows(counts)), ""]
        lines += [*text_lines(question_rows(counts[-1], questions_of(ran, guard, limit))), ""]
    lines += ["in time, late, silent: per cent of the failures (trials in which the faults had an effect),",
              "in brackets 95 % intervals, by Wilson's formula; none if all possible trials were run"]
    return "\n".join(lines)


def write_file(path: str, text: str) -> None:
    try:
        with open(path, "w", encoding="utf-8") as file:
            file.write(text)
    except OSError as error:
        raise Mistake(f"{path}: {error.strerror}") from error


def write_files(ran: Ran, args: argparse.Namespace) -> None:
    """The files that the options ask for."""
    if args.lines:
        write_file(args.lines, "".join(f"{line}\n" for line in ran.lines()))
    if args.counts:
        write_file(args.counts, json_text(ran.as_json()) + "\n")
    if args.figure:
        panels = [(title_of(ran.asked, guard, limit), [each.as_json() for each in ran.counts(guard, limit)])
                  for guard, limit in ran.settings()]
        write_file(args.figure, figure(f"{args.file}: what became of its driver's faults", panels))


def run(args: argparse.Namespace) -> int:
    asked = asked_of(args)
    program = find_program(args.program)
    scenario = read_scenario(program, args.file)
    if not args.part < len(scenario["parts"]):
        raise Mistake(f"there is no part {args.part}: the scenario has {len(scenario['parts'])}")
    if args.again:
        return again(program, scenario, args)
    ran = experiment(program, scenario, asked, args)
    write_files(ran, args)
    if args.json:
        for line in ran.lines():
            print(line)
    else:
        print(text_of(ran))
    return 0


def add_to(commands: argparse._SubParsersAction[argparse.ArgumentParser]) -> None:
    parser = commands.add_parser("inject", help="what becomes of mistakes in a driver's code", description=ABOUT)
    parser.add_argument("file", metavar="FILE", help="a scenario, as exact JSON or as `build` takes it")
    add_choice(parser)
    parser.add_argument("--limit", type=int, action="append", metavar="L",
                        help="let the part be recovered L times; may be given again (default: the scenario's)")
    about = "whether a guard stops the driver before it breaks its contract; both runs each trial twice (default no)"
    parser.add_argument("--guard", choices=GUARDS, default="no", help=about)
    about = "how many runs at a time (default: one for each processor)"
    parser.add_argument("--jobs", type=int, default=processors(), metavar="J", help=about)
    parser.add_argument("--quiet", action="store_true", help="no progress on standard error")
    parser.add_argument("--json", action="store_true", help="write a line of JSON for each trial, and no table")
    parser.add_argument("--lines", metavar="FILE", help="write these lines to FILE too")
    parser.add_argument("--counts", metavar="FILE", help="write the counts of the tables to FILE as JSON")
    parser.add_argument("--figure", metavar="FILE", help="write stacked bars to FILE as an SVG")
    about = "run the trials of the lines of FILE once more, and nothing else; - is standard input"
    parser.add_argument("--again", metavar="FILE", help=about)
    parser.add_argument("--scenario", action="store_true", help="with --again: write the scenarios that are run")
    parser.set_defaults(run=run)


def add_choice(parser: argparse.ArgumentParser) -> None:
    """The options that choose the trials."""
    group = parser.add_argument_group("trials", "which mistakes are tried")
    group.add_argument("--part", type=int, default=0, metavar="P", help="the index of the struck part (default 0)")
    about = f"a kind of mistake; may be given again (default: all but {MIXED})"
    group.add_argument("--kind", action="append", choices=(*KINDS, MIXED), help=about)
    about = "trials of each kind (default 100); or all, if there are no more"
    group.add_argument("--trials", type=int, default=100, metavar="N", help=about)
    group.add_argument("--faults", type=int, default=1, metavar="K", help="faults of a trial (default 1)")
    group.add_argument("--seed", type=int, default=1, metavar="S", help="the seed of the random choices (default 1)")
    group.add_argument("--every-mutant", action="store_true", help="every mutant of each kind, one a trial")
    group.add_argument("--latent", action="store_true", help="in the image, and so in each load of it")
    about = "strike at a drawn instruction of the burst, instead of at its beginning"
    group.add_argument("--any-turn", action="store_true", help=about)
