"""schedules: how the run of a scenario can end, over every order of its steps, and an order for each outcome."""

from __future__ import annotations

import argparse
import functools
import json
import shutil
import sys

from .ends import End, end_of, listed
from .explored import Found, explored
from .facts import STATUSES
from .faults import check_range
from .jsontext import json_text
from .outcomes import BROKEN, GIVEN_UP, Outcome
from .pool import each_done, processors
from .preemptions import Search, setting_of
from .program import Mistake, Program, find_program
from .progress import Progress
from .report import parse_report
from .scenario import Scenario
from .schedules_text import text_of
from .sweep import scenario_of
from .timeline_text import text_lines
from .times import times_of
from .unstruck import strikes_of_report
from .ways import Ways

MOST_TRIES = 1_000_000

# The values of --fail-on, each worse than the one before: orders that were not followed, and the statuses of outcomes.
INCOMPLETE, GIVEN, BREAKS = "cut", "given-up", "broken"
FAILURES = {GIVEN: STATUSES["given_up"], BREAKS: STATUSES["contract_broken"]}

ABOUT = """Follows every order in which the steps of the scenario FILE can happen, whatever its own schedule is, and
writes how its run can end: each outcome, what differs between outcomes, and an order for the worst. If there are too
many states for that, or with --search, orders are run by themselves: first those without a preemption, a switch away
from an actor that could continue, then those with one, and so on. That proves nothing of the others."""


def end_by_path(path: str, scenario: Scenario, found: Found) -> End:
    """Returns an outcome given only a path, as a worker does."""
    return end_of(Program(path), scenario, found)


def ends_of(program: Program, scenario: Scenario, found: list[Found], jobs: int) -> list[End]:
    """Returns the outcomes of an exploration, in the order of its rows."""
    work = functools.partial(end_by_path, program.path, scenario)
    ends = dict(each_done(work, found, jobs))
    return [ends[index] for index in range(len(found))]


def outcome_of(end: End) -> Outcome:
    """Returns what the progress line counts for an outcome."""
    names = {STATUSES["given_up"]: GIVEN_UP, STATUSES["contract_broken"]: BROKEN}
    return Outcome(names.get(end.found.row.status, "kept"))


def searched(program: Program, scenario: Scenario, known: list[End], args: argparse.Namespace) -> Search:
    """Searches orders by their preemptions."""
    progress = Progress(args.tries, args.quiet, noun="switches")

    def report_wave(tried: int, ends: list[End]) -> None:
        without = [Outcome("without a step")] * (tried - len(ends))
        progress.take([outcome_of(end) for end in ends] + without, 0)

    search = Search(program, setting_of(program, scenario), args.tries, args.jobs, report_wave)
    search.found = {end.key: end for end in known}
    with progress:
        search.run(args.preemptions)
    return search


def ways_of(args: argparse.Namespace) -> Ways:
    """Finds the outcomes that the options ask for."""
    program = find_program(args.program)
    ways = Ways(scenario_of(program, args.file), program)
    if not args.search:
        ways.explored = explored(program, ways.scenario)
        ways.ends = ends_of(program, ways.scenario, ways.explored.found, args.jobs)
    if args.search or (ways.explored and ways.explored.is_prefix and args.tries):
        ways.search = searched(program, ways.scenario, ways.ends, args)
        ways.ends = list(ways.search.found.values())
    return ways


def timeline_of(ways: Ways, number: int) -> str:
    """Draws the run of an outcome as lanes."""
    scenario = ways.chosen(number)
    report = parse_report(ways.program.report(scenario))
    wide = shutil.get_terminal_size((100, 24)).columns
    return "\n".join(text_lines(times_of(report, strikes_of_report(report, scenario)), max(wide, 40)))


def written(ways: Ways, args: argparse.Namespace) -> str:
    """Returns what the options ask to be written."""
    if args.json:
        return json.dumps(ways.as_json())
    if args.schedule is not None:
        return f'"schedule": {json.dumps(listed(ways.end(args.schedule).found.picks))}'
    if args.scenario is not None:
        return json_text(ways.chosen(args.scenario))
    if args.timeline is not None:
        return timeline_of(ways, args.timeline)
    return text_of(ways, args.file, args.all)


def fails(ways: Ways, named: str) -> bool:
    """Returns whether an outcome is as bad as the named one or worse. `cut` also fails if not every order is
    covered."""
    least = FAILURES.get(named, min(FAILURES.values()))
    is_incomplete = named == INCOMPLETE and not ways.is_whole
    return is_incomplete or any(end.found.row.status >= least for end in ways.ends)


def run(args: argparse.Namespace) -> int:
    check_range("tries", args.tries, (0, MOST_TRIES))
    check_range("preemptions", args.preemptions, (0, MOST_TRIES))
    check_range("jobs", args.jobs, (1, 4096))
    if args.search and not args.tries:
        raise Mistake("--search without any --tries has nothing to run")
    ways = ways_of(args)
    sys.stdout.write(written(ways, args) + "\n")
    return 1 if args.fail_on and fails(ways, args.fail_on) else 0


def add_to(commands: argparse._SubParsersAction[argparse.ArgumentParser]) -> None:
    about = "how a run can end, over every order of its steps"
    parser = commands.add_parser("schedules", help=about, description=ABOUT)
    parser.add_argument("file", metavar="FILE", help="a scenario, as exact JSON or as `build` takes it")
    shown = parser.add_mutually_exclusive_group()
    shown.add_argument("--schedule", type=int, metavar="K", help="write the schedule of outcome K, to paste")
    shown.add_argument("--scenario", type=int, metavar="K", help="write the scenario with the schedule of outcome K")
    shown.add_argument("--timeline", type=int, metavar="K", help="write the run of outcome K as lanes")
    shown.add_argument("--json", action="store_true", help="write JSON for tools")
    shown.add_argument("--all", action="store_true", help="leave out no outcome and no value")
    parser.add_argument("--fail-on", choices=(INCOMPLETE, *FAILURES), metavar="WHAT",
                        help=f"end with status 1 on `{BREAKS}`, `{GIVEN}` or `{INCOMPLETE}` (not every order), "
                             "or worse")
    parser.add_argument("--jobs", type=int, default=processors(), metavar="J",
                        help="how many runs at a time (default: one for each processor)")
    parser.add_argument("--quiet", action="store_true", help="no progress on standard error")
    add_search(parser)
    parser.set_defaults(run=run)


def add_search(parser: argparse.ArgumentParser) -> None:
    """Adds the options of the search."""
    group = parser.add_argument_group("search", "if there are too many states to follow every order")
    group.add_argument("--search", action="store_true", help="search, whatever the number of states")
    group.add_argument("--tries", type=int, default=4000, metavar="N", help="switches to try (default 4000; 0: none)")
    group.add_argument("--preemptions", type=int, metavar="P", help="at most P of them in an order (default: no bound)")
