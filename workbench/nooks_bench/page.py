"""page: a run as one HTML file, in which each event can be inspected."""

from __future__ import annotations

import argparse
import os
import sys
from typing import Any

from .guards import guarded
from .listing import source_of
from .messages import say
from .page_bursts import important, traces_of
from .page_data import PartRun, page_data
from .page_text import page_text
from .picture import command_text, hash_of, version_of
from .program import Mistake, Program, find_program
from .report import parse_report
from .scenario import Scenario, read_scenario, with_traps
from .times import PartTimes, times_of
from .unstruck import strikes_of_report

ABOUT = """Writes one page, an HTML file that needs no network and no server: the run event by event, with the state
after each, and its bursts instruction by instruction next to the driver's text. SCENARIO is exact JSON or as `build`
takes it."""

DEFAULT_TRACES = 200


def part_run(program: Program, scenario: Scenario, times: PartTimes, most: int) -> PartRun:
    """Returns a part of the run, with at most `most` of its bursts traced."""
    part = times.part
    driver = scenario["parts"][part.index]["driver"]
    bursts = important(part, {strike.event for strike in times.struck()})
    if len(bursts) > most:
        about = f"{most:,} of {len(bursts):,} bursts are traced, first those that failed or were struck"
        say(f"part {part.index} {part.name}: {about}; --traces N traces N")
    traces = traces_of(program, scenario, part, bursts[:most])
    return PartRun(times, source_of(program, driver), driver.get("asm", ""), traces)


def made_data(program: Program, scenario: Scenario, guard: bool, most: int, title: str,
              args: argparse.Namespace) -> dict[str, Any]:
    """Returns the page's data for a scenario's run, with at most `most` bursts of each part traced."""
    report = guarded(program, scenario) if guard else parse_report(program.report(scenario))
    times = times_of(report, strikes_of_report(report, scenario))
    shown = with_traps(scenario, report.guards)
    runs = [part_run(program, shown, each, most) for each in times]
    made = [command_text(args), f"{version_of(program)}; scenario {hash_of(scenario)}"]
    data = page_data(title, report, runs, made)
    if guard:
        data["status"] += ". It is the run with a guard"
    return data


def data_of(args: argparse.Namespace) -> dict[str, Any]:
    """Returns the page's data for the options."""
    program = find_program(args.program)
    title = args.title or os.path.splitext(os.path.basename(args.file))[0]
    return made_data(program, read_scenario(args.file), args.guard, args.traces, title, args)


def run(args: argparse.Namespace) -> int:
    if args.traces < 0:
        raise Mistake("--traces takes a number from 0 on")
    text = page_text(data_of(args))
    if not args.output:
        sys.stdout.write(text)
        return 0
    try:
        with open(args.output, "w", encoding="utf-8") as file:
            file.write(text)
    except OSError as error:
        raise Mistake(f"{args.output}: {error.strerror}") from error
    return 0


def add_to(commands: argparse._SubParsersAction[argparse.ArgumentParser]) -> None:
    parser = commands.add_parser("page", help="a run as one HTML page, event by event", description=ABOUT)
    parser.add_argument("file", metavar="SCENARIO", help="a scenario; - is standard input")
    parser.add_argument("--guard", action="store_true", help="the run with a guard (docs/GUARD.md)")
    parser.add_argument("--title", metavar="TEXT", help="the page's title (default: the file's name)")
    traced = f"trace at most N bursts of each part (default {DEFAULT_TRACES})"
    parser.add_argument("--traces", type=int, default=DEFAULT_TRACES, metavar="N", help=traced)
    parser.add_argument("-o", "--output", metavar="FILE", help="write to FILE")
    parser.set_defaults(run=run)
