"""timeline: a report as lanes, one for each thread, as an SVG or as text."""

from __future__ import annotations

import argparse
import re
import shutil

from .build import built
from .picture import add_picture_options, caption_lines, check_picture_options, hash_of, put_picture, room_of, scale_of
from .guards import guarded
from .program import Mistake, find_program
from .report import Report, parse_report
from .scenario import read_scenario
from .source import read_text
from .timeline_svg import drawing
from .timeline_text import text_lines
from .times import PartTimes, times_of
from .unstruck import Strike, strikes_of_report

ABOUT = """Draws a report: for each part a lane with its modes and stages, one for each thread with its calls, one
for what the driver did to the device, the failures, a break of the contract and the frames that came. Each event is
a step to the right. With --input, the scenario of the report, the faults that struck are marked, and for the
others the reason is given. With --guard FILE is a scenario, and its guarded run is drawn: at which event the guard
stopped the driver, before which deed, and which clause that deed would have broken. SVG, or text with --text."""

DEFAULT_WIDTH = 1500


def windowed(times: list[PartTimes], text: str) -> list[PartTimes]:
    """Returns the timelines with some of their events only, without the parts that have none of these."""
    found = re.fullmatch(r"(\d+)(?:-(\d+))?", text)
    first, last = (int(found[1]), int(found[2] or found[1])) if found else (0, 0)
    if not 1 <= first <= last:
        raise Mistake(f"--events takes A-B, two numbers of events from 1 on: {text!r}")
    shown = [each for each in times if first <= each.last]
    if not shown:
        raise Mistake(f"no part has an event {first}")
    for each in shown:
        each.first, each.last = first, min(last, each.last)
    return shown


def chosen(args: argparse.Namespace, times: list[PartTimes]) -> list[PartTimes]:
    """Returns the parts and the events that the options name."""
    if args.part is not None:
        times = [each for each in times if each.part.index == args.part]
        if not times:
            raise Mistake(f"the report has no part {args.part}")
    return windowed(times, args.events) if args.events else times


def drawn_run(args: argparse.Namespace) -> tuple[Report, dict[int, list[Strike]] | None, str]:
    """Returns the report that the options name, what became of its faults if the scenario is known, and what a caption
    says."""
    if args.guard:
        scenario = read_scenario(args.file)
        report = guarded(find_program(args.program), scenario)
        return report, strikes_of_report(report, scenario), f"guarded run of scenario {hash_of(scenario)}"
    text = read_text(args.file)
    report = parse_report(text)
    strikes = strikes_of_report(report, built(args.input).plain()) if args.input else None
    return report, strikes, f"report {hash_of(text)}"


def run(args: argparse.Namespace) -> int:
    check_picture_options(args)
    report, strikes, subject = drawn_run(args)
    times = chosen(args, times_of(report, strikes))
    if args.text:
        wide = args.width or shutil.get_terminal_size((100, 24)).columns
        print("\n".join(text_lines(times, max(wide, 40), args.wrap)))
        return 0
    notes = caption_lines(args, None, f"{subject}, status {report.status}")
    room, is_filled = room_of(args, DEFAULT_WIDTH), args.width is not None
    put_picture(drawing(times, room, args.wrap, notes, scale_of(args), is_filled), args)
    return 0


def add_to(commands: argparse._SubParsersAction[argparse.ArgumentParser]) -> None:
    parser = commands.add_parser("timeline", help="a report as lanes, as an SVG or as text", description=ABOUT)
    parser.add_argument("file", metavar="FILE", nargs="?", default="-", help="a report (default: standard input)")
    parser.add_argument("--input", metavar="SCENARIO", help="the scenario of the report, to show its faults")
    parser.add_argument("--guard", action="store_true", help="FILE is a scenario: draw its guarded run")
    parser.add_argument("--part", type=int, metavar="P", help="this part alone")
    parser.add_argument("--events", metavar="A-B", help="these events of each part alone")
    parser.add_argument("--text", action="store_true", help="text for a terminal")
    wide = f"the width in pixels (default {DEFAULT_WIDTH}); with --text in columns (default: the terminal's)"
    add_picture_options(parser, wide, "N events in a row, the next ones below (default: as many as fit)")
    parser.set_defaults(run=run)
