"""map: draws a sweep as an SVG, bursts down and instructions across."""

from __future__ import annotations

import argparse
import json
from typing import Any

from .heatmap_rows import fold_rows, groups_of
from .heatmap_svg import MNEMONICS, NO_STRIP, STRIPS, Look, drawing
from .picture import add_picture_options, caption_lines, check_picture_options, hash_of, put_picture, room_of, scale_of
from .program import Mistake, Program, find_program
from .scenario import Scenario
from .source import read_text
from .strip import Strips, fill_instructions, strips_of, writes_traces
from .sweep import add_sweep_options, swept

ABOUT = """Draws a sweep as an SVG. Each burst has a row for each thing that strikes there, and a column for each
instruction. Above them is a strip of the burst's instructions, with marks on those that act on the device. The colour
of a cell is the fault's outcome; the number in it is the broken clause, or how much was lost. Equal rows are drawn
once. The pointer over a cell shows the fault, the outcome and the instruction. With --guard the same faults with a
guard are on the right. The options are those of sweep; with --from, the sweep is one that `sweep --json`
wrote, and the program is asked for the strip alone."""

DEFAULT_WIDTH = 1500

Runs = list[dict[str, Any]]


def read_runs(file: str) -> tuple[Runs, int]:
    """The runs of a file that `sweep --json` wrote, and the struck part."""
    try:
        whole = json.loads(read_text(file))
        runs: Runs = whole["runs"]
        named = [part["name"] for run in runs for part in run["base"]["parts"]]
        faults = [fault for run in runs for fault in run["faults"]]
        part = int(whole.get("part", 0))
    except (ValueError, KeyError, TypeError) as error:
        raise Mistake(f"{file} is nothing that `sweep --json` wrote") from error
    if not named or not faults:
        raise Mistake(f"{file} has no runs with faults")
    return runs, part


def program_of(args: argparse.Namespace) -> Program | None:
    """The program that is asked for strips. With --from there may be none."""
    try:
        return find_program(args.program)
    except Mistake:
        if args.from_ is None:
            raise
        return None


def made_runs(args: argparse.Namespace, program: Program, base: Scenario | None) -> Runs:
    """The runs of the sweep that the options name. The instructions come from traces if the program writes these, else
    from runs with faults that the workbench adds."""
    args.instructions = not args.no_instructions and not writes_traces(program)
    return [run.as_json() for run in swept(args, base)]


def picture_of(args: argparse.Namespace, base: Scenario | None = None) -> str:
    """The SVG of the sweep that the options name, over the scenario of the file or over `base`."""
    program = program_of(args)
    if args.from_ is not None:
        runs, part = read_runs(args.from_)
    elif args.file is not None and program:
        runs, part = made_runs(args, program, base), args.part
    else:
        raise Mistake("a scenario is needed, or --from")
    strips: Strips = {}
    if not args.no_instructions:
        strips = strips_of(program, runs, part)
        fill_instructions(runs, strips)
    groups = groups_of(runs, args.random is not None or args.together)
    if not groups:
        raise Mistake("there is no fault in this sweep")
    if not args.no_fold:
        groups = [fold_rows(group) for group in groups]
    names = ", ".join(part["name"] for part in runs[0]["base"]["parts"])
    names += ", without a guard and with one" if any(line.guarded for group in groups for line in group.lines) else ""
    notes = caption_lines(args, program, f"scenario {hash_of(runs[0]['base'])}")
    strip = NO_STRIP if args.no_instructions else args.strip
    look = Look(room_of(args, DEFAULT_WIDTH), args.wrap, strip)
    return drawing(groups, strips, look, args.title or f"Faults of {names}", notes, scale_of(args))


def run(args: argparse.Namespace) -> int:
    check_picture_options(args)
    put_picture(picture_of(args), args)
    return 0


def add_to(commands: argparse._SubParsersAction[argparse.ArgumentParser]) -> None:
    parser = commands.add_parser("map", help="a sweep as an SVG", description=ABOUT)
    add_sweep_options(parser, needed=False)
    parser.add_argument("--from", dest="from_", metavar="SWEEP", help="the JSON of a sweep; it is not run again")
    parser.add_argument("--title", metavar="TEXT", help="the text over the map")
    parser.add_argument("--together", action="store_true", help="one row a burst; a cell shows the worst of its faults")
    about = "a row for each thing that strikes, even if some look the same"
    parser.add_argument("--no-fold", action="store_true", help=about)
    about = "what the strip over the cells shows of each instruction (default mnemonics)"
    parser.add_argument("--strip", choices=STRIPS, default=MNEMONICS, help=about)
    parser.add_argument("--no-instructions", action="store_true", help="do not ask for the instructions: no strip")
    wide = f"the width in pixels (default {DEFAULT_WIDTH})"
    add_picture_options(parser, wide, "N instructions in a row, the next ones below (default: as many as fit)")
    parser.set_defaults(run=run)
