"""sweep: the outcome of each of a set of faults, compared with the run without it."""

from __future__ import annotations

import argparse
import json
import sys
from typing import Any, Sequence

from .build import built, check
from .facts import INPUTS, MOST_WORD
from .faults import RANGES, add_selection, check_range, selection_of
from .journal import Journal, heading_of
from .messages import say
from .model import Swept
from .outcomes import OUTCOMES, SAME, SHORT_NAMES, row_of
from .plans import plans_of
from .pool import processors
from .program import Mistake, Program, find_program
from .report import Report, parse_report
from .scenario import Scenario, with_limit, with_schedule
from .source import read_text
from .sweeping import How, Sweep
from .table import fold, table_lines, write_members
from .totals import GROUPS, counts_of, coverage_of, group_lines, groups_of, guarded_counts, guarded_lines
from .totals import own_groups, own_lines, total_lines, whole_lines, wilson
from .words import counted

INTERRUPTED = 130

ABOUT = """Runs the scenario FILE once, then with each of a set of faults, and reports for each what became of it
against the run without it. Rows with the same outcome, cause and burst are folded, with their number and one fault of
them as JSON. FILE is exact JSON, or a scenario as `build` takes it."""


def scenario_of(program: Program, file: str) -> Scenario:
    """Returns the scenario of a file: exact JSON, or as `build` takes it. An input error is reported with its
    position."""
    text = read_text(file)
    try:
        value = json.loads(text)
    except ValueError:
        value = None
    if isinstance(value, dict) and {"base", "faults"} <= set(value):
        raise Mistake(f"{file} is a campaign: a sweep takes its base, and chooses the faults")
    if value is None or program.fault_of(text) is not None:
        node = built(file, text)
        value = node.plain()
        check(program, node, json.dumps(value))
    if not isinstance(value, dict) or not isinstance(value.get("parts"), list):
        raise Mistake(f"{file} is no scenario")
    return value


def check_options(args: argparse.Namespace) -> None:
    """Checks what can be checked before the program is asked."""
    limit = INPUTS["part"]["limit"].ends
    for option, ends in {"limit": limit, "schedules": (1, MOST_WORD), "jobs": (1, 4096)}.items():
        check_range(option, getattr(args, option), ends)
    greatest = RANGES["seed"][1]
    if args.schedules and args.seed + args.schedules - 1 > greatest:
        raise Mistake(f"--seed {args.seed} and --schedules {args.schedules}: the greatest start is {greatest}")
    if args.resume and not args.journal:
        raise Mistake("--resume is for --journal")
    if args.dask_program and not args.dask:
        raise Mistake("--dask-program is for --dask")


def bases_of(args: argparse.Namespace, base: Scenario) -> list[Scenario]:
    """Returns the scenario itself, or as many copies under drawn schedules as requested."""
    if args.schedules is None:
        return [base]
    return [with_schedule(base, {"kind": "drawn", "start": args.seed + each}) for each in range(args.schedules)]


def open_journal(args: argparse.Namespace, sweep: Sweep, base: Scenario) -> None:
    """Opens the journal, and takes the outcomes in it."""
    choice = {**vars(sweep.selection), "schedules": args.schedules, **({"guard": True} if args.guard else {})}
    faults = [plan.faults for plan in sweep.plans]
    version = sweep.program.version() or "no version"
    sweep.journal = Journal(args.journal)
    sweep.journal.open(heading_of(version, base, choice, faults), args.resume)
    sweep.start(sweep.journal.known)


def sweep_of(args: argparse.Namespace, base: Scenario | None = None) -> Sweep:
    """Runs all that the options ask for, of the scenario of the file or of another one."""
    selection = selection_of(args)
    check_options(args)
    how = How(args.jobs, args.quiet, args.instructions, args.dask, args.dask_program, args.guard)
    program = find_program(args.program)
    base = scenario_of(program, args.file) if base is None else base
    if not args.part < len(base["parts"]):
        raise Mistake(f"there is no part {args.part}: the scenario has {len(base['parts'])}")
    if args.limit is not None:
        base = with_limit(base, args.part, args.limit)
    plans = plans_of(program.path, selection, bases_of(args, base), how.jobs, how.guard)
    first = plans[0].report if args.schedules is None else parse_report(program.report(base))
    sweep = Sweep(program, selection, how, plans, first)
    sweep.start({})
    if args.journal:
        open_journal(args, sweep, base)
    try:
        sweep.run()
    finally:
        if sweep.journal:
            sweep.journal.close()
    return sweep


def swept(args: argparse.Namespace, base: Scenario | None = None) -> list[Swept]:
    """Returns the whole sweep that the options ask for. An interrupted sweep is not whole."""
    sweep = sweep_of(args, base)
    if sweep.interrupted:
        raise KeyboardInterrupt
    return sweep.runs()


def base_line(report: Report) -> str:
    """Describes a run in numbers."""
    row = row_of(report)
    return f"status {row.status}, {row.events} events, {row.failures} failures, {row.gone} gone, {row.lost} lost"


def base_lines(report: Report) -> list[str]:
    """Describes the run without an additional fault."""
    lines = [f"without: {base_line(report)}"]
    for part in report.parts:
        if part.broken:
            event, clause = part.broken
            lines.append(f"without: the contract of {part.name} is broken at event {event}, clause {clause}")
    return lines


def guarded_base_lines(runs: Sequence[Swept]) -> list[str]:
    """Describes the guarded run without an additional fault, if the guard stopped anything there."""
    guarded = [run.guarded for run in runs if run.guarded and run.guarded.guards]
    return [f"without, with a guard: {base_line(each)}, {counted(len(each.guards), 'trap')}" for each in guarded]


def as_json(sweep: Sweep, runs: list[Swept], args: argparse.Namespace) -> dict[str, Any]:
    entries = [entry for run in runs for entry in run.entries]
    counts = counts_of(entries)
    shown: dict[str, Any] = {
        "part": args.part,
        "chosen": len(sweep.known),
        "done": len(entries),
        "outcomes": counts,
        "struck": vars(coverage_of(runs, args.part)),
        "rows": [row.as_json() for row in fold(runs, args.amounts)],
        "per": {by: [group.as_json() for group in groups_of(runs, args.part, by)] for by in args.per or ()},
        "runs": [run.as_json() for run in runs],
    }
    if args.guard:
        shown["guarded"] = guarded_counts(entries)
    if sweep.wholes:
        shown["every"] = [{"guard": guarded, **whole.as_json()} for guarded, whole in sweep.wholes.items()]
    if args.random is not None:
        shown["intervals"] = {name: wilson(count, len(entries)) for name, count in counts.items()}
    if args.schedules is not None:
        shown["schedules"] = [group.as_json() for group in own_groups(runs)]
    return shown


def as_text(sweep: Sweep, runs: list[Swept], args: argparse.Namespace) -> str:
    lines = base_lines(sweep.first) + guarded_base_lines(runs)
    if args.schedules is not None:
        lines += own_lines(runs)
    rows = fold(runs, args.amounts)
    lines += ["", *table_lines(rows, len(runs), args.members)]
    for by in args.per or ():
        lines += ["", *group_lines(runs, args.part, by)]
    lines += ["", *total_lines(runs, args.part, args.random is not None)]
    if args.guard:
        lines += ["", *guarded_lines(runs)]
    if sweep.wholes:
        lines += ["", *whole_lines(sweep.wholes)]
    return "\n".join(lines)


def fails(runs: Sequence[Swept], named: str) -> bool:
    """Returns whether an outcome is as bad as the named one or worse: that of a fault, or of a base without one. With a
    guard the outcomes with it count."""
    least = OUTCOMES.index(SHORT_NAMES[named])
    names = {entry.guarded.name if entry.guarded else entry.outcome for run in runs for entry in run.entries}
    names |= {run.own.name for run in runs if run.own.name != SAME and run.guarded is None}
    return any(OUTCOMES.index(name) >= least for name in names)


def interrupted_text(sweep: Sweep) -> str:
    """Describes how far an interrupted sweep came."""
    done, chosen = sweep.done(), len(sweep.known)
    text = f"interrupted: {done:,} of {chosen:,} faults"
    if done == chosen:
        return f"{text}, and not all instructions are known"
    return f"{text}; the same command with --resume continues it" if sweep.journal else text


def run(args: argparse.Namespace) -> int:
    sweep = sweep_of(args)
    runs = sweep.runs()
    if args.members:
        write_members(fold(runs, args.amounts), args.part, args.members)
    if args.json:
        json.dump(as_json(sweep, runs, args), sys.stdout)
        sys.stdout.write("\n")
    else:
        print(as_text(sweep, runs, args))
    if sweep.interrupted:
        say(interrupted_text(sweep))
        return INTERRUPTED
    return int(bool(args.fail_on) and fails(runs, args.fail_on))


def add_sweep_options(parser: argparse.ArgumentParser, needed: bool = True) -> None:
    """Adds the options of a sweep, which `map` takes too."""
    about = "a scenario, as exact JSON or as `build` takes it; - is standard input"
    if needed:
        parser.add_argument("file", metavar="FILE", help=about)
    else:
        parser.add_argument("file", metavar="FILE", nargs="?", help=about)
    add_selection(parser)
    parser.add_argument("--guard", action="store_true", help="each fault with a guard too (docs/GUARD.md)")
    parser.add_argument("--limit", type=int, metavar="L", help="let the part be recovered L times")
    parser.add_argument("--schedules", type=int, metavar="N", help="under N drawn schedules, seeded from --seed up")
    about = "how many runs at a time (default: one for each processor)"
    parser.add_argument("--jobs", type=int, default=processors(), metavar="J", help=about)
    parser.add_argument("--quiet", action="store_true", help="no progress on standard error")
    about = "write the outcomes that are known to FILE, line by line"
    parser.add_argument("--journal", metavar="FILE", help=about)
    parser.add_argument("--resume", action="store_true", help="continue with the journal, if it is there")
    parser.add_argument("--dask", metavar="ADDRESS", help="run on the cluster of this Dask scheduler (tcp://HOST:8786)")
    parser.add_argument("--dask-program", metavar="PATH", help="the program's path on the cluster's machines")


def add_to(commands: argparse._SubParsersAction[argparse.ArgumentParser]) -> None:
    parser = commands.add_parser("sweep", help="what becomes of each of a set of faults", description=ABOUT)
    add_sweep_options(parser)
    about = "ask which instruction each fault comes before, and fold by it"
    parser.add_argument("--instructions", action="store_true", help=about)
    parser.add_argument("--amounts", action="store_true", help="a row for each amount that is lost")
    about = f"count the outcomes by this too; may be given again: {', '.join(GROUPS)}"
    parser.add_argument("--per", action="append", choices=GROUPS, metavar="GROUP", help=about)
    parser.add_argument("--members", metavar="FOLDER", help="write a scenario for each row, and print how to run it")
    parser.add_argument("--json", action="store_true", help="write JSON for tools")
    parser.add_argument("--fail-on", choices=SHORT_NAMES, metavar="OUTCOME",
                        help=f"end with status 1 at this outcome or a worse one: {', '.join(SHORT_NAMES)}")
    parser.set_defaults(run=run)
