"""The command and its subcommands."""

from __future__ import annotations

import argparse
import contextlib
import importlib
import sys
from typing import TextIO, cast

from . import __version__
from .messages import say
from .output import Output, Unwritten
from .program import Mistake, find_program

# The subcommands, each a module of this package, with its text in `--help`. Only the module of the subcommand that is
# given is imported, so that it starts fast.
SUBCOMMANDS = {
    "build": "write a scenario's exact JSON",
    "gen": "operations to try one's own driver with",
    "sweep": "what becomes of each of a set of faults",
    "map": "a sweep as an SVG",
    "inject": "what becomes of mistakes in a driver's code",
    "cost": "what protection costs",
    "timeline": "a report as lanes, as an SVG or as text",
    "page": "a run as one HTML page, event by event",
    "serve": "the page from a local server, with editing",
    "gallery": "the pages of all scenarios of a folder",
    "explain": "a report, or the line of a refused input, for people",
    "trace": "one burst, instruction by instruction, next to the driver's source",
    "replay": "the schedule that gives a report of threads again",
    "schedules": "how a run can end, over every order of its steps",
    "shrink": "a smaller scenario of which the same holds",
}

# The module of a subcommand if it has another name: `map` is a builtin of Python.
MODULES = {"map": "heatmap"}

# The exit statuses in addition to 0; sweep's --fail-on adds 1. The program too ends with 5 if it cannot write output.
MISTAKEN = 2
UNWRITTEN = 5
INTERRUPTED = 130

ABOUT = """A workbench around the proved program nooks. Each subcommand has its own --help; docs/WORKBENCH.md
walks through a question. The program is that of --program, else that of the environment's NOOKS, else the first that
./nooks, ./nooks-unproved or ./nooks-plain built, else the installed one."""

EPILOG = """exit status: 0; 1 by sweep's --fail-on; 2 for a mistake, which one line on standard error reports; 5 if
standard output cannot be written; 130 if interrupted"""


def parser(arguments: list[str] | None = None) -> argparse.ArgumentParser:
    """The parser of the whole command line. If arguments are given, only the subcommands among them have options."""
    made = argparse.ArgumentParser(prog="nooks-bench", description=ABOUT, epilog=EPILOG)
    made.add_argument("--program", metavar="PATH", help="the program nooks")
    made.add_argument("--version", action="store_true", help="the versions of the workbench and of the program")
    commands = made.add_subparsers(title="subcommands", dest="subcommand", metavar="SUBCOMMAND")
    for name, about in SUBCOMMANDS.items():
        if arguments is None or name in arguments:
            importlib.import_module(f".{MODULES.get(name, name)}", __package__).add_to(commands)
            command = commands.choices[name]
            command.add_argument("--program", metavar="PATH", default=argparse.SUPPRESS, help="the program nooks")
        else:
            commands.add_parser(name, help=about)
    return made


def versions(named: str | None) -> int:
    """Prints the version of the workbench, and that of the program if there is one."""
    print(f"nooks-bench {__version__}")
    try:
        program = find_program(named)
    except Mistake as mistake:
        say(str(mistake))
        return 0
    print(f"{program.path}: {program.version() or 'has no --version'}")
    return 0


def command(arguments: list[str]) -> int:
    """Runs the subcommand that the arguments name; returns the exit status."""
    made = parser(arguments)
    try:
        args = made.parse_args(arguments)
        args.words = arguments
        if args.version:
            return versions(args.program)
        if args.subcommand is None:
            made.error("which SUBCOMMAND?")
        status: int = args.run(args)
        return status
    except Mistake as mistake:
        say(str(mistake))
        return MISTAKEN
    except KeyboardInterrupt:
        say("interrupted")
        return INTERRUPTED
    except SystemExit as ended:
        return ended.code if isinstance(ended.code, int) else 0


def main(arguments: list[str] | None = None) -> int:
    """Runs the command with the given arguments, or with those of the command line."""
    if sys.stdout is None:
        say("standard output is closed")
        return UNWRITTEN
    output = Output(sys.stdout)
    try:
        with contextlib.redirect_stdout(cast(TextIO, output)):
            status = command(sys.argv[1:] if arguments is None else arguments)
            output.flush()
        return status
    except Unwritten as error:
        output.discard()
        say(f"standard output: {error}")
        return UNWRITTEN
