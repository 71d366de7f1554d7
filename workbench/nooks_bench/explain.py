"""explain: a report, or the line of a refused input, for people."""

from __future__ import annotations

import argparse
import json

from .build import built
from .explain_report import report_lines
from .guards import guarded
from .program import Mistake, find_program
from .refused import Explained, explain_asm, explain_fault, parse_fault
from .report import parse_report
from .scenario import read_scenario
from .source import Node, Position, Reader, read_text
from .unstruck import strikes_of_report

ABOUT = """Explains what the program wrote. FILE (- is standard input) is a report, or the line `fault ..` of a
refused input, which needs --input: the scenario, campaign, image or assembler text that was refused. For a report
--input is its scenario, and then each fault of it is listed, with the burst that it struck or why it did not. With
--guard FILE is a scenario, and its guarded run is explained: each deed that the guard stopped, and the clause that it
would have broken."""


def not_json(file: str, text: str) -> Explained:
    """The position at which a text stops being JSON."""
    try:
        json.loads(text)
    except json.JSONDecodeError as error:
        return Explained(Position(file, error.lineno, error.colno), f"this is no JSON: {error.msg}", "")
    except RecursionError:
        return Explained(Position(file, 1, 1), "lists and objects are nested too deeply", "")
    return Explained(Position(file, 1, 1), "the program reads no JSON here", "at most 127 levels of lists and objects")


def refused(line: str, file: str) -> Explained:
    """Explains the line of a refused input, with the input."""
    fault = parse_fault(line)
    text = read_text(file)
    if fault.name == "not_json":
        return not_json(file, text)
    if fault.name == "bad_asm" and not text.lstrip().startswith("{"):
        return explain_asm(fault, Node(text, Position(file, 1, 1), origin=file))
    return explain_fault(fault, Reader(text, file).whole())


def run(args: argparse.Namespace) -> int:
    if args.guard:
        scenario = read_scenario(args.file)
        report = guarded(find_program(args.program), scenario)
        print("\n".join(report_lines(report, strikes_of_report(report, scenario))))
        return 0
    text = read_text(args.file)
    if text.startswith("fault "):
        if not args.input:
            raise Mistake("the line of a refused input needs --input, the file that was refused")
        print(refused(text, args.input))
        return 0
    report = parse_report(text)
    strikes = strikes_of_report(report, built(args.input).plain()) if args.input else None
    print("\n".join(report_lines(report, strikes)))
    return 0


def add_to(commands: argparse._SubParsersAction[argparse.ArgumentParser]) -> None:
    about = "a report, or the line of a refused input, for people"
    parser = commands.add_parser("explain", help=about, description=ABOUT)
    parser.add_argument("file", metavar="FILE", nargs="?", default="-")
    parser.add_argument("--input", metavar="INPUT", help="the input that was refused, or the scenario of the report")
    parser.add_argument("--guard", action="store_true", help="FILE is a scenario: explain its guarded run")
    parser.set_defaults(run=run)
