"""The arguments of the commands, as they describe them: nooks by its --help, nooks-bench by its parser."""

from __future__ import annotations

import argparse
import os
import re
import subprocess
import sys
from dataclasses import dataclass

TOP = os.path.dirname(os.path.dirname(os.path.abspath(__file__)))
BUILT = os.path.join(TOP, "crates/nooks_main/out/nooks_main")
sys.dont_write_bytecode = True
sys.path.insert(0, os.path.join(TOP, "workbench"))

from nooks_bench import __version__, cli  # noqa: E402

# Metavars of options and operands that are files.
FILES = ("PATH", "FILE", "FOLDER", "SCENARIO", "REPORT", "INPUT", "DRIVER", "SWEEP")


@dataclass(frozen=True)
class Option:
    """An option: its names, the name of its value (empty if it takes none), and the values that it may take."""

    names: tuple[str, ...]
    value: str
    choices: tuple[str, ...]
    about: str

    @property
    def is_file(self) -> bool:
        return self.value in FILES


@dataclass(frozen=True)
class Command:
    """A command or a subcommand, as its parser describes it."""

    name: str
    about: str
    usage: str
    description: str
    epilog: str
    options: tuple[Option, ...]
    operands: tuple[Option, ...]


@dataclass(frozen=True)
class Form:
    """A subcommand of nooks with its arguments, or an exit status, and its description."""

    words: str
    about: str


def option_of(parser: argparse.ArgumentParser, action: argparse.Action) -> Option:
    """An option or an operand, from the action of a parser."""
    value = ""
    if action.nargs != 0:
        value = str(action.metavar or (action.option_strings and action.dest.upper()) or action.dest)
    choices = tuple(str(each) for each in action.choices or ())
    about = parser._get_formatter()._expand_help(action) if action.help else ""
    if choices and action.metavar is None:
        value = action.dest.upper()
    return Option(tuple(action.option_strings), value, choices, " ".join(about.split()))


def command_of(name: str, about: str, parser: argparse.ArgumentParser) -> Command:
    """A command, from its parser. Options whose help is suppressed are left out."""
    shown = [action for action in parser._actions if action.help != argparse.SUPPRESS]
    plain = [action for action in shown if not isinstance(action, argparse._SubParsersAction)]
    made = [option_of(parser, action) for action in plain]
    usage = " ".join(parser.format_usage().removeprefix("usage:").split())
    texts = [" ".join((text or "").split()) for text in (parser.description, parser.epilog)]
    options = tuple(each for each in made if each.names)
    return Command(name, about, usage, texts[0], texts[1], options, tuple(each for each in made if not each.names))


def bench() -> tuple[Command, list[Command]]:
    """The command nooks-bench, and its subcommands in their order."""
    os.environ["COLUMNS"] = "1000"
    whole = cli.parser()
    commands = next(each for each in whole._actions if isinstance(each, argparse._SubParsersAction))
    helps = {each.dest: each.help or "" for each in commands._choices_actions}
    inner = [command_of(name, helps.get(name, ""), parser) for name, parser in commands.choices.items()]
    return command_of("nooks-bench", "", whole), inner


def asked(program: str, word: str) -> str:
    """The output of the program for --help or --version."""
    try:
        ended = subprocess.run([program, word], stdin=subprocess.DEVNULL, capture_output=True, check=False)
    except OSError as error:
        sys.exit(f"{program} cannot be run: {error.strerror}")
    text = ended.stdout.decode(errors="replace")
    if ended.returncode != 0 or not text:
        sys.exit(f"{program} is no program nooks: {word} ended with status {ended.returncode}")
    return text


def forms(program: str) -> tuple[list[Form], list[Form]]:
    """The subcommands of the program and its exit statuses, from its --help."""
    found = [re.fullmatch(r"((?:\S+ )+) +(\S.*)", line) for line in asked(program, "--help").splitlines()]
    lines = [Form(each.group(1).strip(), each.group(2)) for each in found if each]
    words = [Form(each.words.removeprefix("nooks "), each.about) for each in lines if each.words.startswith("nooks ")]
    statuses = [
        Form(each.words.removeprefix("status "), each.about) for each in lines if each.words.startswith("status ")
    ]
    if not words or not statuses:
        sys.exit(f"{program} is no program nooks: its --help names no subcommand")
    return words, statuses


def version(program: str) -> str:
    """The version that the program prints. It ends with "unproved" if the program does not say by what it is proved."""
    line = asked(program, "--version").splitlines()[0]
    found = re.search(r"\bnooks\b.*?(\d+\.\d+\.\d+)", line)
    if not found:
        sys.exit(f"{program} is no program nooks: its --version does not have that name and a version")
    return found.group(1) if ", proved with " in line else f"{found.group(1)} unproved"


def bench_version() -> str:
    return __version__
