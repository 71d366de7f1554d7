"""gallery: the pages of all scenarios of a folder, and a page that lists them."""

from __future__ import annotations

import argparse
import os
from dataclasses import dataclass
from html import escape

from .facts import STATUSES as NUMBERS
from .messages import say
from .page import DEFAULT_TRACES, made_data
from .page_text import digest, page_text
from .program import Mistake, Program, find_program
from .scenario import Scenario, read_scenario
from .svg import BLACK, BLUE, GREY, WHITE

ABOUT = """Writes the page of each scenario of FOLDER (*.json and *.jsonc, but no campaigns) into another folder, of a
run that breaks its contract the page of the guarded run too, and index.html, which lists them. The pages need no
network and no server."""

EXTENSIONS = (".json", ".jsonc")

STYLE = f"""
html {{ font: 15px/1.5 "DejaVu Sans", Helvetica, Arial, sans-serif; color: {BLACK}; background: {WHITE}; }}
body {{ margin: 0 auto; padding: 16px; max-width: 900px; }}
a {{ color: {BLUE}; }}
table {{ border-collapse: collapse; }}
td, th {{ text-align: left; padding: 2px 14px 2px 0; vertical-align: top; border-bottom: 1px solid {GREY}; }}
"""


@dataclass(frozen=True)
class Entry:
    """A page of the gallery: its file, the name of its run, and how the run ended."""

    file: str
    name: str
    about: str


def scenarios_of(folder: str) -> dict[str, Scenario]:
    """The scenarios of a folder by their names without extension."""
    try:
        names = sorted(name for name in os.listdir(folder) if name.endswith(EXTENSIONS))
    except OSError as error:
        raise Mistake(f"{folder}: {error.strerror}") from error
    found: dict[str, Scenario] = {}
    for name in names:
        try:
            found[os.path.splitext(name)[0]] = read_scenario(os.path.join(folder, name))
        except Mistake as mistake:
            say(f"no page of {name}: {mistake}")
    if not found:
        raise Mistake(f"{folder} has no scenario")
    return found


def write(path: str, text: str) -> None:
    try:
        with open(path, "w", encoding="utf-8") as file:
            file.write(text)
    except OSError as error:
        raise Mistake(f"{path}: {error.strerror}") from error


def pages_of(program: Program, name: str, scenario: Scenario, args: argparse.Namespace) -> list[Entry]:
    """Writes the pages of a scenario; returns their entries."""
    made: list[Entry] = []
    for guard, suffix in ((False, ""), (True, "-guard")):
        data = made_data(program, scenario, guard, args.traces, f"{name}{suffix}", args)
        file = f"{name}{suffix}.html"
        write(os.path.join(args.output, file), page_text(data))
        how = f"{name}, with a guard" if guard else name
        made.append(Entry(file, how, data["status"]))
        if not data["status"].startswith(f"status {NUMBERS['contract_broken']}:"):
            break
    return made


def index_text(title: str, entries: list[Entry]) -> str:
    """The page that lists the others."""
    rows = [f'<tr><td><a href="{escape(each.file)}">{escape(each.name)}</a></td><td>{escape(each.about)}</td></tr>'
            for each in entries]
    policy = f"default-src 'none'; style-src {digest(STYLE)}; img-src data:"
    return "\n".join([
        "<!doctype html>",
        '<html lang="en">',
        "<head>",
        '<meta charset="utf-8">',
        f'<meta http-equiv="Content-Security-Policy" content="{policy}">',
        '<meta name="viewport" content="width=device-width, initial-scale=1">',
        '<link rel="icon" href="data:,">',
        f"<title>{escape(title)}</title>",
        f"<style>{STYLE}</style>",
        "</head>",
        "<body>",
        f"<h1>{escape(title)}</h1>",
        "<p>Each page steps through a run; the key ? shows how.</p>",
        "<table>",
        "<tr><th>page</th><th>how the run ended</th></tr>",
        *rows,
        "</table>",
        "</body>",
        "</html>",
        "",
    ])


def run(args: argparse.Namespace) -> int:
    program = find_program(args.program)
    scenarios = scenarios_of(args.folder)
    try:
        os.makedirs(args.output, exist_ok=True)
    except OSError as error:
        raise Mistake(f"{args.output}: {error.strerror}") from error
    entries = [entry for name, scenario in scenarios.items() for entry in pages_of(program, name, scenario, args)]
    title = f"Runs of {os.path.basename(os.path.abspath(args.folder))}"
    write(os.path.join(args.output, "index.html"), index_text(title, entries))
    print(os.path.join(args.output, "index.html"))
    return 0


def add_to(commands: argparse._SubParsersAction[argparse.ArgumentParser]) -> None:
    parser = commands.add_parser("gallery", help="the pages of all scenarios of a folder", description=ABOUT)
    parser.add_argument("folder", metavar="FOLDER", help="the folder of the scenarios")
    about = "the folder that the pages are written to"
    parser.add_argument("-o", "--output", metavar="FOLDER", required=True, help=about)
    traced = f"trace at most N bursts of each part (default {DEFAULT_TRACES})"
    parser.add_argument("--traces", type=int, default=DEFAULT_TRACES, metavar="N", help=traced)
    parser.set_defaults(run=run)
