"""What the server of `serve` asks for, done in a separate process, so that it can be ended at any time.

The process gets one line of JSON on standard input, and answers with one JSON value. When standard input is closed, the
server is gone or no longer needs the answer: the process then ends itself with all that it started."""

from __future__ import annotations

import argparse
import contextlib
import io
import json
import os
import resource
import shlex
import signal
import sys
import threading
from dataclasses import dataclass
from typing import Any, Callable

from . import cli, heatmap
from .build import built, check
from .guards import guarded_scenario
from .jsontext import json_text
from .orders import every_order
from .page import DEFAULT_TRACES, made_data
from .page_text import page_text
from .program import Mistake, Program, Refusal
from .refused import explain_fault, parse_fault
from .scenario import Scenario
from .serve_folder import Folder, Outside, digest_of
from .serve_texts import named_files, with_fault, with_files, with_schedule_text
from .source import Misplaced, Node, Reader
from .svg import FONT

Answer = dict[str, Any]

# The most bytes of memory that a run may use, and the most that it may write to a file.
MOST_MEMORY = 4 * 2**30
MOST_WRITTEN = 256 * 2**20

# The most bursts of a part that are traced for the page that is shown. A page that is saved has as many as `page`
# traces.
SHOWN_TRACES = 100

# The options of a map that the page offers.
MAP_OPTIONS = ("part", "burst", "kind", "register", "address", "value", "width")


@dataclass(frozen=True)
class Asked:
    """A request, with the texts as they are in the page, saved or not."""

    program: Program
    folder: Folder
    given: dict[str, Any]

    @property
    def file(self) -> str:
        """The scenario's path in the folder."""
        file: str = self.given["file"]
        return file

    @property
    def text(self) -> str:
        """The scenario's text."""
        text: str = self.given["texts"][self.file]
        return text

    def read(self, name: str) -> str:
        """Returns the text of a file that the scenario names, from the page or else from the folder."""
        texts = self.given["texts"]
        return str(texts[name]) if name in texts else self.folder.read(name)

    def node(self) -> Node:
        """Returns the scenario with positions, if the program accepts it."""
        made = built(self.file, self.text, self.read)
        check(self.program, made, json.dumps(made.plain()))
        return made

    def scenario(self) -> Scenario:
        """Returns the scenario as the program reads it."""
        value: Scenario = self.node().plain()
        if not isinstance(value.get("parts"), list):
            about = "a campaign: its base is the scenario" if "base" in value else "no scenario"
            raise Mistake(f"{self.file} is {about}")
        return value

    @property
    def guard(self) -> bool:
        return bool(self.given.get("guard"))

    @property
    def title(self) -> str:
        return os.path.splitext(os.path.basename(self.file))[0]

    def words(self, subcommand: str, *options: str) -> list[str]:
        """Returns the arguments of the command that does the same."""
        return [subcommand, self.file, *options, *(["--guard"] if self.guard else [])]


def page_data_of(asked: Asked, most: int) -> Answer:
    """Returns the page's data, with at most `most` bursts of each part traced."""
    args = argparse.Namespace(words=asked.words("page"))
    return made_data(asked.program, asked.scenario(), asked.guard, most, asked.title, args)


def run_task(asked: Asked) -> Answer:
    """Returns the run of the scenario, as the page shows it."""
    return {"data": page_data_of(asked, SHOWN_TRACES)}


def check_task(asked: Asked) -> Answer:
    """Checks whether the program accepts the texts. An input error is answered as a refusal."""
    asked.scenario()
    return {}


def fault_task(asked: Asked) -> Answer:
    """Returns the scenario's text with a fault added."""
    part, fault = asked.given.get("part"), asked.given.get("fault")
    if not isinstance(part, int) or not isinstance(fault, dict):
        raise Mistake("a fault is added to a part")
    return {"text": with_fault(asked.text, asked.file, part, fault)}


def schedule_task(asked: Asked) -> Answer:
    """Returns the scenario's text with another schedule."""
    schedule = asked.given.get("schedule")
    if not isinstance(schedule, dict):
        raise Mistake("a schedule is an object")
    return {"text": with_schedule_text(asked.text, asked.file, schedule)}


def explore_task(asked: Asked) -> Answer:
    """Returns the outcomes of all orders."""
    return every_order(asked.program, asked.scenario())


def map_words(asked: Asked) -> list[str]:
    """Returns the arguments of the command that draws the map."""
    given = {name: asked.given.get(name) for name in MAP_OPTIONS}
    options = [f"--{name}={value}" for name, value in given.items() if value not in (None, "")]
    return asked.words("map", *options)


def map_args(asked: Asked) -> argparse.Namespace:
    """Returns the options of a map. An unknown option is a mistake."""
    words = map_words(asked)
    with contextlib.redirect_stderr(io.StringIO()) as said:
        try:
            args = cli.parser(words).parse_args([*words, "--jobs=1", "--quiet"])
        except SystemExit as ended:
            raise Mistake(said.getvalue().strip().split("\n")[-1]) from ended
    args.words = words
    return args


def map_text(asked: Asked) -> str:
    args = map_args(asked)
    args.program = asked.program.path
    return heatmap.picture_of(args, asked.scenario())


def map_task(asked: Asked) -> Answer:
    """Returns a map for the page. It is drawn in the page's font, since the page accepts no other style."""
    svg = map_text(asked).replace(f' style="{FONT}"', "", 1)
    return {"svg": svg, "command": shlex.join(["nooks-bench", *map_words(asked)])}


def open_task(asked: Asked) -> Answer:
    """Returns the texts of a scenario, each driver's in a separate file, and hashes that identify the files as they
    are."""
    return opened(asked.folder, asked.file)


def free_name(folder: Folder, stem: str, ending: str) -> str:
    """Returns a name that no file has."""
    names = (f"{stem}{'' if number == 1 else f'-{number}'}{ending}" for number in range(1, 1000))
    return next((name for name in names if not folder.exists(name)), f"{stem}-new{ending}")


def text_of(text: str, known: str | None) -> dict[str, Any]:
    """Returns a text, a hash that identifies the file as it is (empty if there is none), and whether the text is
    saved."""
    return {"text": text, "was": "" if known is None else digest_of(known), "saved": text == known}


def opened(folder: Folder, file: str) -> Answer:
    """Returns the texts of a scenario's file: its own, and those of its drivers. A text that is not a scenario is
    opened alone, so that it can be fixed."""
    text = folder.read(file)
    parent, _, name = file.rpartition("/")
    stem = os.path.splitext(name)[0]
    prefix = f"{parent}/" if parent else ""
    taken: dict[str, str] = {}

    def name_of(asm: str) -> str:
        """Returns the file of a text: one that has it already, or a new one."""
        if asm not in taken:
            first = f"{prefix}{stem}{'' if not taken else f'-driver-{len(taken) + 1}'}"
            known = f"{first}.asm"
            is_same = folder.exists(known) and folder.read(known) == asm
            taken[asm] = known if is_same else free_name(folder, first, ".asm")
        return taken[asm]

    try:
        changed, made = with_files(text, file, name_of)
        named = named_files(Reader(changed, file).whole())
    except Mistake:
        return {"file": file, "texts": {file: text_of(text, text)}}
    scenario = file
    if made and not file.endswith(".jsonc"):
        scenario = free_name(folder, f"{prefix}{stem}", ".jsonc")
    texts = {scenario: text_of(changed, text if scenario == file else None)}
    for each in named:
        path = os.path.normpath(os.path.join(parent, each))
        with contextlib.suppress(Outside):
            known = folder.read(path) if folder.exists(path) else None
            texts[path] = text_of(made.get(path, "") if known is None else known, known)
    return {"file": scenario, "texts": texts}


def make_task(asked: Asked) -> Answer:
    """Returns the text of a file that is made from the scenario."""
    makes = asked.given.get("makes")
    if not isinstance(makes, str) or makes not in MAKERS:
        raise Mistake(f"nothing is called {makes!r} that is made of a scenario")
    return {"text": MAKERS[makes](asked)}


def exact_text(asked: Asked) -> str:
    return json_text(asked.scenario()) + "\n"


def report_text(asked: Asked) -> str:
    scenario = asked.scenario()
    return asked.program.guard(scenario) if asked.guard else asked.program.report(scenario)


def guarded_text(asked: Asked) -> str:
    return json_text(guarded_scenario(asked.program, asked.scenario())) + "\n"


def page_file(asked: Asked) -> str:
    return page_text(page_data_of(asked, DEFAULT_TRACES))


# What can be made from a scenario as a file.
MAKERS: dict[str, Callable[[Asked], str]] = {
    "exact": exact_text, "report": report_text, "guarded": guarded_text, "page": page_file, "map": map_text,
}

TASKS: dict[str, Callable[[Asked], Answer]] = {
    "run": run_task, "check": check_task, "place": fault_task, "schedule": schedule_task, "explore": explore_task,
    "map": map_task, "open": open_task, "make": make_task,
}


def refusal(mistake: Mistake, asked: Asked | None) -> Answer:
    """Returns a mistake as the page shows it, in the words of `explain`, with its position if it has one."""
    if isinstance(mistake, Misplaced):
        position = mistake.position
        return {"text": str(mistake), "file": position.file, "line": position.line, "column": position.column}
    if isinstance(mistake, Refusal) and asked is not None:
        explained = explain_fault(parse_fault(mistake.line), built(asked.file, asked.text, asked.read))
        position = explained.position
        return {"text": str(explained), "file": position.file, "line": position.line, "column": position.column}
    return {"text": str(mistake)}


def answer(given: dict[str, Any]) -> Answer:
    """Does the task of a request, and returns what it made or why it was refused."""
    asked = None
    try:
        asked = Asked(Program(given["program"]), Folder(given["folder"]), given)
        return {"made": TASKS[given["task"]](asked)}
    except Mistake as mistake:
        return {"refused": refusal(mistake, asked)}
    except MemoryError:
        return {"refused": {"text": f"this needs more than the {MOST_MEMORY >> 30} GB of memory that a run may take"}}
    except RecursionError:
        return {"refused": {"text": "lists and objects are nested too deeply"}}


def end_with_server() -> None:
    """Ends this process, with all that it started, when standard input is closed."""
    os.read(0, 1)
    os.killpg(os.getpgrp(), signal.SIGKILL)


def limit() -> None:
    """Limits what the process, and each that it starts, may use."""
    limits = {resource.RLIMIT_AS: MOST_MEMORY, resource.RLIMIT_FSIZE: MOST_WRITTEN, resource.RLIMIT_CORE: 0}
    for what, most in limits.items():
        hard = resource.getrlimit(what)[1]
        resource.setrlimit(what, (most, hard) if hard == resource.RLIM_INFINITY else (min(most, hard), hard))


def read_line() -> bytes:
    """Reads the line of standard input, and nothing after it."""
    found = bytearray()
    while not found.endswith(b"\n"):
        more = os.read(0, 1 << 16)
        if not more:
            sys.exit(1)
        found += more
    return bytes(found)


def main() -> None:
    limit()
    given = json.loads(read_line())
    threading.Thread(target=end_with_server, daemon=True).start()
    sys.stdout.write(json.dumps(answer(given)))
    sys.stdout.flush()
    os._exit(0)
