"""build: converts a scenario as people write it into the program's exact JSON."""

from __future__ import annotations

import argparse
import os
import sys
from dataclasses import dataclass
from typing import Callable

from .facts import SCHEDULES
from .jsontext import json_text
from .program import Mistake, Program, find_program
from .refused import MOST_BYTES, explain_fault, parse_fault
from .source import Misplaced, Node, read_source, read_text

# The most items of a repetition: as many as the longest list of a scenario may have.
MOST_REPEATED = SCHEDULES["listed"]["picks"].length[1]

ABOUT = """Writes the scenario of FILE (- is standard input) as the program reads it. FILE is JSON that may also
have: comments from // to the line's end; a comma after a last item; "notes" in any object, which are left out;
"asm_file": "PATH" in a driver, from the folder of FILE on; "drivers": {NAME: DRIVER} at the top, which a part
names by "driver": "NAME"; {"repeat": 16, "of": 7} in any list. A mistake is reported with file, line and column."""


@dataclass(frozen=True)
class Builder:
    """Builds one file. `folder` is the file's, `drivers` its table of drivers; `read` reads a file that it names."""

    folder: str
    drivers: dict[str, Node]
    read: Callable[[str], str]

    def value(self, node: Node, key: str = "") -> Node:
        """A value as the program reads it, with its position in the file."""
        if key == "driver":
            node = self.driver(node)
        if isinstance(node.value, dict):
            return self.object(node)
        if isinstance(node.value, list):
            return Node([item for each in node.value for item in self.items(each)], node.position)
        return node

    def object(self, node: Node) -> Node:
        values = {key: self.value(each, key) for key, each in node.value.items() if key != "notes"}
        return Node(values, node.position, node.keys)

    def driver(self, node: Node) -> Node:
        """A driver: looked up if it is a name of the table, with its text if that is in a file."""
        if isinstance(node.value, str):
            if node.value not in self.drivers:
                names = ", ".join(self.drivers) or "none"
                about = f"there is no driver {node.value!r} in the table of drivers; it has {names}"
                raise Misplaced(node.position, about)
            node = self.drivers[node.value]
        named = node.get("asm_file")
        if named is None:
            return node
        if not isinstance(named.value, str):
            raise Misplaced(named.position, "expected the path of a file")
        path = os.path.normpath(os.path.join(self.folder, named.value))
        try:
            text = self.read(path)
        except Mistake as error:
            raise Misplaced(named.position, str(error)) from error
        others = {key: each for key, each in node.value.items() if key != "asm_file"}
        return Node({**others, "asm": Node(text, named.position, origin=path)}, node.position, node.keys)

    def items(self, node: Node) -> list[Node]:
        """The items that an item of a list represents: itself, or a value several times."""
        if node.get("repeat") is None and node.get("of") is None:
            return [self.value(node)]
        times, each = node.get("repeat"), node.get("of")
        if times is None or each is None or len(node.value) != 2:
            raise Misplaced(node.position, 'a repetition is {"repeat": COUNT, "of": VALUE}, and nothing else')
        if type(times.value) is not int or not 0 <= times.value <= MOST_REPEATED:
            raise Misplaced(times.position, f"expected a count from 0 to {MOST_REPEATED}")
        return [self.value(each)] * times.value


def built(file: str, text: str | None = None, read: Callable[[str], str] = read_text) -> Node:
    """The scenario of a file, each value with its position. `read` reads a file that it names."""
    whole = read_source(file, text)
    if not isinstance(whole.value, dict):
        raise Misplaced(whole.position, "a scenario is an object")
    table = whole.get("drivers")
    if table is not None and not isinstance(table.value, dict):
        raise Misplaced(table.position, 'the table of drivers is {"NAME": DRIVER}')
    folder = os.path.dirname(file) if file != "-" else ""
    builder = Builder(folder, table.value if table else {}, read)
    values = {key: each for key, each in whole.value.items() if key != "drivers"}
    return builder.value(Node(values, whole.position, whole.keys))


def check(program: Program, node: Node, text: str) -> None:
    """Raises a mistake with its position if the program would refuse the scenario."""
    size = len(text.encode())
    if size > MOST_BYTES:
        raise Misplaced(
            node.position, f"the scenario has {size:,} bytes as the program reads it; it reads at most {MOST_BYTES:,}"
        )
    line = program.fault_of(text)
    if line is not None:
        explained = explain_fault(parse_fault(line), node)
        raise Misplaced(explained.position, explained.about)


def run(args: argparse.Namespace) -> int:
    node = built(args.file)
    text = json_text(node.plain()) + "\n"
    if not args.no_check:
        check(find_program(args.program), node, text)
    sys.stdout.write(text)
    return 0


def add_to(commands: argparse._SubParsersAction[argparse.ArgumentParser]) -> None:
    parser = commands.add_parser("build", help="write a scenario's exact JSON", description=ABOUT)
    parser.add_argument("file", metavar="FILE")
    parser.add_argument("--no-check", action="store_true", help="do not ask the program whether it takes the scenario")
    parser.set_defaults(run=run)
