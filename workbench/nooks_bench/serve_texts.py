"""Changes to a scenario's text that keep the rest as it was written, including comments: another fault, another
schedule, and drivers whose text moves to a separate file."""

from __future__ import annotations

import json
from dataclasses import dataclass
from typing import Any, Callable

from .jsontext import json_text
from .program import Mistake
from .source import Node, Position, Reader

# The keys of a part after which its faults are written: the first of these that it has.
BEFORE_FAULTS = ("limit", "blocks", "class", "name")

# A scenario with a longer line than this is laid out again if it is exact JSON.
LONGEST_LINE = 200


@dataclass(frozen=True)
class Text:
    """A scenario's text, with the positions of the values in it."""

    text: str
    file: str

    def reader(self, at: int = 0) -> Reader:
        made = Reader(self.text, self.file)
        made.at = at
        return made

    def whole(self) -> Node:
        found = self.reader().whole()
        if not isinstance(found.value, dict):
            raise Mistake(f"{self.file}: a scenario is an object")
        return found

    def start(self, position: Position) -> int:
        """Returns the offset of a position."""
        starts = self.reader().starts
        return starts[position.line - 1] + position.column - 1

    def end(self, node: Node) -> int:
        """Returns the offset after a value."""
        reader = self.reader(self.start(node.position))
        reader.node(0)
        return reader.at

    def gap(self, position: Position) -> str:
        """Returns what comes before an item that follows the one at a position: a new line if that one begins its line,
        else a space."""
        before = self.text.split("\n")[position.line - 1][: position.column - 1]
        return " " if before.strip() else "\n" + before

    def changed(self, first: int, last: int, text: str) -> str:
        """Returns the text with the characters from offset `first` to before `last` replaced."""
        return self.text[:first] + text + self.text[last:]


def part_of(whole: Node, index: int) -> Node:
    """Returns the object of a part."""
    parts = whole.get("parts")
    items = parts.value if parts and isinstance(parts.value, list) else []
    if any(item.get("repeat") for item in items[: index + 1]):
        raise Mistake("the parts come from a repetition: write them out, and add the fault then")
    if index >= len(items) or not isinstance(items[index].value, dict):
        raise Mistake(f"the scenario has no part {index}")
    found: Node = items[index]
    return found


def with_fault(text: str, file: str, index: int, fault: dict[str, Any]) -> str:
    """Returns the text with a fault added after all faults of a part."""
    made = Text(text, file)
    part = part_of(made.whole(), index)
    written = json.dumps(fault)
    faults = part.get("faults")
    if faults is None:
        return with_key(made, part, BEFORE_FAULTS, "faults", f"[{written}]")
    if not isinstance(faults.value, list):
        raise Mistake(f"{faults.position}: the faults of part {index} are no list")
    if not faults.value:
        after = made.start(faults.position) + 1
        return made.changed(after, after, written)
    last = faults.value[-1]
    end = made.end(last)
    return made.changed(end, end, f",{made.gap(last.position)}{written}")


def with_key(made: Text, owner: Node, before: tuple[str, ...], key: str, written: str) -> str:
    """Returns the text with a key added: after the first of the keys `before` that it has, or else as the first one."""
    known = next((each for each in before if owner.get(each)), None)
    if known is None:
        first = made.start(owner.position) + 1
        comma = ", " if owner.value else ""
        return made.changed(first, first, f'"{key}": {written}{comma}')
    end = made.end(owner.value[known])
    return made.changed(end, end, f',{made.gap(owner.keys[known])}"{key}": {written}')


def with_schedule_text(text: str, file: str, schedule: dict[str, Any]) -> str:
    """Returns the text with another schedule."""
    made = Text(text, file)
    whole = made.whole()
    written = json.dumps(schedule)
    known = whole.get("schedule")
    if known is None:
        return with_key(made, whole, ("version",), "schedule", written)
    return made.changed(made.start(known.position), made.end(known), written)


def drivers_of(whole: Node) -> list[Node]:
    """Returns the objects of drivers, in the table or in parts."""
    table, parts = whole.get("drivers"), whole.get("parts")
    named = list(table.value.values()) if table and isinstance(table.value, dict) else []
    items = parts.value if parts and isinstance(parts.value, list) else []
    own = [item.get("driver") for item in items]
    return [each for each in [*named, *own] if each and isinstance(each.value, dict)]


def with_files(text: str, file: str, name_of: Callable[[str], str]) -> tuple[str, dict[str, str]]:
    """Returns the text in which drivers have their assembler text in files, and these files. `name_of` chooses the name
    of a text's file."""
    made = Text(text, file)
    files: dict[str, str] = {}
    pieces: list[tuple[int, int, str]] = []
    for driver in drivers_of(made.whole()):
        asm = driver.get("asm")
        if asm is None or not isinstance(asm.value, str):
            continue
        name = name_of(asm.value)
        files[name] = asm.value
        written = f'"asm_file": {json.dumps(name.rpartition("/")[2])}'
        pieces.append((made.start(driver.keys["asm"]), made.end(asm), written))
    for first, last, written in sorted(pieces, reverse=True):
        text = text[:first] + written + text[last:]
    return laid_out(text), files


def laid_out(text: str) -> str:
    """Lays a text with long lines out again, if it is exact JSON."""
    if max(map(len, text.split("\n"))) <= LONGEST_LINE:
        return text
    try:
        return json_text(json.loads(text)) + "\n"
    except ValueError:
        return text


def named_files(whole: Node) -> list[str]:
    """Returns the files that drivers name, each once."""
    found = [driver.get("asm_file") for driver in drivers_of(whole)]
    return list(dict.fromkeys(each.value for each in found if each and isinstance(each.value, str)))
