"""A driver's source by address: the lines of its assembler text with their labels, or the words of its image."""

from __future__ import annotations

import json
import re
from dataclasses import dataclass, field
from typing import Any

from .program import Program

WORD = re.compile(r"(\d+) ([0-9a-f]{8}) (\d+) (.*)")
NAMED = re.compile(r"(label|entry) (\w+) (\d+)")
ENTRY = re.compile(r"\.entry (\w+) (\d+)")


@dataclass
class Source:
    """What is known about a driver's words, by address. `lines` has the line of the text that made the word, with its
    number; it is empty for an image. `names` has the labels and entries at an address."""

    words: dict[int, str] = field(default_factory=dict)
    lines: dict[int, tuple[int, str]] = field(default_factory=dict)
    names: dict[int, list[str]] = field(default_factory=dict)

    def name(self, address: int, text: str) -> None:
        known = self.names.setdefault(address, [])
        if text not in known:
            known.append(text)

    def shown_names(self, address: int) -> list[str]:
        """Returns the names at an address that its line does not show."""
        line = self.lines.get(address, (0, ""))[1].split(";")[0]
        return [name for name in self.names.get(address, []) if not re.search(rf"\b{re.escape(name)}:", line)]

    def near(self, address: int) -> str:
        """Returns the last name at or before an address, with the distance, as in `wword+2`."""
        starts = [start for start in self.names if start <= address]
        if not starts:
            return ""
        start = max(starts)
        return self.names[start][0] + (f"+{address - start}" if address > start else "")


def of_text(program: Program, text: str) -> Source:
    """Returns the source of an assembler text, from the program's listing."""
    source = Source()
    lines = text.split("\n")
    entries: list[tuple[int, str]] = []
    for line in program.answer(["list"], text).out.split("\n"):
        if found := WORD.fullmatch(line):
            at, number = int(found[1]), int(found[3])
            source.words[at] = found[4]
            source.lines[at] = (number, lines[number - 1].rstrip())
        elif found := NAMED.fullmatch(line):
            if found[1] == "label":
                source.name(int(found[3]), found[2])
            else:
                entries.append((int(found[3]), found[2]))
    for at, name in entries:
        if at not in source.names:
            source.name(at, name)
    return source


def of_image(program: Program, driver: dict[str, Any]) -> Source:
    """Returns the source of an image: its words as `dis` prints them, and its entries."""
    source = Source()
    source.words = dict(enumerate(program.listing(driver)))
    for line in program.answer(["dis"], json.dumps(driver["image"])).out.split("\n"):
        if found := ENTRY.fullmatch(line):
            source.name(int(found[2]), found[1])
    return source


def source_of(program: Program, driver: dict[str, Any]) -> Source:
    return of_text(program, driver["asm"]) if "asm" in driver else of_image(program, driver)
