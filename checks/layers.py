"""What crates.txt says of the crates: the line of each, which crates it uses, and what it is."""

from __future__ import annotations

import sys
from pathlib import Path

TOP = Path(__file__).resolve().parent.parent
CRATES = TOP / "crates"

# What a crate may be (docs/ARCHITECTURE.md): a layer with its own view, laws over definitions, worked cases and tests, or
# separate only for the build.
MARKS = ("layer", "law", "cases", "build")

# The crates that print, or read what is printed, by way of report_text. What simulates, judges or searches is not among them.
PRINTERS = (
    "turn_trace", "burst_trace", "campaign_rows", "fault_campaign", "explored_text", "journal_audit", "nooks", "nooks_main",
    "answer_laws", "run_cases", "nooks_cases",
)


def lines_of_crates() -> dict[str, str]:
    """The line of each crate in crates.txt, by its name, without the mark after it."""
    marks()
    return {name: line for name, line, _ in split_lines()}


def split_lines() -> list[tuple[str, str, str]]:
    """The lines of crates.txt that name a crate: its name, the line, and the comment after it."""
    lines = (TOP / "crates.txt").read_text(encoding="utf-8").splitlines()
    pieces = [line.partition("#") for line in lines]
    return [(line.partition(":")[0].split()[0], line.rstrip(), note.strip()) for line, _, note in pieces if ":" in line]


def marks() -> dict[str, str]:
    """What each crate is, by its name. A line without a mark is refused."""
    found = {name: note for name, _, note in split_lines()}
    for name, note in found.items():
        if note not in MARKS:
            sys.exit(f"crates.txt: the line of {name} has {note!r} at its end, and must have # and one of {', '.join(MARKS)}")
    return found


def below_each(lines: dict[str, str]) -> dict[str, list[str]]:
    """The repository's own libraries that each crate names in crates.txt."""
    return {name: [low for low in line.partition(":")[2].split() if low in lines] for name, line in lines.items()}


def all_below(crate: str, below: dict[str, list[str]]) -> set[str]:
    """The crates that a crate uses, directly or not; itself left out."""
    found: set[str] = set()
    more = list(below[crate])
    while more:
        name = more.pop()
        if name not in found:
            found.add(name)
            more += below[name]
    return found


def simulating_on_printing() -> list[str]:
    """The crates that use report_text, directly or not, and are not among PRINTERS."""
    below = below_each(lines_of_crates())
    return [name for name in below if name not in PRINTERS and "report_text" in all_below(name, below)]


def size(crate: str) -> int:
    """The bytes of a crate's code, by which the time of its proof is estimated."""
    return sum(it.stat().st_size for it in (CRATES / crate / "src").rglob("*") if it.is_file())
