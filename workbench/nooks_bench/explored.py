"""What `explore` reports of a scenario: how its run can end, and an order of steps for each end."""

from __future__ import annotations

import json
import re
from dataclasses import dataclass

from .facts import STATUSES
from .outcomes import Row
from .program import REPORTED, Mistake, Program
from .scenario import Scenario

FORM = "explore"

# The status of an exploration that did not follow every order.
INCOMPLETE = STATUSES["cut"]
ANSWERS = (*REPORTED, INCOMPLETE)

# The ends of the version lines of programs of which nothing is proved, and what such a program is called.
UNPROVED = {
    " plain, nothing proved": "the plain program, of which nothing is proved",
    " unproved": "the program, built without proofs",
}

ROW = re.compile(r"(\d+) status (\d+) events (\d+) failures (\d+) gone (\d+) lost (\d+) picks \[([\d,]*)\]")
LAST = re.compile(r"explored (front )?(\d+) states (\d+) outcomes kept (\d+) given_up (\d+) broken (\d+)")

Picks = tuple[int, ...]


@dataclass(frozen=True)
class Found:
    """One way in which the run can end: the numbers of a campaign's row, and the actors of the steps of such a run."""

    row: Row
    picks: Picks


@dataclass(frozen=True)
class Explored:
    """The answer of `explore`. `is_prefix` says that there are more states than it can hold, and that not every order
    was followed."""

    found: list[Found]
    states: int
    is_prefix: bool


def parse_row(line: str) -> Found:
    """The outcome of a row."""
    words = ROW.fullmatch(line)
    if not words:
        raise Mistake(f"no row of an exploration: {line[:80]!r}")
    status, events, failures, gone, lost = (int(words[group]) for group in range(2, 7))
    picks = tuple(int(word) for word in words[7].split(",") if word)
    return Found(Row(status, events, failures, gone, lost), picks)


def parse_explored(text: str) -> Explored:
    """The rows and the last line of an exploration."""
    *lines, last = text.rstrip("\n").split("\n")
    words = LAST.fullmatch(last)
    if not words:
        raise Mistake(f"no last line of an exploration: {last[:80]!r}")
    found = [parse_row(line) for line in lines]
    if len(found) != int(words[3]):
        raise Mistake(f"{len(found)} rows of an exploration, and it counts {words[3]}")
    return Explored(found, int(words[2]), words[1] is not None)


def name_of(program: Program) -> str:
    """Returns what a program is called; if nothing is proved of it, as it says itself, the name says so."""
    version = program.version() or ""
    return next((name for end, name in UNPROVED.items() if version.endswith(end)), "the program")


def explored(program: Program, scenario: Scenario) -> Explored:
    """Follows every order of the steps of a scenario."""
    return parse_explored(program.answer([FORM], json.dumps(scenario), ANSWERS).out)
