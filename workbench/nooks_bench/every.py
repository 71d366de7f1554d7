"""Runs a sweep's whole selection as one campaign: the key `every` has the faults without a position, and the program
tries each of them at every position of the struck part's run (docs/CAMPAIGN.md). The positions are those of the base's
report."""

from __future__ import annotations

import json
import re
from dataclasses import dataclass
from typing import Any, Generator, Iterator, Sequence

from .batches import is_base
from .faults import Selection
from .outcomes import MISSED, Judge, Outcome, Row, parse_row
from .program import Mistake, Program, Refusal
from .scenario import Fault, Scenario

KEY = "every"

# The most faults of the list.
MOST_KINDS = 64

LAST = re.compile(r"campaign (\d+) kept (\d+) given_up (\d+) broken (\d+)(?: traps (\d+))?")


@dataclass(frozen=True)
class Whole:
    """The counts of the last line of such a table, and the status of the base's own row."""

    base_status: int
    members: int
    kept: int
    given_up: int
    broken: int
    traps: int | None

    @property
    def all_kept(self) -> bool:
        """Whether each run, including that of the base, ended with status 0. Then no run with one of these faults, at
        any burst and instruction, has another status."""
        return self.base_status == 0 and self.kept == self.members

    def as_json(self) -> dict[str, Any]:
        return {**vars(self), "all_kept": self.all_kept}


def is_whole(selection: Selection, kinds: Sequence[Fault]) -> bool:
    """Whether a selection is every instruction of all calls' bursts. `every` has these, and the shadow's bursts too."""
    named = (selection.bursts, selection.call, selection.random)
    is_all = named == (None, None, None) and selection.every == 1 and not selection.at_acts
    return is_all and len(kinds) <= MOST_KINDS


@dataclass
class Every:
    """A campaign with `every` over a base. `judge` is that of the base's run, which is guarded if the campaign is."""

    program: Program
    base: Scenario
    part: int
    judge: Judge
    kinds: list[Fault]
    guarded: bool = False
    whole: Whole | None = None

    def campaign(self) -> dict[str, Any]:
        asked: dict[str, Any] = {"base": self.base, "part": self.part, KEY: self.kinds, "detail": True}
        return {**asked, "guard": True} if self.guarded else asked

    def faults(self) -> Iterator[Fault]:
        """The fault of each row after that of the base, in order."""
        for event in self.judge.base.parts[self.part].bursts():
            for after in range(self.judge.reach(event)):
                yield from ({"burst": event.burst, "after": after, **kind} for kind in self.kinds)

    def rows(self) -> Iterator[tuple[Fault, Row]]:
        """Each fault with its row, as soon as the program has written it."""
        lines = self.program.lines(["campaign"], json.dumps(self.campaign()))
        first = next(lines, "")
        if first.startswith("fault "):
            raise Refusal(first)
        base = parse_row(first)
        if base != self.judge.base_row:
            raise Mistake(f"row 0 of the table is none of the base's run: {first!r}")
        for fault in self.faults():
            yield fault, parse_row(next(lines, ""))
        last = LAST.fullmatch(next(lines, ""))
        if last is None:
            raise Mistake("the table has no last line where one is due")
        members, kept, given_up, broken = (int(last[group]) for group in (1, 2, 3, 4))
        self.whole = Whole(base.status, members, kept, given_up, broken, int(last[5]) if last[5] else None)

    def outcomes(self, faults: Sequence[Fault]) -> Generator[Outcome | None, None, None]:
        """What became of each fault of a sweep, in their order; None if the row does not have all of it."""
        rows = self.rows()
        for fault in faults:
            if self.judge.strikes(fault):
                yield next(self.judge.by_row(fault, row) for struck, row in rows if struck == fault)
            else:
                yield Outcome(MISSED)
        for _ in rows:
            pass


def can_say(program: Program, selection: Selection, kinds: Sequence[Fault], bases: Sequence[Scenario]) -> bool:
    """Whether campaigns of the program can express a selection over some bases by `every`."""
    whole = is_whole(selection, kinds) and all(is_base(base, selection.part) for base in bases)
    return whole and program.has_campaign_key(KEY) and program.has_campaign_key("detail")
