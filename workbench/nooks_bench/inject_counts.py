"""What became of the trials of a kind, counted: for tables, figures and files."""

from __future__ import annotations

from collections import Counter
from dataclasses import dataclass, field
from typing import Any, Iterable, Sequence

from .inject_found import (BROKEN, BROKEN_FIRST, BROKEN_LATER, CONTRACT, GIVEN_UP, KEPT, LOSSES, MEANS, NOTHING,
                           RECOVERED, SYSTEM, Found)
from .inject_trials import Population, Trial
from .totals import wilson

# How a trial ended, by what the system and the contract saw together, from the mildest to the worst.
NOT_EXECUTED = "not executed"
NO_EFFECT = "no effect"
OTHER = "other answers"
IN_TIME = "recovered"
IN_TIME_LOSSES = "with losses"
GIVEN_UP_KEPT = "given up"
LATE = "broken, then stopped"
LATER = "stopped, later broken"
SILENT = "silent"
ENDINGS = (NOT_EXECUTED, NO_EFFECT, OTHER, IN_TIME, IN_TIME_LOSSES, GIVEN_UP_KEPT, LATE, LATER, SILENT)

# Those in which a fault had an effect.
FAILURES = ENDINGS[2:]

STOPPED_KEPT = {RECOVERED: IN_TIME, LOSSES: IN_TIME_LOSSES, GIVEN_UP: GIVEN_UP_KEPT}
OF_CONTRACT = {BROKEN: SILENT, BROKEN_FIRST: LATE, BROKEN_LATER: LATER}

# The ends, in bursts, of the classes by which the time to a stop is counted; one more class has all longer times.
WAITS = (0, 1, 5, 20)


def ending_of(found: Found) -> str:
    """How a trial ended."""
    if found.contract != KEPT:
        return OF_CONTRACT[found.contract]
    if found.system != NOTHING:
        return STOPPED_KEPT[found.system]
    if found.has_effect:
        return OTHER
    return NO_EFFECT if found.executed else NOT_EXECUTED


def wait_name(wait: int) -> str:
    """The name of the class of a number of bursts."""
    start = 0
    for end in WAITS:
        if wait <= end:
            return str(end) if start == end else f"{start} to {end}"
        start = end + 1
    return f"over {WAITS[-1]}"


WAIT_NAMES = tuple(wait_name(each) for each in (0, 1, 2, 6, 21))


@dataclass
class Counts:
    """The trials of one kind, or of several, under one limit. `mutants` counts those of the kind, `used` those that
    were in a trial. `is_whole` says that no more trials are possible, so that nothing was drawn."""

    kind: str
    limit: int
    guard: bool
    mutants: int
    used: int
    is_whole: bool
    trials: int = 0
    endings: Counter[str] = field(default_factory=Counter)
    system: Counter[str] = field(default_factory=Counter)
    contract: Counter[str] = field(default_factory=Counter)
    means: Counter[str] = field(default_factory=Counter)
    waits: Counter[str] = field(default_factory=Counter)
    clauses: Counter[int] = field(default_factory=Counter)
    other_answers: int = 0
    other_left: int = 0
    silent_seen: int = 0

    def take(self, found: Found) -> None:
        """Counts one more trial."""
        ending = ending_of(found)
        self.trials += 1
        self.endings[ending] += 1
        self.system[found.system] += 1
        self.contract[found.contract] += 1
        self.other_answers += not found.same_answers
        self.other_left += not found.same_left
        self.silent_seen += ending == SILENT and not found.same_answers
        if found.clause is not None:
            self.clauses[found.clause] += 1
        if found.wait is not None:
            self.means[found.means] += 1
            self.waits[wait_name(found.wait)] += 1

    @property
    def failures(self) -> int:
        """The trials in which the faults had an effect."""
        return sum(self.endings[name] for name in FAILURES)

    def count(self, *names: str) -> int:
        return sum(self.endings[name] for name in names)

    @property
    def in_time(self) -> int:
        """The trials that were stopped before the contract was broken, and recovered."""
        return self.count(IN_TIME, IN_TIME_LOSSES)

    @property
    def stopped(self) -> int:
        return self.trials - self.system[NOTHING]

    def as_json(self) -> dict[str, Any]:
        """The counts, with the shares of the failures in per cent and their intervals."""
        shares = {"in_time": self.in_time, "late": self.count(LATE, LATER), "silent": self.count(SILENT),
                  "given_up": self.count(GIVEN_UP_KEPT)}
        return {
            "kind": self.kind,
            "limit": self.limit,
            "guard": self.guard,
            "mutants": self.mutants,
            "used": self.used,
            "whole": self.is_whole,
            "trials": self.trials,
            "failures": self.failures,
            "stopped": self.stopped,
            "endings": {name: self.endings[name] for name in ENDINGS},
            "system": {name: self.system[name] for name in SYSTEM},
            "contract": {name: self.contract[name] for name in CONTRACT},
            "means": {name: self.means[name] for name in MEANS},
            "waits": {name: self.waits[name] for name in WAIT_NAMES},
            "clauses": {str(name): count for name, count in sorted(self.clauses.items())},
            "other_answers": self.other_answers,
            "other_left": self.other_left,
            "silent_seen": self.silent_seen,
            "percent": {name: share_of(count, self.failures, self.is_whole) for name, count in shares.items()},
        }


def share_of(count: int, whole: int, is_whole: bool) -> list[int] | None:
    """A share in whole per cent, with the ends of its interval if trials were drawn; None if there are no trials."""
    if not whole:
        return None
    if is_whole:
        return [round(100 * count / whole)]
    return [round(100 * each) for each in (count / whole, *wilson(count, whole))]


def share_text(share: list[int] | None) -> str:
    """A share as tables have it: `43 [38, 48]`."""
    if share is None:
        return "-"
    return f"{share[0]} [{share[1]}, {share[2]}]" if len(share) == 3 else str(share[0])


def used_of(trials: Iterable[Trial]) -> int:
    """How many different mutants some trials have."""
    return len({(mutant.kind, mutant.address, mutant.word) for trial in trials for mutant in trial.mutants})


def counts_of(population: Population, results: Sequence[dict[int, Found]], limit: int, guard: bool) -> Counts:
    """The counts of one kind under one limit."""
    used = used_of(population.trials)
    counts = Counts(population.kind, limit, guard, population.mutants, used, population.is_whole)
    for result in results:
        counts.take(result[limit])
    return counts


def together(several: Sequence[Counts], kind: str) -> Counts:
    """Several kinds as one. If the trials of any kind were drawn, the shares of all of them have intervals."""
    first = several[0]
    whole = all(each.is_whole for each in several)
    mutants, used = sum(each.mutants for each in several), sum(each.used for each in several)
    counts = Counts(kind, first.limit, first.guard, mutants, used, whole)
    for each in several:
        counts.trials += each.trials
        counts.other_answers += each.other_answers
        counts.other_left += each.other_left
        counts.silent_seen += each.silent_seen
        for name in ("endings", "system", "contract", "means", "waits", "clauses"):
            getattr(counts, name).update(getattr(each, name))
    return counts
