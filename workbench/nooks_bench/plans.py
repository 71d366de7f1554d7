"""What a sweep will run: the report and the faults of each base."""

from __future__ import annotations

import functools
import time
from dataclasses import dataclass, replace
from typing import Iterator, Sequence

from .batches import Asking, Batch, report_of
from .chosen import faults_of
from .faults import Selection
from .outcomes import Outcome
from .pool import each_done
from .probe import Probe
from .program import Mistake, Program
from .report import Report, parse_report
from .scenario import Fault, Scenario


@dataclass(frozen=True)
class Plan:
    """A base with its report, the time that its run took, and the faults of its sweep. `first` is the index of its
    first fault in the whole sweep. `guarded` is the report of its guarded run, if a guard was requested."""

    base: Scenario
    report: Report
    seconds: float
    faults: list[Fault]
    first: int = 0
    guarded: Report | None = None


def plan_of(path: str, selection: Selection, guard: bool, base: Scenario) -> Plan:
    program = Program(path)
    begun = time.monotonic()
    text = program.report(base)
    seconds = time.monotonic() - begun
    report = parse_report(text)
    if selection.part >= len(report.parts):
        raise Mistake(f"there is no part {selection.part}: the scenario has {len(report.parts)}")
    guarded = report_of(program, base, guarded=True) if guard else None
    part = report.parts[selection.part]
    faults = faults_of(selection, part, Probe(program, base, selection.part))
    return Plan(base, report, seconds, faults, guarded=guarded)


def plans_of(
    path: str, selection: Selection, bases: Sequence[Scenario], jobs: int, guard: bool = False
) -> list[Plan]:
    """Returns the plans of all bases, in order."""
    found = dict(each_done(functools.partial(plan_of, path, selection, guard), bases, jobs))
    plans: list[Plan] = []
    first = 0
    for number in range(len(bases)):
        plans.append(replace(found[number], first=first))
        first += len(plans[-1].faults)
    return plans


def gaps(known: Sequence[Outcome | None], first: int, end: int) -> Iterator[tuple[int, int]]:
    """Yields the ranges of indices between `first` and `end` with no known outcome."""
    start = first
    while start < end:
        if known[start] is not None:
            start += 1
            continue
        stop = start
        while stop < end and known[stop] is None:
            stop += 1
        yield start, stop
        start = stop


def batches_of(
    plans: Sequence[Plan], part: int, known: Sequence[Outcome | None], size: int, asking: Asking = Asking()
) -> list[Batch]:
    """Returns the faults with no known outcome, in batches of at most `size`. A batch has the index in `known` of its
    first fault."""
    batches: list[Batch] = []
    for number, plan in enumerate(plans):
        for start, stop in gaps(known, plan.first, plan.first + len(plan.faults)):
            for at in range(start, stop, size):
                faults = plan.faults[at - plan.first : min(at + size, stop) - plan.first]
                batches.append(Batch(plan.base, part, tuple(faults), at, number, asking))
    return batches
