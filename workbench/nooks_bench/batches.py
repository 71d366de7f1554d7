"""A sweep's work, split into batches. A batch is a campaign over some faults, and a run of each member whose row does
not say everything. A worker, here or on another machine, gets nothing but a batch."""

from __future__ import annotations

import json
from dataclasses import dataclass

from .facts import LIMITS
from .outcomes import Judge, Outcome, Row, judge_of, parse_row
from .program import Mistake, Program
from .report import Report, parse_report
from .scenario import Fault, Scenario, operations, with_faults

# The most operations of a campaign's base, and the most faults of its part.
MOST_OPERATIONS = LIMITS["MOST_CAMPAIGN_OPS"]
MOST_OWN_FAULTS = LIMITS["MOST_FAULTS"] - 1

Results = list[Outcome]


@dataclass(frozen=True)
class Asking:
    """How a batch is run: by a campaign first, with detail if the program has that, or only by the members' reports;
    and whether the runs are guarded. A row of a campaign does not say what a guard stopped."""

    by_rows: bool = True
    detail: bool = False
    guarded: bool = False


@dataclass(frozen=True)
class Batch:
    """Some faults of one base. `first` is the index of the first of them in the whole sweep, `number` that of the base
    among the sweep's bases."""

    base: Scenario
    part: int
    faults: tuple[Fault, ...]
    first: int
    number: int = 0
    asking: Asking = Asking()


def is_base(scenario: Scenario, part: int) -> bool:
    """Whether a scenario is small enough to be the base of a campaign."""
    own = scenario["parts"][part].get("faults", [])
    return operations(scenario) <= MOST_OPERATIONS and len(own) <= MOST_OWN_FAULTS


def rows_of(program: Program, batch: Batch) -> list[Row | None]:
    """The campaign's rows; None for each fault if the batch is run without a campaign."""
    asking = batch.asking
    if asking.guarded or not asking.by_rows or not is_base(batch.base, batch.part):
        return [None] * len(batch.faults)
    campaign = {"base": batch.base, "part": batch.part, "faults": list(batch.faults)}
    if asking.detail:
        campaign["detail"] = True
    lines = program.answer(["campaign"], json.dumps(campaign)).out.split("\n")
    rows = [parse_row(line) for line in lines if line and not line.startswith("campaign")]
    if len(rows) != len(batch.faults):
        raise Mistake(f"{len(batch.faults)} faults, and {len(rows)} rows")
    return list(rows)


def report_of(program: Program, scenario: Scenario, guarded: bool) -> Report:
    """The report of a scenario's run, or of its guarded run."""
    return parse_report(program.guard(scenario) if guarded else program.report(scenario))


def member_outcome(program: Program, judge: Judge, batch: Batch, fault: Fault) -> Outcome:
    """The outcome of one fault, from the report of its run."""
    member = with_faults(batch.base, batch.part, [fault])
    return judge.by_report(fault, report_of(program, member, batch.asking.guarded))


def outcomes_of(program: Program, base: Report, batch: Batch) -> Results:
    """The outcomes of a batch's faults, in order. Equal faults are run once."""
    judge = judge_of(base, batch.base, batch.part)
    by_report: dict[str, Outcome] = {}
    found: list[Outcome] = []
    for fault, row in zip(batch.faults, rows_of(program, batch)):
        outcome = judge.by_row(fault, row) if row else None
        if outcome is None:
            key = json.dumps(fault)
            if key not in by_report:
                by_report[key] = member_outcome(program, judge, batch, fault)
            outcome = by_report[key]
        found.append(outcome)
    return found


def run_batch(path: str, batch: Batch) -> Results:
    """Runs a batch, given only the program's path, as a worker on another machine does."""
    program = Program(path)
    base = report_of(program, batch.base, batch.asking.guarded)
    return outcomes_of(program, base, batch)
