"""The traps of a guard in words: which deed each one stopped, and which clause that deed would have broken.

The lines of `guard` have the burst, the instruction and the clause. The deed itself never happens in the guarded run,
so no report of it has the deed: it is in the trace of that burst in the scenario that has only the traps before."""

from __future__ import annotations

import json
import re
from dataclasses import replace

from .program import Mistake, Program
from .report import GuardTrap, Report, parse_report
from .scenario import Scenario, with_traps
from .trace_text import Trace, parse_trace
from .words import CLAUSES, short

CROSSING = re.compile(r"n\d+ (.*?)(?: \| .*?)?(?: -> (.*?))?(?: ! .*)?")


def crossing_text(end: str) -> str:
    """The reply, or the call that handed a frame up, with which a burst ended: by the last line of its trace."""
    found = CROSSING.fullmatch(end)
    crossing, answer = (found[1], found[2]) if found else (end, None)
    return short(f"{crossing} -> {answer}" if answer else crossing)


def deed_text(trace: Trace, after: int) -> str:
    """What a driver does in the instruction of a burst that comes after `after` others."""
    executed = next((each for each in trace.executed() if each.number == after + 1), None)
    if executed is None:
        burst = f"burst {trace.burst} of part {trace.part}"
        raise Mistake(f"{burst}has no instruction {after + 1}: the traps are of another scenario")
    return short(executed.acts[0]) if executed.acts else crossing_text(trace.end)


def deed_of(program: Program, scenario: Scenario, traps: list[GuardTrap], index: int) -> str:
    """The deed that a trap stopped, by the run with the traps before it."""
    trap = traps[index]
    earlier = with_traps(scenario, traps[:index])
    words = ["trace", str(trap.part), str(trap.burst)]
    return deed_text(parse_trace(program.answer(words, json.dumps(earlier)).out), trap.after)


def with_deeds(program: Program, scenario: Scenario, report: Report) -> Report:
    """The report of a guarded run, each trap with its deed."""
    traps = report.guards
    report.guards = [replace(trap, deed=deed_of(program, scenario, traps, index)) for index, trap in enumerate(traps)]
    for part in report.parts:
        part.guards = {trap.burst: trap for trap in report.guards if trap.part == part.index}
    return report


def guarded(program: Program, scenario: Scenario) -> Report:
    """The report of a scenario's guarded run, each trap with its deed."""
    return with_deeds(program, scenario, parse_report(program.guard(scenario)))


def guarded_scenario(program: Program, scenario: Scenario) -> Scenario:
    """The scenario whose run the guarded run is."""
    made: Scenario = json.loads(program.answer(["guard", "scenario"], json.dumps(scenario)).out)
    return made


def would_have(trap: GuardTrap) -> str:
    """What the driver would have done that broke its contract, and by which deed, in the words of a report."""
    by_deed = f'by "{trap.deed}" ' if trap.deed else ""
    return f"{by_deed}it would have {CLAUSES[trap.clause]} (clause {trap.clause})"


def stopped_line(trap: GuardTrap, event: int, work: str = "") -> str:
    """A line that says what a guard stopped at an event, and what the driver was doing."""
    position = f"event {event}, burst {trap.burst}, before instruction {trap.after + 1}"
    return f"stopped by the guard at {position}{', in ' if work else ''}{work}: {would_have(trap)}"
