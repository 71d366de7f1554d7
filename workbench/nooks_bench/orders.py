"""The outcomes of all orders of a scenario's steps, as a list of schedules to open on the served page."""

from __future__ import annotations

from typing import Any

from .explored import Found, explored
from .facts import STATUSES
from .program import Program
from .report import Report, parse_report
from .scenario import Scenario, with_schedule
from .words import CLAUSES, counted, short

# At most this many outcomes are shown with their answers, since each of these needs a run.
MOST_WITH_ANSWERS = 64


def schedule_of(found: Found) -> dict[str, Any]:
    """Returns a schedule that leads to an outcome."""
    return {"kind": "listed", "picks": list(found.picks)}


def broken_words(report: Report) -> list[str]:
    """Describes which contracts a run breaks."""
    return [f"{part.name} at event {part.broken[0]}, clause {part.broken[1]}: {CLAUSES[part.broken[1]]}"
            for part in report.parts if part.broken]


def answers_of(report: Report) -> dict[str, list[str]]:
    """Returns the answers of each thread, by its name."""
    return {thread.name: [short(answer) for _, answer in thread.answers] for thread in report.threads}


def other_answers(first: dict[str, list[str]], other: dict[str, list[str]]) -> list[str]:
    """Returns the answers of the threads whose answers differ from those of the first outcome."""
    return [f"{name}: {', '.join(answers)}" for name, answers in other.items() if answers != first.get(name)]


def head_words(found: Found) -> str:
    names = {STATUSES["done"]: "kept", STATUSES["given_up"]: "given up", STATUSES["contract_broken"]: "CONTRACT BROKEN"}
    row = found.row
    losses = f", {row.gone} gone, {row.lost} lost" if row.gone or row.lost else ""
    return f"{names.get(row.status, 'unknown')}: {counted(row.events, 'event')}, " \
           f"{counted(row.failures, 'failure')}{losses}"


def every_order(program: Program, scenario: Scenario) -> dict[str, Any]:
    """Describes each outcome, with its schedule."""
    table = explored(program, scenario)
    rows: list[dict[str, Any]] = []
    first: dict[str, list[str]] = {}
    for index, found in enumerate(table.found):
        about: list[str] = []
        if index < MOST_WITH_ANSWERS:
            report = parse_report(program.report(with_schedule(scenario, schedule_of(found))))
            answers = answers_of(report)
            first = first or answers
            about = [*broken_words(report), *other_answers(first, answers)]
        head, schedule = head_words(found), schedule_of(found)
        rows.append({"status": found.row.status, "head": head, "about": about, "schedule": schedule})
    whole = "not every order: there are too many states" if table.is_prefix else "every order"
    words = f"{whole}: {counted(len(rows), 'outcome')} of {counted(table.states, 'state')}"
    return {"rows": rows, "words": words, "whole": not table.is_prefix}
