"""The tables of an experiment."""

from __future__ import annotations

from typing import Any, Sequence

from .columns import Row
from .inject_counts import ENDINGS, WAIT_NAMES, share_text
from .inject_found import CONTRACT, MEANS, SYSTEM

# The columns of shares of the failures: their names in a file, and in a table.
SHARES = {"in_time": "in time, %", "late": "late, %", "silent": "silent, %"}


def count_text(number: int) -> str:
    return f"{number}" if number else "."


def ending_rows(counts: Sequence[dict[str, Any]]) -> list[Row]:
    """A row a kind: how its trials ended, and the shares of those in which the faults had an effect."""
    head = ["kind", "trials", "mutants", *ENDINGS, "failures", *SHARES.values()]
    rows = [head]
    for each in counts:
        mutants = f"{each['used']} of {each['mutants']}"
        endings = [count_text(each["endings"][name]) for name in ENDINGS]
        shares = [share_text(each["percent"][name]) for name in SHARES]
        trials = f"all {each['trials']}" if each["whole"] else str(each["trials"])
        rows.append([each["kind"], trials, mutants, *endings, str(each["failures"]), *shares])
    return rows


def question_rows(counts: dict[str, Any], cells: dict[str, dict[str, int]]) -> list[Row]:
    """What the system saw, downwards, against what the contract saw before, across."""
    rows = [["the system saw", *CONTRACT, "all"]]
    for name in SYSTEM:
        row = [count_text(cells[name][each]) for each in CONTRACT]
        rows.append([name, *row, count_text(counts["system"][name])])
    rows.append(["all", *(count_text(counts["contract"][each]) for each in CONTRACT), str(counts["trials"])])
    return rows


def means_rows(named: dict[str, dict[str, Any]], first: str) -> list[Row]:
    """A row a name: by which means the drivers were stopped first."""
    rows = [[first, "stopped", *MEANS]]
    for name, each in named.items():
        rows.append([name, str(each["stopped"]), *(count_text(each["means"][means]) for means in MEANS)])
    return rows


def wait_rows(named: dict[str, dict[str, Any]], first: str) -> list[Row]:
    """A row a name: how many bursts after the strike the drivers were stopped."""
    rows = [[first, "stopped", *WAIT_NAMES]]
    for name, each in named.items():
        rows.append([name, str(each["stopped"]), *(count_text(each["waits"][wait]) for wait in WAIT_NAMES)])
    return rows
