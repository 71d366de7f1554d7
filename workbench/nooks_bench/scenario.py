"""Scenarios as values: reading them, and copies with more faults, another schedule or another limit."""

from __future__ import annotations

import copy
from typing import Any, Iterable

from .build import built
from .program import Mistake
from .report import GuardTrap

Scenario = dict[str, Any]
Fault = dict[str, Any]


def read_scenario(file: str) -> Scenario:
    """Reads the scenario of a file, which is exact JSON or as `build` takes it."""
    value = built(file).plain()
    if not isinstance(value, dict) or not isinstance(value.get("parts"), list):
        is_campaign = isinstance(value, dict) and "base" in value
        raise Mistake(f"{file} is " + ("a campaign: its base is the scenario" if is_campaign else "no scenario"))
    return value


def with_faults(scenario: Scenario, part: int, faults: list[Fault]) -> Scenario:
    """Returns the scenario with faults added after a part's own."""
    struck = dict(scenario["parts"][part])
    struck["faults"] = [*struck.get("faults", []), *faults]
    parts = list(scenario["parts"])
    parts[part] = struck
    return {**scenario, "parts": parts}


def with_traps(scenario: Scenario, traps: Iterable[GuardTrap]) -> Scenario:
    """Returns the scenario with the traps of a guard added after its parts' own faults."""
    for trap in traps:
        fault = {"burst": trap.burst, "after": trap.after, "kind": "trap"}
        scenario = with_faults(scenario, trap.part, [fault])
    return scenario


def with_schedule(scenario: Scenario, schedule: dict[str, Any]) -> Scenario:
    return {**scenario, "schedule": schedule}


def with_limit(scenario: Scenario, part: int, limit: int) -> Scenario:
    """Returns the scenario in which a part is recovered up to `limit` times."""
    changed = copy.deepcopy(scenario)
    changed["parts"][part]["limit"] = limit
    return changed


def operations(scenario: Scenario) -> int:
    """Returns how many operations all threads have together."""
    return sum(len(thread["ops"]) for thread in scenario["threads"])
