"""The results of a sweep: an entry for each fault, grouped by base. The table, the totals and the maps are made from
them."""

from __future__ import annotations

from dataclasses import dataclass
from typing import Any

from .outcomes import NOTHING_LOST, SAME, Losses, Outcome
from .report import Report
from .scenario import Fault, Scenario


@dataclass(frozen=True)
class Entry:
    """A fault and its outcome. `losses` is what its run lost in addition to the run without it. `guarded` is the
    outcome with a guard, if one was requested."""

    fault: Fault
    outcome: str
    cause: str
    place: str
    instruction: str = ""
    losses: Losses = NOTHING_LOST
    guarded: Outcome | None = None

    def as_json(self) -> dict[str, Any]:
        shown = {**vars(self), "losses": vars(self.losses)}
        del shown["guarded"]
        return {**shown, "guarded": self.guarded.as_json()} if self.guarded else shown


@dataclass(frozen=True)
class Swept:
    """The sweep of one base: one scenario under one schedule. `own` is the outcome of the base itself, without a fault
    of the sweep, compared with the scenario under its own schedule. `chosen` counts the faults of this base; an
    interrupted sweep has fewer entries. `guarded` is the report of the base's guarded run, if a guard was requested."""

    base: Scenario
    report: Report
    entries: list[Entry]
    own: Outcome = Outcome(SAME)
    chosen: int = 0
    guarded: Report | None = None

    @property
    def start(self) -> int | None:
        """Where the draws of the base's schedule begin, None if its schedule is not drawn."""
        start = self.base.get("schedule", {}).get("start")
        return start if isinstance(start, int) else None

    def as_json(self) -> dict[str, Any]:
        faults = [entry.as_json() for entry in self.entries]
        own = self.own.as_json()
        shown = {"base": self.base, "status": self.report.status, "own": own, "chosen": self.chosen, "faults": faults}
        if self.guarded is None:
            return shown
        return {**shown, "guarded": {"status": self.guarded.status, "traps": len(self.guarded.guards)}}
