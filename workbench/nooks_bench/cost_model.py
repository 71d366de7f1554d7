"""What counts cost by a model: a number of cycles for each thing, chosen by the user. Nothing here is measured."""

from __future__ import annotations

import tomllib
from dataclasses import dataclass, fields
from typing import Any

from .cost_count import Counts, PartCost
from .program import Mistake
from .source import read_text


@dataclass(frozen=True)
class Model:
    """The cycles of: the work of an operation outside the driver; an instruction of the driver; an act on the device; a
    procedure call; a change of domain; a word that is copied, and one that is cleared; the rights of a page; a page
    that is loaded; a reset of the device; and a reboot of the whole machine, if recoveries are to be compared with
    it."""

    operation: float
    instruction: float
    act: float
    procedure: float
    crossing: float
    word: float
    clear: float
    right: float
    page: float
    reset: float
    reboot: float | None = None

    def bare(self, counts: Counts) -> float:
        """The cycles of the same work by the same driver inside the kernel, which calls it as a procedure."""
        inside = self.instruction * counts.instructions + self.act * counts.acts + self.procedure * counts.bursts
        return self.operation * counts.calls + inside

    def added(self, counts: Counts) -> float:
        """The cycles that protection adds."""
        words = self.word * counts.copied + self.clear * counts.cleared
        return self.crossing * counts.crossings + words + self.right * counts.rights

    def guarded(self, counts: Counts) -> float:
        return self.bare(counts) + self.added(counts)

    def recovery(self, counts: Counts) -> float:
        """The cycles of recoveries, or of the boot."""
        driver = self.instruction * counts.instructions + self.act * counts.acts
        made = self.page * counts.pages + self.reset * counts.resets + self.right * counts.rights
        return driver + self.crossing * counts.crossings + made


def model_of(file: str) -> Model:
    """The model of a TOML file: a table `cycles` with a number for each name."""
    try:
        table = tomllib.loads(read_text(file)).get("cycles")
    except tomllib.TOMLDecodeError as error:
        raise Mistake(f"{file}: {error}") from error
    names = [each.name for each in fields(Model)]
    if not isinstance(table, dict):
        raise Mistake(f"{file} has no table `cycles`, with a number for each of {', '.join(names)}")
    unknown = sorted(set(table) - set(names))
    missing = [name for name in names if name not in table and name != "reboot"]
    if unknown or missing:
        about = f"`cycles` has no use for {unknown[0]}" if unknown else f"`cycles` lacks {missing[0]}"
        raise Mistake(f"{file}: {about}; its names are {', '.join(names)}")
    for name, number in table.items():
        if isinstance(number, bool) or not isinstance(number, (int, float)) or number < 0:
            raise Mistake(f"{file}: `{name}` has to be a number of cycles")
    return Model(**table)


@dataclass(frozen=True)
class Reckoned:
    """What a model says of a part's run: the cycles of its calls without and with protection, and of its recoveries."""

    bare: float
    guarded: float
    boot: float
    recoveries: float
    number: int
    calls: int
    crossings: int
    model: Model

    @property
    def relative(self) -> float:
        """The speed with protection, as a fraction of that without."""
        return self.bare / self.guarded if self.guarded else 1.0

    @property
    def twice(self) -> float | None:
        """The cycles of a change of domain at which the same calls take twice as long as without protection. None if
        there is no such change, or if all the rest takes that long already."""
        rest = self.guarded - self.model.crossing * self.crossings
        cycles = (2 * self.bare - rest) / self.crossings if self.crossings else -1.0
        return cycles if cycles >= 0 else None

    @property
    def pays(self) -> float | None:
        """The most calls to one failure for which protection adds no more than a recovery saves, compared with a
        reboot. None if the model has no reboot, if the run has no recovery, or if nothing is added or saved."""
        if self.model.reboot is None or not self.number or not self.calls:
            return None
        added = (self.guarded - self.bare) / self.calls
        saved = self.model.reboot - self.recoveries / self.number
        return saved / added if added > 0 and saved > 0 else None

    def as_json(self) -> dict[str, Any]:
        return {"bare": self.bare, "guarded": self.guarded, "boot": self.boot, "recoveries": self.recoveries,
                "relative": self.relative, "twice": self.twice, "pays": self.pays}


def reckon(model: Model, cost: PartCost) -> Reckoned:
    """What a model says of a part's counts."""
    calls, recoveries = cost.all_calls, cost.all_recoveries
    return Reckoned(model.bare(calls), model.guarded(calls), model.recovery(cost.boot), model.recovery(recoveries),
                    len(cost.recoveries), calls.calls, calls.crossings, model)
