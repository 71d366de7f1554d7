"""The table of a sweep. Entries with one outcome, cause, work of the driver and kinds of losses are in one row; with a
guard their outcomes, causes and kinds of losses with it are the same too."""

from __future__ import annotations

import json
import os
from dataclasses import dataclass, field
from typing import Any, Sequence

from .jsontext import json_text
from .model import Entry, Swept
from .outcomes import NOTHING_LOST, OUTCOMES, Losses, Outcome, least_and_most
from .program import Mistake
from .scenario import Fault, Scenario, with_faults
from .words import counted, ranges_text

# A list of instructions is shortened if its text is longer.
LONGEST_LIST = 60


@dataclass
class GuardedOutcome:
    """The outcome of a row's faults with a guard."""

    outcome: str
    cause: str
    least: Losses
    most: Losses

    def take(self, losses: Losses) -> None:
        self.least, self.most = least_and_most((self.least, self.most, losses))

    def as_json(self) -> dict[str, Any]:
        return {"outcome": self.outcome, "cause": self.cause, "losses": losses_json(self.least, self.most)}


def guarded_outcome(outcome: Outcome | None) -> GuardedOutcome | None:
    return GuardedOutcome(outcome.name, outcome.cause, outcome.losses, outcome.losses) if outcome else None


@dataclass
class Folded:
    """A row: the number of its faults, one of them, the numbers of instructions after which they strike, what they lose
    at least and at most, and the starts of the schedules under which they come. `guarded` is set if there was a
    guard."""

    outcome: str
    cause: str
    place: str
    instruction: str
    fault: Fault
    base: Scenario
    least: Losses
    most: Losses
    guarded: GuardedOutcome | None = None
    count: int = 0
    after: list[int] = field(default_factory=list)
    starts: list[int] = field(default_factory=list)

    def take(self, entry: Entry, start: int | None) -> None:
        """Adds an entry."""
        self.count += 1
        self.least, self.most = least_and_most((self.least, self.most, entry.losses))
        if self.guarded and entry.guarded:
            self.guarded.take(entry.guarded.losses)
        self.after.append(entry.fault["after"])
        if start is not None and start not in self.starts[-1:]:
            self.starts.append(start)

    def as_json(self) -> dict[str, Any]:
        shown = {key: value for key, value in vars(self).items() if key not in ("base", "least", "most", "guarded")}
        whole = {**shown, "losses": losses_json(self.least, self.most), "schedule": self.base.get("schedule")}
        return {**whole, "guarded": self.guarded.as_json()} if self.guarded else whole


def amounts_key(losses: Losses, by_amount: bool) -> tuple[int, ...]:
    """Returns what distinguishes losses: what is lost, and with `by_amount` also how much of it."""
    return losses.numbers() if by_amount else tuple(int(number != 0) for number in losses.numbers())


def guarded_key(outcome: Outcome | None, by_amount: bool) -> tuple[Any, ...]:
    """Returns what distinguishes outcomes with a guard."""
    return (outcome.name, outcome.cause, *amounts_key(outcome.losses, by_amount)) if outcome else ()


def fold(runs: Sequence[Swept], by_amount: bool = False) -> list[Folded]:
    """Returns the rows, from the worst outcome on, in the order of their first faults. Faults that lose other kinds of
    things are in separate rows; with `by_amount` also those that lose other amounts."""
    rows: dict[tuple[Any, ...], Folded] = {}
    for run in runs:
        for entry in run.entries:
            losses, guarded = entry.losses, entry.guarded
            texts = (entry.outcome, entry.cause, entry.place, entry.instruction)
            key = (*texts, *amounts_key(losses, by_amount), *guarded_key(guarded, by_amount))
            if key not in rows:
                rows[key] = Folded(*texts, entry.fault, run.base, losses, losses, guarded_outcome(guarded))
            rows[key].take(entry, run.start)
    for row in rows.values():
        row.after = sorted(set(row.after))
    return sorted(rows.values(), key=lambda row: -OUTCOMES.index(row.outcome))


def spans(least: Losses, most: Losses) -> list[tuple[str, int, int]]:
    """Returns the kinds of which anything is lost, with the least and the greatest amount."""
    named = zip(vars(NOTHING_LOST), least.numbers(), most.numbers())
    return [(kind, low, high) for kind, low, high in named if low or high]


def losses_json(least: Losses, most: Losses) -> dict[str, list[int]]:
    """Returns the least and the greatest amount of each kind of which anything is lost."""
    return {kind: [low, high] for kind, low, high in spans(least, most)}


def losses_text(least: Losses, most: Losses) -> str:
    """Describes what is lost: `samples 4-7, busy 1`."""
    pieces = []
    for kind, low, high in spans(least, most):
        joined = f"{low}-{high}" if low >= 0 else f"{low} to {high}"
        pieces.append(f"{kind} {low if low == high else joined}")
    return ", ".join(pieces)


def after_text(after: list[int]) -> str:
    """Describes the instructions of a row; a long list by its ends and its length."""
    text = ranges_text(after)
    return text if len(text) <= LONGEST_LIST else f"{after[0]}-{after[-1]} ({len(after)} of these instructions)"


def member_path(folder: str, number: int) -> str:
    return os.path.join(folder, f"row-{number}.json")


def write_members(rows: Sequence[Folded], part: int, folder: str) -> None:
    """Writes the scenario of each row's fault."""
    try:
        os.makedirs(folder, exist_ok=True)
        for number, row in enumerate(rows, 1):
            with open(member_path(folder, number), "w", encoding="utf-8") as file:
                file.write(json_text(with_faults(row.base, part, [row.fault])) + "\n")
    except OSError as error:
        raise Mistake(f"{folder}: {error.strerror}") from error


def guarded_row_lines(row: Folded) -> list[str]:
    """Describes the outcome of a row's faults with a guard. A fault that breaks no contract has the same run there."""
    guarded = row.guarded
    if guarded is None:
        return []
    if (guarded.outcome, guarded.cause) == (row.outcome, row.cause):
        return ["        with a guard: the same"]
    lost = losses_text(guarded.least, guarded.most)
    text = guarded.outcome + (f": {guarded.cause}" if guarded.cause else "")
    return [f"        with a guard: {text}", *([f"        lost there: {lost}"] if lost else [])]


def row_lines(row: Folded, schedules: int) -> list[str]:
    """Returns the lines of a row, with the schedules if there are several."""
    at = f", at {row.instruction}" if row.instruction else ""
    lost = losses_text(row.least, row.most)
    lines = [
        f"{row.count:6}  {row.outcome}" + (f": {row.cause}" if row.cause else ""),
        *([f"        lost: {lost}"] if lost else []),
        *guarded_row_lines(row),
        f"        {row.place}{at}, after {after_text(row.after)}",
        f"        {json.dumps(row.fault)}",
    ]
    if schedules > 1:
        others = f", and under {counted(len(row.starts) - 1, 'other')}" if len(row.starts) > 1 else ""
        lines.append(f"        schedule {json.dumps(row.base['schedule'])}{others}")
    return lines


def table_lines(rows: Sequence[Folded], schedules: int, folder: str | None) -> list[str]:
    lines: list[str] = []
    for number, row in enumerate(rows, 1):
        lines.extend(row_lines(row, schedules))
        if folder:
            lines.append(f"        nooks run < {member_path(folder, number)}")
    return lines
