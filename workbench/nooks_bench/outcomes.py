"""The outcome of a fault, compared with the run without it: from a campaign's row if the row is sufficient, else from
the member's own report."""

from __future__ import annotations

import functools
import re
from dataclasses import dataclass, field
from typing import Any, Callable, Iterable

from .facts import STATUSES, STOPS
from .program import Mistake
from .report import Event, Part, Report
from .scenario import Fault, Scenario
from .words import CLAUSES, short

# The outcomes, from the mildest to the worst.
MISSED = "did not strike"
NO_TRACE = "struck, no trace"
CHANGED = "answers changed, contract kept"
RECOVERED = "recovered, nothing lost"
LOSSES = "recovered with losses"
GIVEN_UP = "given up"
BROKEN = "contract broken"
OUTCOMES = (MISSED, NO_TRACE, CHANGED, RECOVERED, LOSSES, GIVEN_UP, BROKEN)

# Their names for --fail-on.
SHORT_NAMES = dict(zip(("missed", "no-trace", "changed", "recovered", "losses", "given-up", "broken"), OUTCOMES))

# The outcome of a base under another schedule if its run has the same result as under its own.
SAME = "the same"

ROW = re.compile(r"\d+ status (\d+) events (\d+) failures (\d+) gone (\d+) lost (\d+)(?: answers (.*))?")
DETAIL = re.compile(r"(same|other) left (same|other) break (\d+|-)(?: traps \d+)? cause (.*)")


@dataclass(frozen=True)
class Detail:
    """The part of a row that `detail` adds: whether the answers, and what the parts were left with, are those of the
    base's run; the clause that the struck part's driver broke, 0 for none; and why that driver failed first, empty if
    it did not."""

    same_answers: bool
    same_left: bool
    clause: int
    cause: str


@dataclass(frozen=True)
class Row:
    """A row of a campaign's table."""

    status: int
    events: int
    failures: int
    gone: int
    lost: int
    detail: Detail | None = field(default=None, compare=False)


@dataclass(frozen=True)
class Losses:
    """What applications lost, by kind: sends with no frame on the wire, samples not played, answers `busy`, and frames
    lost on their way in. The losses of a fault are a difference, so a number may be negative."""

    sends: int = 0
    samples: int = 0
    busy: int = 0
    frames: int = 0

    @property
    def is_more(self) -> bool:
        """Whether more was lost of any kind than without the fault."""
        return any(number > 0 for number in self.numbers())

    def numbers(self) -> tuple[int, int, int, int]:
        return (self.sends, self.samples, self.busy, self.frames)

    def joined(self, other: Losses, joining: Callable[[int, int], int]) -> Losses:
        """Combines two losses kind by kind."""
        return Losses(*(joining(*pair) for pair in zip(self.numbers(), other.numbers())))

    def __add__(self, other: Losses) -> Losses:
        return self.joined(other, int.__add__)

    def __sub__(self, other: Losses) -> Losses:
        return self.joined(other, int.__sub__)


NOTHING_LOST = Losses()

# The kind of loss that each word of a report's lines `losses` and `frames` counts.
COUNTED = {"sends": "sends", "samples": "samples", "busy": "busy",
           "reset": "frames", "full_ring": "frames", "full_queue": "frames"}


def losses_of_part(part: Part) -> Losses:
    """Adds up the lines `losses` and `frames` of a part."""
    found = dict.fromkeys(vars(NOTHING_LOST), 0)
    for line in part.losses:
        words = line.split(" ")
        for name, number in zip(words[1::2], words[2::2]):
            if name in COUNTED:
                found[COUNTED[name]] += int(number)
    return Losses(**found)


def least_and_most(losses: Iterable[Losses]) -> tuple[Losses, Losses]:
    """Returns the least and the greatest number of each kind."""
    first, *others = losses
    least = most = first
    for each in others:
        least = least.joined(each, lambda ours, theirs: min(ours, theirs))
        most = most.joined(each, lambda ours, theirs: max(ours, theirs))
    return least, most


def losses_of(report: Report) -> Losses:
    """Adds up the losses of all parts."""
    return sum((losses_of_part(part) for part in report.parts), NOTHING_LOST)


@dataclass(frozen=True)
class Outcome:
    """The outcome of a fault, its cause, and what was lost in addition to the run without it."""

    name: str
    cause: str = ""
    losses: Losses = NOTHING_LOST

    def as_json(self) -> dict[str, Any]:
        return {"outcome": self.name, "cause": self.cause, "losses": vars(self.losses)}


def parse_detail(words: str) -> Detail:
    """Parses the end of a row, after `answers`."""
    found = DETAIL.fullmatch(words)
    if not found:
        raise Mistake(f"no detail of a row: {words!r}")
    clause, cause = (word if word != "-" else "" for word in (found[3], found[4]))
    return Detail(found[1] == "same", found[2] == "same", int(clause or 0), cause)


def parse_row(line: str) -> Row:
    found = ROW.fullmatch(line)
    if not found:
        raise Mistake(f"no row of a table: {line!r}")
    status, events, failures, gone, lost = (int(found[group]) for group in range(1, 6))
    return Row(status, events, failures, gone, lost, parse_detail(found[6]) if found[6] else None)


def row_of(report: Report) -> Row:
    """Returns the row that a campaign's table has for this run (docs/CAMPAIGN.md says from which lines)."""
    gone = sum(answer.startswith("gone") for thread in report.threads for _, answer in thread.answers)
    lines = [line for part in report.parts for line in part.losses if line.startswith("losses")]
    lost = sum(int(word) for line in lines for word in line.split(" ") if word.isdigit())
    events = sum(len(part.events) for part in report.parts)
    return Row(report.status, events, sum(part.failures for part in report.parts), gone, lost)


def bursts_of(report: Report, part: int) -> dict[int, Event]:
    """Returns the bursts of a part by number."""
    return {event.burst: event for event in report.parts[part].bursts()}


@dataclass(frozen=True)
class Judge:
    """Determines the outcomes of faults of one part, by comparison with the base's run. `bursts` has the part's bursts
    by number. `is_open` says that frames arrive from the wire, so a row does not have all that can be lost. `hangs` has
    the first of the part's own hangs in each burst."""

    base: Report
    part: int
    bursts: dict[int, Event]
    is_open: bool
    hangs: dict[int, int]

    def burst(self, fault: Fault) -> Event | None:
        """Returns the burst of the base's run that a fault names."""
        return self.bursts.get(fault["burst"])

    @functools.cached_property
    def base_row(self) -> Row:
        return row_of(self.base)

    def reach(self, event: Event) -> int:
        """Returns how many instructions of a burst of the base's run, from the first one on, a fault can strike before.
        If one of the part's own hangs ended the burst, the report does not have this number: it says 4096. A guard's
        trap comes after all other faults before the same instruction."""
        trap = self.base.parts[self.part].guards.get(event.burst)
        if trap is not None:
            return trap.after + 1
        if event.cause == "trap hang" and event.burst in self.hangs:
            return self.hangs[event.burst]
        return event.instructions

    def strikes(self, fault: Fault) -> bool:
        """Returns whether a fault strikes. Up to the fault its run is the base's, so it strikes if the base's burst has
        that instruction."""
        event = self.burst(fault)
        after: int = fault["after"]
        return event is not None and after < self.reach(event)

    def by_row(self, fault: Fault, row: Row) -> Outcome | None:
        """Returns the outcome if the row is sufficient. A row without detail is sufficient for a trap or a hang, which
        only stop the driver, if nothing is lost. A row does not say what was lost."""
        base = self.base_row
        if not self.strikes(fault):
            if row != base:
                raise Mistake(f"a fault that does not strike has another row than the base: {fault}")
            return Outcome(MISSED)
        if row.detail is not None:
            return self.by_detail(row, row.detail)
        cause = STOPS.get(fault["kind"])
        if cause is None or self.is_open or self.base.status or row.status == STATUSES["contract_broken"]:
            return None
        if row.lost or base.lost:
            return None
        return Outcome(GIVEN_UP if row.status else RECOVERED, cause)

    def by_detail(self, row: Row, detail: Detail) -> Outcome | None:
        """Returns the outcome from a row with detail, if that is sufficient: there is one part, its driver neither
        fails nor breaks its contract without the fault, and nothing is lost."""
        base = self.base_row
        if len(self.base.parts) > 1 or base.failures or base.status:
            return None
        if not detail.same_left and (self.is_open or row.lost or base.lost):
            return None
        if detail.clause:
            return Outcome(BROKEN, clause_text(detail.clause))
        if row.failures:
            return Outcome(GIVEN_UP if row.status else RECOVERED, plain_cause(detail.cause))
        if not detail.same_left:
            return None
        return Outcome(NO_TRACE) if detail.same_answers else Outcome(CHANGED, "answers")

    def by_report(self, fault: Fault, report: Report) -> Outcome:
        """Returns the outcome from a member's report."""
        if not self.strikes(fault):
            return Outcome(MISSED)
        more = losses_of(report) - losses_of(self.base)
        for ours, theirs in zip(report.parts, self.base.parts):
            if ours.broken and (theirs.broken is None or theirs.broken[1] != ours.broken[1]):
                return Outcome(BROKEN, clause_text(ours.broken[1]), more)
        cause = self.cause(fault, report)
        if is_given_up(report, self.base):
            return Outcome(GIVEN_UP, cause, more)
        if cause:
            return Outcome(LOSSES if more.is_more else RECOVERED, cause, more)
        changed = changes(report, self.base)
        return Outcome(CHANGED, changed, more) if changed else Outcome(NO_TRACE)

    def cause(self, fault: Fault, report: Report) -> str:
        """Returns why the struck driver failed. For a trap of a guard this is the clause that the trap protected."""
        event = self.failing(fault, report)
        if event is None:
            return ""
        trap = report.parts[self.part].guards.get(event.burst)
        return f"guard, clause {trap.clause}" if trap else plain_cause(event.cause or "")

    def failing(self, fault: Fault, report: Report) -> Event | None:
        """Returns the event at which the struck driver failed: the struck burst, or a later event if the driver failed
        more often than in the base."""
        ours, theirs = report.parts[self.part], self.base.parts[self.part]
        struck = [event for event in ours.bursts() if event.burst == fault["burst"] and event.failed]
        base = self.burst(fault)
        stops = fault["kind"] in STOPS
        if struck and base and (stops or struck[0].cause != base.cause):
            return struck[0]
        if ours.failures > theirs.failures:
            later = [event for event in ours.bursts() if event.failed and event.burst >= fault["burst"]]
            known = [event.cause for event in theirs.bursts() if event.failed]
            fresh = [event for event in later if event.cause not in known] or later
            return fresh[0]
        return None


def clause_text(clause: int) -> str:
    return f"clause {clause}: {CLAUSES[clause]}"


def is_given_up(report: Report, base: Report) -> bool:
    """Returns whether a part is given up that is not given up in the base's run."""
    return any(ours.given_up and not theirs.given_up for ours, theirs in zip(report.parts, base.parts))


def changes(report: Report, base: Report) -> str:
    """Names what differs from the base's run, for a run without an additional failure: what was answered, lost, or
    left."""
    found: list[str] = []
    if [thread.answers for thread in report.threads] != [thread.answers for thread in base.threads]:
        found.append("answers")
    pairs = list(zip(report.parts, base.parts))
    if any(ours.losses != theirs.losses for ours, theirs in pairs):
        found.append("losses")
    if any((ours.left, ours.config) != (theirs.left, theirs.config) for ours, theirs in pairs):
        found.append("what is left")
    return ", ".join(found)


def fresh_cause(report: Report, base: Report) -> str:
    """Returns the first cause of a failure that the base's run does not have, empty if there is none."""
    known = causes_of(base)
    return next((plain_cause(cause) for cause in causes_of(report) if cause not in known), "")


def causes_of(report: Report) -> list[str]:
    """Returns why drivers failed, in the order of their parts and bursts."""
    return [event.cause for part in report.parts for event in part.bursts() if event.cause]


def own_outcome(report: Report, base: Report) -> Outcome:
    """Returns the outcome of a scenario under a schedule, without an additional fault, compared with its run under its
    own schedule. A broken contract counts even if the scenario also breaks it under its own schedule."""
    more = losses_of(report) - losses_of(base)
    for part in report.parts:
        if part.broken:
            return Outcome(BROKEN, clause_text(part.broken[1]), more)
    if is_given_up(report, base):
        return Outcome(GIVEN_UP, fresh_cause(report, base), more)
    failures = sum(part.failures for part in report.parts) - sum(part.failures for part in base.parts)
    if failures > 0:
        return Outcome(LOSSES if more.is_more else RECOVERED, fresh_cause(report, base), more)
    changed = changes(report, base)
    return Outcome(CHANGED, changed, more) if changed else Outcome(SAME)


def plain_cause(cause: str) -> str:
    """Removes the address or the status from a cause, so that equal causes fold."""
    return re.sub(r"^(trap (?:foreign_write|bad_read)|bad_reply) \d+$", r"\1", cause)


def judge_of(base: Report, scenario: Scenario, part: int) -> Judge:
    is_open = any(each.get("arrivals") for each in scenario["parts"])
    hangs: dict[int, int] = {}
    for fault in scenario["parts"][part].get("faults", []):
        if fault["kind"] == "hang":
            hangs[fault["burst"]] = min(fault["after"], hangs.get(fault["burst"], fault["after"]))
    return Judge(base, part, bursts_of(base, part), is_open, hangs)


def driver_work(event: Event | None, base: Report, part: int, numbered: bool) -> str:
    """Describes what the driver does in a burst: whose call it works on, with the burst's number if `numbered`. Over
    several schedules the number is left out, so that equal work folds."""
    if event is None:
        return "no such burst"
    events = base.parts[part].events
    prefix = f"b{event.burst} " if numbered else ""
    if event.call == 0:
        stages = [each.text for each in events[: event.number] if each.kind == "stage"]
        return f"{prefix}{stages[-1] if stages else 'boot'}"
    invocation = next(each for each in events if each.kind == "invoke" and each.call == event.call)
    tries = [each.attempt for each in events[: event.number] if each.kind == "enter" and each.call == event.call]
    again = f" try {tries[-1]}" if tries and tries[-1] > 1 else ""
    return f"{prefix}t{event.context} {short(invocation.text)}{again}"
