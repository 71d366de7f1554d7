"""What became of a trial: what the system saw, and what the contract saw before that."""

from __future__ import annotations

import re
from dataclasses import dataclass
from typing import Any

from .outcomes import COUNTED, plain_cause
from .program import Mistake

# What the system saw: nothing; a trap that it recovered from, without or with losses; more traps than the limit.
NOTHING, RECOVERED, LOSSES, GIVEN_UP = "nothing", "recovered", "losses", "given up"
SYSTEM = (NOTHING, RECOVERED, LOSSES, GIVEN_UP)

# What the contract saw: no break; a break, and no trap; a break and then a trap; a break after the first trap.
KEPT, BROKEN, BROKEN_FIRST, BROKEN_LATER = "kept", "broken", "broken first", "broken later"
CONTRACT = (KEPT, BROKEN, BROKEN_FIRST, BROKEN_LATER)

# By which means a driver was stopped first, by the beginning of the cause.
DOMAIN, EXCEPTION, BOUND, PARAMETER, GUARD = "domain", "exception", "hang bound", "parameter check", "contract"
DETECTORS = {
    "trap foreign_write": DOMAIN,
    "trap bad_opcode": EXCEPTION,
    "trap bad_fetch": EXCEPTION,
    "trap bad_read": EXCEPTION,
    "trap bad_port": EXCEPTION,
    "trap explicit": EXCEPTION,
    "trap hang": BOUND,
    "too_many_crossings": BOUND,
    "bad_param": PARAMETER,
    "bad_reply": PARAMETER,
    "bad_init": PARAMETER,
    "trap injected": GUARD,
}
MEANS = (DOMAIN, EXCEPTION, BOUND, PARAMETER, GUARD)

ROW = re.compile(r"\d+ status \d+ events \d+ failures (\d+) gone \d+ lost \d+ answers (\w+) left (\w+) break (-|\d+)"
                 r"(?: traps (\d+))? cause (.*)")
GUARD_LINE = re.compile(r"guard \d+ burst \d+ after \d+ clause \d+\n")
FAILURES = re.compile(r"^failures (\d+)$", re.MULTILINE)
BREAK = re.compile(r"^contract broken event (\d+) clause (\d+)$", re.MULTILINE)
LEFT = re.compile(r"^(?:object|disk|wire|played|config) ", re.MULTILINE)
FAILED = re.compile(r"(\d+) burst x\d+ c\d+ b(\d+) ")
LOSS = re.compile(rf" ({'|'.join(COUNTED)}) (\d+)")


@dataclass(frozen=True)
class Found:
    """What became of a trial. `clause` is that of the first break, `cause` that of the first failure, and `wait` counts
    the bursts from the strike to it; of latent faults from the driver's start. `same_answers` and `same_left` say
    whether applications got, and devices and kernel were left with, what they do in the run without faults. `traps`
    counts those of a guard."""

    system: str
    contract: str
    clause: int | None = None
    cause: str = ""
    wait: int | None = None
    failures: int = 0
    traps: int = 0
    same_answers: bool = True
    same_left: bool = True
    executed: bool = True

    @property
    def has_effect(self) -> bool:
        """Whether anything differs from the run without faults."""
        return (self.system, self.contract) != (NOTHING, KEPT) or not (self.same_answers and self.same_left)

    @property
    def means(self) -> str:
        """By which means the driver was stopped first; empty if it was not."""
        return next((name for start, name in DETECTORS.items() if self.cause.startswith(start)), "")

    def as_json(self) -> dict[str, Any]:
        return dict(vars(self))


@dataclass(frozen=True)
class Row:
    """A row with detail of a campaign's table, with the columns that are needed here."""

    failures: int
    same_answers: bool
    same_left: bool
    clause: int | None
    traps: int
    cause: str


def parse_detail(line: str) -> Row:
    found = ROW.fullmatch(line)
    if not found:
        raise Mistake(f"no row with detail of a table: {line!r}")
    failures, answers, left, clause, traps, cause = found.groups()
    broken = None if clause == "-" else int(clause)
    return Row(int(failures), answers == "same", left == "same", broken, int(traps or 0), "" if cause == "-" else cause)


def by_row(row: Row) -> Found | None:
    """What became of a trial that was not stopped. None for any other, since a row does not say what came first."""
    if row.failures:
        return None
    contract = KEPT if row.clause is None else BROKEN
    return Found(NOTHING, contract, row.clause, same_answers=row.same_answers, same_left=row.same_left)


@dataclass(frozen=True)
class Evidence:
    """What a report has that decides a trial: of the struck part its failures, the event, burst and cause of the first
    one, and the event and clause of the first break; of all parts what is left and lost; and the answers."""

    failures: int
    failed: tuple[int, int, str] | None
    broken: tuple[int, int] | None
    lost: tuple[int, ...]
    left: tuple[str, ...]
    answers: str
    traps: int


def sections(text: str) -> list[str]:
    """The parts of a report, each from its first event to its verdict."""
    return re.split(r"^part .*\n", text[: text.index("\nthread ") + 1], flags=re.MULTILINE)[1:]


def first_failure(section: str) -> tuple[int, int, str] | None:
    """The event, the burst and the cause of a part's first failure."""
    at = section.find(" ! ")
    if at < 0:
        return None
    start, end = section.rfind("\n", 0, at) + 1, section.index("\n", at)
    found = FAILED.match(section, start)
    if not found:
        raise Mistake(f"no event that fails: {section[start:end]!r}")
    return int(found[1]), int(found[2]), section[at + 3 : end]


def left_of(section: str) -> str:
    """The lines between a part's last event and its failures."""
    found, end = LEFT.search(section), FAILURES.search(section)
    if not found or not end:
        raise Mistake("the report has a part without a configuration, or without its failures")
    return section[found.start() : end.start()]


def lost_in(left: list[str]) -> tuple[int, ...]:
    """What was lost, kind by kind, as a sweep counts it."""
    counts = dict.fromkeys(COUNTED.values(), 0)
    lines = [line for each in left for line in each.split("\n") if line.startswith(("losses ", "frames "))]
    for line in lines:
        for name, number in LOSS.findall(line):
            counts[COUNTED[name]] += int(number)
    return tuple(counts.values())


def read_evidence(text: str, part: int) -> Evidence:
    """What decides a trial, from a report that may begin with the lines of a guard's traps."""
    traps = len(GUARD_LINE.findall(text[: text.index("part 0 ")]))
    found = sections(text)
    struck = found[part]
    failures, broken = FAILURES.search(struck), BREAK.search(struck)
    left = [left_of(each) for each in found]
    answers = text[text.index("\nthread ") : text.index("\ntap ")]
    return Evidence(
        failures=int(failures[1]) if failures else 0,
        failed=first_failure(struck),
        broken=(int(broken[1]), int(broken[2])) if broken else None,
        lost=lost_in(left),
        left=tuple(left),
        answers=answers,
        traps=traps,
    )


def system_of(evidence: Evidence, base: Evidence, limit: int) -> str:
    """What the system saw."""
    if not evidence.failures:
        return NOTHING
    if evidence.failures > limit:
        return GIVEN_UP
    is_more = any(ours > theirs for ours, theirs in zip(evidence.lost, base.lost))
    return LOSSES if is_more else RECOVERED


def contract_of(evidence: Evidence) -> str:
    """What the contract saw. If a driver breaks it in the burst that then fails, the break comes first."""
    if evidence.broken is None:
        return KEPT
    if evidence.failed is None:
        return BROKEN
    return BROKEN_FIRST if evidence.broken[0] <= evidence.failed[0] else BROKEN_LATER


def by_evidence(evidence: Evidence, base: Evidence, limit: int, struck: int) -> Found:
    """What became of a trial, from its report and that of the run without faults."""
    return Found(
        system=system_of(evidence, base, limit),
        contract=contract_of(evidence),
        clause=evidence.broken[1] if evidence.broken else None,
        cause=plain_cause(evidence.failed[2]) if evidence.failed else "",
        wait=evidence.failed[1] - struck if evidence.failed else None,
        failures=evidence.failures,
        traps=evidence.traps,
        same_answers=evidence.answers == base.answers,
        same_left=evidence.left == base.left,
    )
