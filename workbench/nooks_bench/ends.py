"""How runs of one scenario ended, thing by thing: each answer of each thread, and of each part what is left, what was
lost, how often it failed, and whether its contract was kept. Two runs have the same outcome if all of it is the same,
no matter when it happened."""

from __future__ import annotations

import json
from dataclasses import dataclass, field
from typing import Iterator, Sequence

from .calls import calls_of_threads
from .explored import Found, Picks
from .outcomes import clause_text, row_of
from .program import Mistake, Program
from .report import Part, Report, parse_report
from .scenario import Scenario, with_schedule
from .words import short

# The prefix of the names of parts' contracts, and the value of one that was not broken.
CONTRACT = "contract of "
KEPT = "kept"


@dataclass(frozen=True)
class End:
    """An outcome, and a run that has it. `things` has each thing by its name."""

    found: Found
    things: dict[str, str] = field(hash=False)

    @property
    def key(self) -> str:
        """Equal only for equal outcomes."""
        return json.dumps(self.things)


def listed(picks: Picks) -> dict[str, object]:
    """The schedule of some picks."""
    return {"kind": "listed", "picks": list(picks)}


def answers_of(report: Report) -> Iterator[tuple[str, str]]:
    """Each operation of each thread, and its answer."""
    for thread, calls in zip(report.threads, calls_of_threads(report)):
        for number, call in enumerate(calls, 1):
            yield f"{thread.name} {number}, {short(call.text)}", call.answer


def left_of(part: Part) -> Iterator[tuple[str, str]]:
    """What is left of a part. All frames of a list are one thing, and so are all samples."""
    lists: dict[str, list[str]] = {}
    for line in part.left:
        name, _, rest = line.partition(" ")
        if name in ("wire", "played"):
            lists.setdefault(name, []).append(rest)
        else:
            number, _, words = rest.partition(" ")
            yield f"{name} {number} of {part.name}", words
    for name, items in lists.items():
        yield f"{name} of {part.name}", ", ".join(items)


def counts_of(part: Part) -> Iterator[tuple[str, str]]:
    """The numbers of a part's lines of losses and frames."""
    for line in part.losses:
        name, *words = line.split(" ")
        for counted, number in zip(words[::2], words[1::2]):
            yield f"{name} of {part.name}, {counted}", number


def things_of(report: Report) -> dict[str, str]:
    """All things of an outcome, in the order in which a reader looks at them."""
    things = dict(answers_of(report))
    for part in report.parts:
        things[CONTRACT + part.name] = clause_text(part.broken[1]) if part.broken else KEPT
        things[f"failures of {part.name}"] = str(part.failures)
        things.update(counts_of(part))
        things[f"config of {part.name}"] = part.config
        things.update(left_of(part))
    return things


def end_of(program: Program, scenario: Scenario, found: Found) -> End:
    """The outcome of a run, from its report. Raises a mistake if the row is not that of the report."""
    report = parse_report(program.report(with_schedule(scenario, listed(found.picks))))
    if row_of(report) != found.row:
        raise Mistake(f"a row and the report of its picks differ: {found.row} and {row_of(report)}")
    return End(found, things_of(report))


@dataclass(frozen=True)
class Differing:
    """A thing that is not the same in all outcomes: its values, each with the numbers of the outcomes that have it. The
    value is an empty text for outcomes without the thing."""

    name: str
    values: dict[str, list[int]]

    def as_json(self) -> dict[str, object]:
        values = [{"value": value or None, "outcomes": numbers} for value, numbers in self.values.items()]
        return {"what": self.name, "values": values}


def differing(ends: Sequence[End]) -> list[Differing]:
    """The things in which some outcomes differ. The outcomes count from 1."""
    names = dict.fromkeys(name for end in ends for name in end.things)
    found: list[Differing] = []
    for name in names:
        values: dict[str, list[int]] = {}
        for number, end in enumerate(ends, 1):
            values.setdefault(end.things.get(name, ""), []).append(number)
        if len(values) > 1:
            found.append(Differing(name, values))
    return found


def actor_name(actor: int, scenario: Scenario) -> str:
    """An actor in words (docs/SCENARIO.md, schedules)."""
    threads, parts = scenario["threads"], scenario["parts"]
    if actor < len(threads):
        return str(threads[actor]["name"])
    index, is_arrival = divmod(actor - len(threads), 2)
    return f"{'arrivals' if is_arrival else 'recovery'} of {parts[index]['name']}"


def order_text(picks: Picks, scenario: Scenario) -> str:
    """An order of steps in words: `reader x2, writer, recovery of disk x5`."""
    stretches: list[tuple[int, int]] = []
    for actor in picks:
        if stretches and stretches[-1][0] == actor:
            stretches[-1] = (actor, stretches[-1][1] + 1)
        else:
            stretches.append((actor, 1))
    times = [actor_name(actor, scenario) + (f" x{count}" if count > 1 else "") for actor, count in stretches]
    return ", ".join(times)
