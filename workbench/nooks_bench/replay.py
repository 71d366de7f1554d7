"""replay: from a report, the listed schedule under which `run` gives the same journals and answers. A run with threads
has one, since it is a scheduled run (docs/PROOFS.md, "One run of several parts")."""

from __future__ import annotations

import argparse
import json
import sys
from dataclasses import dataclass, field

from .calls import calls_of_threads
from .facts import SCHEDULES
from .jsontext import json_text
from .program import Mistake, Program, find_program
from .report import SHADOW, Event, Report, parse_report
from .scenario import Scenario, read_scenario, with_schedule
from .source import read_text

# The most picks of a listed schedule.
MOST_PICKS = SCHEDULES["listed"]["picks"].length[1]

ABOUT = f"""From a scenario and a report of it, of `run threads` or of `run`, the scenario with a listed schedule
of which `run` gives the same journals and answers. Each run of at most {MOST_PICKS:,} events has one. The program is
asked for both: that the report is one of the scenario's, and that the new one gives the same."""


class NoOrder(Mistake):
    """The journals of a report have no common order. The text names events that wait for each other."""


def actor_of(event: Event, part: int, threads: int) -> int:
    """Returns the number of the actor whose step an event is (docs/SCENARIO.md, schedules)."""
    if event.kind == "arrive":
        return threads + 2 * part + 1
    if event.kind == "stage" or event.context == SHADOW:
        return threads + 2 * part
    return event.context


@dataclass(frozen=True)
class Wait:
    """An invocation, and the event with the answer that it waits for: that of the previous operation in its thread's
    script."""

    event: int
    part: int
    thread: int
    operation: int
    answer: int
    answering: int

    @property
    def name(self) -> str:
        return f"event {self.event} of part {self.part} (t{self.thread}'s operation {self.operation})"

    @property
    def cause(self) -> str:
        return (f"waits for the answer to t{self.thread}'s operation {self.operation - 1}, "
                f"event {self.answer} of part {self.answering}")


def cycle_text(waits: list[Wait]) -> str:
    """Describes invocations that wait for each other: each for an answer that does not come before the next one, the
    last for one that does not come before the first. An operation that is answered at once has one event for both."""
    start = next(at for at, wait in enumerate(waits) if waits[at - 1].answer != wait.event)
    first, *rest = waits[start:] + waits[:start]
    text = f"{first.name} {first.cause}"
    last = first
    for wait in rest:
        text += ", " if last.answer == wait.event else f"; that comes after {wait.name}, "
        text += f"which {wait.cause}"
        last = wait
    return f"{text}; that comes after event {first.event} of part {first.part}"


@dataclass
class Merge:
    """Merges the journals of the parts into one order of steps. A thread invokes an operation only after its previous
    one, on whatever part, is answered."""

    report: Report
    picks: list[int] = field(default_factory=list)

    def __post_init__(self) -> None:
        self.done = [0] * len(self.report.parts)
        self.begun = [0] * len(self.report.threads)
        self.calls = calls_of_threads(self.report)

    def may_invoke(self, event: Event, part: int) -> bool:
        """Returns whether this is a thread's next operation, and its previous one is answered by now."""
        calls, next_one = self.calls[event.context], self.begun[event.context]
        if next_one >= len(calls) or (calls[next_one].part, calls[next_one].number) != (part, event.call):
            return False
        before = calls[next_one - 1] if next_one else None
        return before is None or 0 < before.answered <= self.done[before.part]

    def advance(self, part: int) -> bool:
        """Takes as many events of a part as may come next, and returns whether there was one."""
        events = self.report.parts[part].events
        start = self.done[part]
        while self.done[part] < len(events):
            event = events[self.done[part]]
            if event.kind == "invoke":
                if not self.may_invoke(event, part):
                    break
                self.begun[event.context] += 1
            self.picks.append(actor_of(event, part, len(self.report.threads)))
            self.done[part] += 1
        return self.done[part] > start

    def whole(self) -> list[int]:
        """Returns the picks of all events."""
        while any([self.advance(part) for part in range(len(self.done))]):
            pass
        left = [index for index, part in enumerate(self.report.parts) if self.done[index] < len(part.events)]
        if left:
            raise NoOrder(f"the journals of this report have no common order: {cycle_text(self.cycle(left[0]))}")
        return self.picks

    def wait_of(self, part: int) -> Wait:
        """Returns what the next event of a part waits for, if it may not come next."""
        event = self.report.parts[part].event(self.done[part] + 1)
        calls = self.calls[event.context]
        before = next(at for at, call in enumerate(calls[1:]) if (call.part, call.number) == (part, event.call))
        if not calls[before].answered:
            raise Mistake("an operation of this report has no answer")
        return Wait(event.number, part, event.context, before + 2, calls[before].answered, calls[before].part)

    def cycle(self, part: int) -> list[Wait]:
        """Returns invocations that wait for each other, found from a part with events left: the answer that its next
        one waits for comes after the next one of another such part."""
        waits: dict[int, Wait] = {}
        while part not in waits:
            waits[part] = self.wait_of(part)
            part = waits[part].answering
        return list(waits.values())[list(waits).index(part):]


def journals_and_answers(report: str) -> list[str]:
    """Returns the lines of a report without those of its listeners."""
    return [line for line in report.split("\n") if not line.startswith("tap ")]


def no_order_of(report: str) -> NoOrder | None:
    """Returns why the journals of a report have no common order, None if they have one. The text may not be a
    report."""
    try:
        Merge(parse_report(report)).whole()
    except NoOrder as found:
        return found
    except (Mistake, LookupError, StopIteration, ValueError):
        pass
    return None


def replayed(program: Program, scenario: Scenario, report: str) -> Scenario:
    """Returns the scenario with the schedule of a report; if there is none, this is a mistake."""
    text = json.dumps(scenario)
    refused = program.fault_of(text)
    if refused:
        raise Mistake(f"the program refuses the scenario: {refused}")
    if not program.fits(text, report):
        raise no_order_of(report) or Mistake("the report is none of this scenario's: the program's audit says no")
    picks = Merge(parse_report(report)).whole()
    made = with_schedule(scenario, {"kind": "listed", "picks": picks[:MOST_PICKS]})
    if journals_and_answers(program.report(made)) != journals_and_answers(report):
        if len(picks) > MOST_PICKS:
            raise Mistake(f"the report has {len(picks)} events, and a schedule lists at most {MOST_PICKS} picks: "
                          "what comes after them is another order")
        raise Mistake("the program gives another report under the listed schedule")
    return made


def run(args: argparse.Namespace) -> int:
    made = replayed(find_program(args.program), read_scenario(args.file), read_text(args.report))
    sys.stdout.write(json_text(made) + "\n")
    return 0


def add_to(commands: argparse._SubParsersAction[argparse.ArgumentParser]) -> None:
    parser = commands.add_parser("replay", help="the schedule that gives a report of threads again", description=ABOUT)
    parser.add_argument("file", metavar="SCENARIO", help="as exact JSON or as `build` takes it; - is standard input")
    parser.add_argument("report", metavar="REPORT", help="- is standard input")
    parser.set_defaults(run=run)
