"""A report for people."""

from __future__ import annotations

from .calls import AT_ENTER, BY_DRIVER, BY_SHADOW, GONE, REFUSED, Call, calls_of, calls_of_threads
from .facts import STATUSES as NUMBERS
from .folding import folded_lines, short_event
from .guards import stopped_line
from .held import resource_lines
from .report import Part, Report, Thread
from .unstruck import Strike
from .words import CLAUSES, cause_words, counted, short

# The most lines that are shown of what is left of a part.
MOST_LEFT = 16

STATUSES = {
    NUMBERS["done"]: "no part was given up, and every driver kept its class's contract",
    NUMBERS["given_up"]: "a part was given up",
    NUMBERS["contract_broken"]: "a driver broke its class's contract",
}


def answered_text(call: Call) -> str:
    """At which event and by whom a call was answered."""
    events = ", ".join(map(str, call.interruptions))
    interrupted = f", interrupted by a failure at event {events}" if events else ""
    answered = {
        REFUSED: f"answered {REFUSED}, event {call.answered}",
        AT_ENTER: f"answered at its enter, event {call.answered}",
        BY_DRIVER: f"answered by the driver at event {call.answered}",
        BY_SHADOW: f"answered by the shadow at event {call.answered}",
        GONE: f"answered {GONE}, event {call.answered}",
    }.get(call.by, "not answered")
    return f"c{call.number} {answered}{interrupted}"


def thread_lines(thread: Thread, calls: list[Call]) -> list[str]:
    """A thread's operations, each with its answer and who gave it."""
    asked = [f"p{call.part} {short(call.text)}" for call in calls]
    given = [short(answer) for _, answer in thread.answers]
    wide = [max(map(len, texts), default=0) for texts in (asked, given)]
    lines = [f"thread {thread.index} {thread.name}: {counted(len(calls), 'operation')}"]
    for number, (ask, answer, call) in enumerate(zip(asked, given, calls), 1):
        lines.append(f"  {number:3}  {ask:{wide[0]}}  {answer:{wide[1]}}  {answered_text(call)}")
    return lines


def answered_line(calls: list[Call]) -> str:
    """How many calls were answered by whom."""
    counts = {by: sum(call.by == by for call in calls) for by in (BY_DRIVER, BY_SHADOW, AT_ENTER, REFUSED, GONE)}
    by_whom = ", ".join(f"{number} {by}" for by, number in counts.items() if number)
    return f"{counted(len(calls), 'call')}" + (f", answered: {by_whom}" if by_whom else "")


def failure_lines(part: Part) -> list[str]:
    """Each failure, with what the driver was doing and why it failed."""
    asked = {event.call: short(event.text) for event in part.events if event.kind == "invoke"}
    lines: list[str] = []
    for event in part.bursts():
        if event.failed:
            work = f"c{event.call} {asked[event.call]}" if event.call else "a stage of its start"
            if trap := part.guards.get(event.burst):
                lines.append(stopped_line(trap, event.number, work))
                continue
            position = f"event {event.number}, burst {event.burst}, instruction {event.instructions}"
            cause = event.cause or ""
            lines.append(f"failed at {position}, in {work}: {cause} ({cause_words(cause)})")
    return lines


def recovery_lines(part: Part) -> list[str]:
    """The events of each recovery, from the stop of the driver to its resume, and at which the part was given up. A
    driver may be stopped several times before it resumes; the stop after the failure past the limit gives the part
    up."""
    lines: list[str] = []
    stopped = failures = 0
    for event in part.events:
        failures += event.failed
        if event.kind == "stage" and event.text == "stop":
            stopped = stopped or event.number
            if failures > part.limit:
                about = f"{counted(failures, 'failure')}, and its limit is {part.limit}"
                lines.append(f"given up at event {event.number}: {about}")
        if event.kind == "stage" and event.text == "resume" and stopped:
            lines.append(f"recovered from event {stopped} to {event.number}")
            stopped = 0
    return lines


def left_lines(part: Part) -> list[str]:
    """What is left in the device and the kernel objects, what was lost, and what the driver still holds."""
    lines: list[str] = []
    arrived = [event for event in part.events if event.kind == "arrive"]
    if arrived:
        lost = sum(event.answer == "lost" for event in arrived)
        lines.append(f"{counted(len(arrived), 'frame')} arrived, {lost} of them lost at once")
    lines.extend(part.losses)
    left = folded_lines(part.left)
    lines.extend(left[:MOST_LEFT])
    if len(left) > MOST_LEFT:
        lines.append(f".. and {len(left) - MOST_LEFT} lines more of what is left")
    return [*lines, *resource_lines(part), f"config {part.config}"]


def contract_lines(part: Part) -> list[str]:
    """Whether the contract was kept; if not, the break in words and the line of its event."""
    if part.broken is None:
        return ["contract kept"]
    number, clause = part.broken
    broken = f"CONTRACT BROKEN at event {number}, clause {clause}: the driver {CLAUSES[clause]}"
    return [broken, f"  {short_event(part.event(number))}"]


def part_lines(part: Part, strikes: list[Strike]) -> list[str]:
    """A part's summary, with its faults if the scenario is known."""
    head = f"part {part.index} {part.name}, {part.kind}, limit {part.limit}: {counted(len(part.events), 'event')}"
    lines = [f"{head}, {counted(len(part.bursts()), 'burst')}, {counted(part.failures, 'failure')}"]
    summary = [answered_line(calls_of(part)), *(strike.line for strike in strikes)]
    summary += [*failure_lines(part), *recovery_lines(part), *left_lines(part), *contract_lines(part)]
    return lines + ["  " + line for line in summary]


def report_lines(report: Report, strikes: dict[int, list[Strike]] | None = None) -> list[str]:
    """A report for people; `strikes` has what became of the faults of each part."""
    lines = [f"status {report.status}: {STATUSES.get(report.status, 'unknown')}"]
    if report.guards:
        lines.append(f"with a guard, which stopped drivers {counted(len(report.guards), 'time')}")
    for thread, calls in zip(report.threads, calls_of_threads(report)):
        lines += ["", *thread_lines(thread, calls)]
    for part in report.parts:
        lines += ["", *part_lines(part, (strikes or {}).get(part.index, []))]
    return lines
