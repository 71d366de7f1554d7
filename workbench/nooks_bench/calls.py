"""The calls of a report: when each was invoked, inside the driver, interrupted and answered."""

from __future__ import annotations

from dataclasses import dataclass, field

from .facts import WORDS
from .report import Event, Part, Report

# Who answered a call. A wrong operation is answered at its invocation, whatever the driver does.
REFUSED = "at once, as a wrong operation"
AT_ENTER = "at its enter"
BY_DRIVER = "by the driver"
BY_SHADOW = "by the shadow"
GONE = "with gone, since the part is given up"
UNANSWERED = "not answered"

# The answers to an operation that is wrong by itself (docs/REPORT.md).
WRONG = WORDS["wrong"]


def answerer(answer: str) -> str:
    """Who gave an answer outside the driver: at an invocation, or when the driver was stopped."""
    word = answer.split(" ")[0]
    if word in WRONG:
        return REFUSED
    return GONE if word == "gone" else BY_SHADOW


@dataclass
class Call:
    """A call of a thread on a part. `inside` has its stays in the driver, each from the event that began it to the one
    that ended it; `interruptions` has the failures that interrupted it, and `bursts` the bursts for it, by their
    events."""

    number: int
    part: int
    thread: int
    text: str
    invoked: int
    inside: list[tuple[int, int]] = field(default_factory=list)
    interruptions: list[int] = field(default_factory=list)
    bursts: list[int] = field(default_factory=list)
    answered: int = 0
    answer: str = ""
    by: str = UNANSWERED
    entered: int = 0

    def leave(self, event: int) -> None:
        """Ends its stay in the driver, if it is inside."""
        if self.entered:
            self.inside.append((self.entered, event))
            self.entered = 0

    def close(self, event: int, answer: str, by: str) -> None:
        self.leave(event)
        self.answered, self.answer, self.by = event, answer, by


class Follower:
    """Follows a part's events."""

    def __init__(self, part: Part) -> None:
        self.part = part.index
        self.calls: dict[int, Call] = {}

    def see(self, event: Event) -> None:
        if event.kind == "invoke":
            call = Call(event.call, self.part, event.context, event.text, event.number)
            self.calls[event.call] = call
            if event.answer is not None:
                call.close(event.number, event.answer, answerer(event.answer))
        elif event.kind == "enter":
            call = self.calls[event.call]
            call.entered = event.number
            if event.answer is not None:
                call.close(event.number, event.answer, AT_ENTER)
        elif event.kind == "burst":
            self.burst(event)
        for number, answer in event.replies:
            self.calls[number].close(event.number, answer, answerer(answer))

    def burst(self, event: Event) -> None:
        if event.call in self.calls:
            self.calls[event.call].bursts.append(event.number)
            if event.answer is not None:
                self.calls[event.call].close(event.number, event.answer, BY_DRIVER)
        if event.failed:
            for call in self.calls.values():
                if call.entered:
                    call.interruptions.append(event.number)
                    call.leave(event.number)


def calls_of(part: Part) -> list[Call]:
    """The calls on a part, in the order of their invocations."""
    follower = Follower(part)
    for event in part.events:
        follower.see(event)
    for call in follower.calls.values():
        call.leave(len(part.events))
    return list(follower.calls.values())


def calls_of_threads(report: Report) -> list[list[Call]]:
    """For each thread its calls, in the order of its operations. On each part its invocations are in that order."""
    by_part = {part.index: calls_of(part) for part in report.parts}
    found: list[list[Call]] = []
    for thread in report.threads:
        calls: list[Call] = []
        for part, _ in thread.answers:
            call = next(each for each in by_part[part] if each.thread == thread.index and each not in calls)
            calls.append(call)
        found.append(calls)
    return found
