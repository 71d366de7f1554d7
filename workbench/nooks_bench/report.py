"""Parses a report of the program (docs/REPORT.md; the grammar is in docs/AUDIT.md), and the lines that `guard` prints
before one (docs/GUARD.md)."""

from __future__ import annotations

import re
from dataclasses import dataclass, field

from .facts import CLASSES, LIMITS, WORDS
from .program import Mistake

# The context in which the shadow's own calls run.
SHADOW = LIMITS["SHADOW"]

# The first words of the lines that count losses, of those that have what is left, and of those after the threads.
LOSSES, ENDING = WORDS["losses"], WORDS["ending"]
LEFT = set(WORDS["closing"]) - {*LOSSES, "config", "failures", "contract"}

PART = re.compile(rf"part (\d+) (\w+) ({'|'.join(CLASSES)}) limit (\d+)")
EVENT = re.compile(r"(\d+) (invoke|enter|burst|stage|arrive) (.*)")
INVOKE = re.compile(r"c(\d+) t(\d+) (.*?)(?: -> (.*))?")
ENTER = re.compile(r"c(\d+) x(\d+) try (\d+)(?: -> (.*))?")
BURST = re.compile(r"x(\d+) c(\d+) b(\d+) n(\d+) (.*?)(?: -> (.*?))?(?: ! (.*))?")
STAGE = re.compile(rf"((?:{'|'.join(WORDS['stages'])})(?: \d+ \d+)?)(.*)")
REPLY = re.compile(r" -> c(\d+) ((?:\w+)(?: \[[^]]*\]| \w+)?)")
ARRIVE = re.compile(r"(\[[^]]*\]) (kept|lost)")
CONTRACT = re.compile(r"contract (?:kept|broken event (\d+) clause (\d+))")
ANSWER = re.compile(r"(\d+) p(\d+) (.*)")
GUARD = re.compile(r"guard (\d+) burst (\d+) after (\d+) clause (\d+)")


@dataclass(frozen=True)
class Event:
    """One event of a part. A field that its kind does not have is 0, empty or None."""

    number: int
    kind: str
    line: str
    call: int = 0
    context: int = -1
    attempt: int = 0
    text: str = ""
    answer: str | None = None
    burst: int = 0
    instructions: int = 0
    acts: tuple[str, ...] = ()
    cause: str | None = None
    replies: tuple[tuple[int, str], ...] = ()

    @property
    def failed(self) -> bool:
        return self.cause is not None


@dataclass(frozen=True)
class GuardTrap:
    """A trap of a guard: `after` instructions of a burst come before the deed that would have broken a clause. `deed`
    has the deed in the words of a report, if the program was asked for it."""

    part: int
    burst: int
    after: int
    clause: int
    deed: str = ""


@dataclass
class Part:
    """A part's section. `left` has the lines of objects and of the device, `losses` those of losses and frames, and
    `guards` the traps of a guard by burst."""

    index: int
    name: str
    kind: str
    limit: int
    events: list[Event] = field(default_factory=list)
    left: list[str] = field(default_factory=list)
    config: str = ""
    losses: list[str] = field(default_factory=list)
    failures: int = 0
    broken: tuple[int, int] | None = None
    guards: dict[int, GuardTrap] = field(default_factory=dict)

    @property
    def given_up(self) -> bool:
        return self.failures > self.limit

    def bursts(self) -> list[Event]:
        return [event for event in self.events if event.kind == "burst"]

    def event(self, number: int) -> Event:
        return self.events[number - 1]


@dataclass
class Thread:
    """A thread's section: the part and the answer of each operation."""

    index: int
    name: str
    answers: list[tuple[int, str]] = field(default_factory=list)


@dataclass
class Report:
    """A report. If it is one of a guarded run, `guards` has the traps of the guard in the order of the run.

    `taps` has the lines between the threads and the status."""

    guards: list[GuardTrap] = field(default_factory=list)
    parts: list[Part] = field(default_factory=list)
    threads: list[Thread] = field(default_factory=list)
    taps: list[str] = field(default_factory=list)
    status: int = -1


def parse_event(line: str) -> Event | None:
    """Parses the line of an event, None if it is another line."""
    found = EVENT.fullmatch(line)
    if not found:
        return None
    number, kind, rest = int(found[1]), found[2], found[3]
    if kind == "invoke" and (match := INVOKE.fullmatch(rest)):
        return Event(number, kind, line, call=int(match[1]), context=int(match[2]), text=match[3], answer=match[4])
    if kind == "enter" and (match := ENTER.fullmatch(rest)):
        call, context, attempt = (int(match[group]) for group in (1, 2, 3))
        return Event(number, kind, line, call=call, context=context, attempt=attempt, answer=match[4])
    if kind == "burst" and (match := BURST.fullmatch(rest)):
        end, *acts = match[5].split(" | ")
        x, c, b, n = (int(match[group]) for group in (1, 2, 3, 4))
        return Event(number, kind, line, c, x, 0, end, match[6], b, n, tuple(acts), match[7])
    if kind == "stage" and (match := STAGE.fullmatch(rest)):
        replies = tuple((int(call), answer) for call, answer in REPLY.findall(match[2]))
        return Event(number, kind, line, text=match[1], replies=replies)
    if kind == "arrive" and (match := ARRIVE.fullmatch(rest)):
        return Event(number, kind, line, text=match[1], answer=match[2])
    return None


class Lines:
    """Builds a report from its lines."""

    def __init__(self) -> None:
        self.report = Report()

    def take(self, line: str) -> None:
        """Adds a line to its section. A line that no report has is a mistake."""
        words = line.split(" ")
        if found := PART.fullmatch(line):
            self.report.parts.append(self.part(int(found[1]), found[2], found[3], int(found[4])))
        elif not self.report.parts and (found := GUARD.fullmatch(line)):
            part, burst, after, clause = map(int, found.groups())
            self.report.guards.append(GuardTrap(part, burst, after, clause))
        elif words[0] == "thread" and len(words) == 3:
            self.report.threads.append(Thread(int(words[1]), words[2]))
        elif words[0] == ENDING[-1]:
            self.report.status = int(words[1])
        elif words[0] in ENDING:
            self.report.taps.append(line)
        elif self.report.threads:
            self.answer(line)
        elif self.report.parts:
            self.of_part(self.report.parts[-1], line, words)
        else:
            raise Mistake(f"no line of a report: {line[:80]!r}")

    def part(self, index: int, name: str, kind: str, limit: int) -> Part:
        guards = {trap.burst: trap for trap in self.report.guards if trap.part == index}
        return Part(index, name, kind, limit, guards=guards)

    def answer(self, line: str) -> None:
        found = ANSWER.fullmatch(line)
        if not found:
            raise Mistake(f"no answer of a thread: {line[:80]!r}")
        self.report.threads[-1].answers.append((int(found[2]), found[3]))

    def of_part(self, part: Part, line: str, words: list[str]) -> None:
        if event := parse_event(line):
            if event.number != len(part.events) + 1:
                raise Mistake(f"an event is missing before {line[:80]!r}")
            part.events.append(event)
        elif words[0] in LEFT:
            part.left.append(line)
        elif words[0] == "config":
            part.config = line[7:]
        elif words[0] in LOSSES:
            part.losses.append(line)
        elif words[0] == "failures":
            part.failures = int(words[1])
        elif found := CONTRACT.fullmatch(line):
            part.broken = (int(found[1]), int(found[2])) if found[1] else None
        else:
            raise Mistake(f"no line of a report: {line[:80]!r}")


def parse_report(text: str) -> Report:
    """Parses a report. A text that is not one is a mistake."""
    lines = Lines()
    for line in text.split("\n"):
        if line:
            lines.take(line)
    if lines.report.status < 0:
        raise Mistake("the report has no line of its status: it is not whole")
    return lines.report
