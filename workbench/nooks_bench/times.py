"""What a timeline shows of a report: the modes of its parts, their calls, and what happened to them."""

from __future__ import annotations

from collections.abc import Iterable
from dataclasses import dataclass, field

from .calls import Call, calls_of
from .facts import FAULT_KINDS
from .guards import stopped_line
from .held import resource_lines
from .report import Event, GuardTrap, Part, Report
from .unstruck import Strike
from .words import CLAUSES, cause_words

# The modes of a part.
BOOT = "starts"
SERVES = "serves"
RECOVERS = "recovers"
GIVEN_UP = "given up"

# The counts of a report that are losses, and their names here.
LOSSES = {
    "sends": "sends",
    "samples": "samples",
    "busy": "busy",
    "reset": "frames by a reset",
    "full_ring": "frames at a full ring",
    "full_queue": "frames at a full queue",
}


def lettered(names: Iterable[str], taken: str) -> dict[str, str]:
    """A capital for each name: that of its first letter that no earlier name has and that is not taken."""
    found: dict[str, str] = {}
    for name in names:
        free = [letter for letter in name.upper() if letter.isalpha() and letter not in {taken, *found.values()}]
        found[name] = free[0]
    return found


# The letters of stages, of acts on the device, and of a scenario's faults, in texts and in drawings.
STAGES = dict(zip(("stop", "collect", "reset", "load", "init", "replay_set", "replay_open", "resume"), "SCRLIPOU"))
ACTS = {"load": "l", "store": "s", "sent": "t", "popped": "o", "played": "p", "register": "r", "failed": "f"}
SEVERAL = "+"
GUARD = "G"
STRIKES = lettered(FAULT_KINDS, GUARD)


@dataclass(frozen=True)
class Span:
    """Consecutive events of a part in one mode, by the first and the last."""

    mode: str
    first: int
    last: int


@dataclass
class PartTimes:
    """What a timeline shows of a part: its events from `first` to `last`. `strikes` has what became of the scenario's
    faults, if that is known."""

    part: Part
    names: dict[int, str]
    calls: list[Call]
    spans: list[Span]
    first: int
    last: int
    strikes: list[Strike] = field(default_factory=list)

    @property
    def threads(self) -> list[int]:
        return sorted({call.thread for call in self.calls})

    def shows(self, event: int) -> bool:
        return self.first <= event <= self.last

    def lane(self, thread: int) -> list[Call]:
        return [call for call in self.shown_calls() if call.thread == thread]

    def shown_calls(self) -> list[Call]:
        """Returns the calls that are open in the events that are shown."""
        return [call for call in self.calls if call.invoked <= self.last and (call.answered or self.last) >= self.first]

    def events(self, kind: str) -> list[Event]:
        return [event for event in self.part.events if event.kind == kind and self.shows(event.number)]

    def failures(self) -> list[Event]:
        return [event for event in self.events("burst") if event.failed]

    def acting(self) -> list[Event]:
        """Returns the bursts with acts on the device."""
        return [event for event in self.events("burst") if event.acts]

    def guarded(self) -> list[tuple[Event, GuardTrap]]:
        """Returns the failures that a guard caused, each with its trap."""
        guards = self.part.guards
        return [(event, guards[event.burst]) for event in self.failures() if event.burst in guards]

    def broken(self) -> Event | None:
        """Returns the event that broke the contract, if it is shown."""
        if self.part.broken and self.shows(self.part.broken[0]):
            return self.part.event(self.part.broken[0])
        return None

    def struck(self) -> list[Strike]:
        """Returns the faults that struck in the events that are shown."""
        return [strike for strike in self.strikes if strike.event and self.shows(strike.event)]

    def loss_text(self) -> str:
        """Describes what was lost, empty if nothing was."""
        losses: list[str] = []
        for line in self.part.losses:
            words = line.split(" ")
            named = dict(zip(words[1::2], words[2::2]))
            losses += [f"{LOSSES[name]} {number}" for name, number in named.items() if name in LOSSES and number != "0"]
        return ", ".join(losses)

    def notes(self) -> list[str]:
        """Returns in words what the lanes do not show: causes, the broken clause, losses, faults that missed, and a
        leak."""
        lines = [failure_note(self.part, event) for event in self.failures()]
        if self.part.broken:
            number, clause = self.part.broken
            lines.append(f"CONTRACT BROKEN at event {number}, clause {clause}: the driver {CLAUSES[clause]}")
        if self.loss_text():
            lines.append(f"losses: {self.loss_text()}")
        lines.extend(strike.line for strike in self.strikes if strike.why)
        return [*lines, *resource_lines(self.part)]


def failure_note(part: Part, event: Event) -> str:
    """Describes why a driver failed at an event, or which deed a guard stopped there."""
    if trap := part.guards.get(event.burst):
        return stopped_line(trap, event.number)
    return f"failure at event {event.number}: {event.cause} ({cause_words(event.cause or '')})"


def act_letter(event: Event) -> str:
    """Returns the letter of a burst's acts: that of their kind, or the one for several kinds."""
    kinds = {act.split(" ")[0] for act in event.acts}
    return ACTS[kinds.pop()] if len(kinds) == 1 else SEVERAL


def spans_of(part: Part) -> list[Span]:
    """Returns the modes of a part: it starts until the first resume, and is away from each stop to the next resume."""
    spans: list[Span] = []
    mode, first = BOOT, 1
    stops = [event.number for event in part.events if event.kind == "stage" and event.text == "stop"]
    last_stop = max(stops, default=0)
    for event in part.events:
        following = mode
        if event.kind == "stage" and event.text == "stop":
            following = GIVEN_UP if part.given_up and event.number == last_stop else RECOVERS
            if following == mode:
                continue
            spans.append(Span(mode, first, event.number - 1))
            mode, first = following, event.number
        if event.kind == "stage" and event.text == "resume":
            spans.append(Span(mode, first, event.number))
            mode, first = SERVES, event.number + 1
    spans.append(Span(mode, first, len(part.events)))
    return [span for span in spans if span.first <= span.last]


def times_of(report: Report, strikes: dict[int, list[Strike]] | None = None) -> list[PartTimes]:
    """Returns the timelines of a report's parts, each with all of its events."""
    names = {thread.index: thread.name for thread in report.threads}
    known = strikes or {}
    return [
        PartTimes(part, names, calls_of(part), spans_of(part), 1, len(part.events), known.get(part.index, []))
        for part in report.parts
    ]
