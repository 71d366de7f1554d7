"""Which faults of a scenario struck, by the report of its run, and why the others did not.

A report has for each burst the number of its instructions. This is sufficient: a fault strikes if its burst reaches its
instruction, and only a trap or a hang ends a burst before that."""

from __future__ import annotations

from dataclasses import dataclass

from .facts import CHANGES, FAULT_KINDS, STOPS
from .program import Mistake
from .report import Event, Part, Report
from .scenario import Fault, Scenario
from .words import counted

# The kind of fault by the cause that a report has for it.
STOPPED_BY = {cause: kind for kind, cause in STOPS.items()}


@dataclass(frozen=True)
class Strike:
    """A fault of a part's list. If it struck, `event` is the event of its burst; else `event` is 0, and `why` says why
    not."""

    index: int
    fault: Fault
    event: int
    why: str = ""

    @property
    def text(self) -> str:
        """The fault in words, as in `fault 0: poke 2048 = 1 after 3 instructions of burst 7`."""
        where = f"after {self.fault['after']} instructions of burst {self.fault['burst']}"
        return f"fault {self.index}: {strikes_text(self.fault)} {where}"

    @property
    def line(self) -> str:
        return f"{self.text} did not strike: {self.why}" if self.why else f"{self.text} struck, event {self.event}"


def strikes_text(fault: Fault) -> str:
    """Describes what strikes, without the burst and the instruction."""
    kind = str(fault["kind"])
    numbers = [str(fault[key]) for key in FAULT_KINDS.get(kind, ())]
    return f"{kind} {'r' if CHANGES.get(kind) == 'register' else ''}{' = '.join(numbers)}".rstrip()


def ended_by(event: Event, faults: list[Fault]) -> int | None:
    """Returns the index of the fault that ended a burst. Faults strike in the order of their instructions, those before
    one instruction in the order of the list. The first of the kind that the report names is therefore the one."""
    kind = STOPPED_BY.get(event.cause or "")
    own = [index for index, fault in enumerate(faults) if (fault["burst"], fault["kind"]) == (event.burst, kind)]
    return min(own, key=lambda index: (faults[index]["after"], index)) if own else None


def strike_of(part: Part, bursts: dict[int, Event], faults: list[Fault], own: int, index: int) -> Strike:
    """Returns what became of one fault. The first `own` faults are those of the scenario; the traps of a guard
    follow."""
    fault = faults[index]
    event = bursts.get(fault["burst"])
    if event is None:
        return Strike(index, fault, 0, f"the run has no burst {fault['burst']}: {bursts_text(part)}")
    ender = ended_by(event, faults)
    if ender is not None:
        if (fault["after"], index) > (faults[ender]["after"], ender):
            who = f"fault {ender}, a" if ender < own else "the guard's"
            first = f"{who} {faults[ender]['kind']} after {faults[ender]['after']} instructions"
            return Strike(index, fault, 0, f"{first}, ended the burst before")
    elif fault["after"] >= event.instructions:
        count = counted(event.instructions, "instruction")
        return Strike(index, fault, 0, f"burst {event.burst} ended after {count}")
    return Strike(index, fault, event.number)


def bursts_text(part: Part) -> str:
    """Describes how many bursts a part has."""
    count = len(part.bursts())
    return f"{part.name} has bursts 1 to {count}" if count else f"{part.name} has no burst"


def strikes_of(part: Part, faults: list[Fault]) -> list[Strike]:
    """Returns what became of each fault of a part."""
    bursts = {event.burst: event for event in part.bursts()}
    traps = [{"burst": trap.burst, "after": trap.after, "kind": "trap"} for trap in part.guards.values()]
    return [strike_of(part, bursts, [*faults, *traps], len(faults), index) for index in range(len(faults))]


def strikes_of_report(report: Report, scenario: Scenario) -> dict[int, list[Strike]]:
    """Returns the faults of each part of a scenario. A report of another scenario is a mistake."""
    try:
        named = [(part["name"], part["class"]) for part in scenario["parts"]]
        threads = [(thread["name"], len(thread["ops"])) for thread in scenario["threads"]]
        faults = [list(part.get("faults", [])) for part in scenario["parts"]]
    except (KeyError, TypeError) as error:
        raise Mistake("--input takes the scenario of the report, and this is none") from error
    ours = [(thread.name, len(thread.answers)) for thread in report.threads]
    if named != [(part.name, part.kind) for part in report.parts] or threads != ours:
        raise Mistake("the report is of another scenario: its parts or its threads are not those of --input")
    return {part.index: strikes_of(part, each) for part, each in zip(report.parts, faults)}
