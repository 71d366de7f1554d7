"""Finds the deed that broke the contract: in the event that a report names, an act on the device or the crossing."""

from __future__ import annotations

from dataclasses import dataclass

from .operations import words_of
from .report import Event, Part
from .state import INSIDE, PartState
from .words import CLAUSES, short


@dataclass(frozen=True)
class Deed:
    """A deed of a burst. `act` is its index among the acts, None for the crossing that ended the burst."""

    event: int
    clause: int
    act: int | None
    text: str

    @property
    def about(self) -> str:
        """The clause, in words: what the driver did."""
        return f"the driver {CLAUSES[self.clause]}"


def wrong_store(before: PartState, act: str) -> int | None:
    """The clause that a store breaks."""
    _, block, words = act.split(" ")
    inside = (call.operation.written(int(block)) for call in before.calls if call.where == INSIDE)
    expected = next((each for each in inside if each is not None), None)
    if expected is None:
        return 1
    return None if expected == words_of(words) else 2


def wrong_sent(before: PartState, number: int, act: str, earlier: int) -> int | None:
    """The clause that a sent frame breaks; `earlier` frames were sent before it in the same burst."""
    call = before.call(number)
    if call is None or call.operation.name != "send" or call.operation.words != words_of(act.split(" ")[1]):
        return 5
    return 6 if call.sent + earlier else None


def wrong_played(before: PartState, act: str, earlier: int) -> int | None:
    """The clause that a sample breaks; `earlier` samples were played before it in the same burst."""
    plays = [call for call in before.calls if call.where == INSIDE and call.operation.name == "play"]
    for call in plays:
        if call.operation.words[call.played + earlier :][:1] == (int(act.split(" ")[1]),):
            return None
    return 10


def wrong_register(before: PartState, act: str) -> int | None:
    """The clause that a change of a register breaks."""
    numbers = tuple(map(int, act.split(" ")[1:]))
    if before.registers[numbers[0]] == numbers[1] or before.stage == f"replay_set {numbers[0]} {numbers[1]}":
        return None
    asked = (call.operation for call in before.calls if call.where == INSIDE)
    return None if any(each.name == "set" and each.numbers == numbers for each in asked) else 12


def wrong_clause(before: PartState, event: Event, index: int) -> int | None:
    """The clause that the act at an index breaks."""
    act = event.acts[index]
    name = act.split(" ")[0]
    earlier = sum(each.split(" ")[0] == name for each in event.acts[:index])
    if name == "store":
        return wrong_store(before, act)
    if name == "sent":
        return wrong_sent(before, event.call, act, earlier)
    if name == "played":
        return wrong_played(before, act, earlier)
    return wrong_register(before, act) if name == "register" else None


def deed_of(part: Part, states: list[PartState]) -> Deed | None:
    """The deed that broke a part's contract; None if it was kept. `states` are those of the part."""
    if part.broken is None:
        return None
    number, clause = part.broken
    event = part.event(number)
    before = states[number - 1]
    for index, act in enumerate(event.acts):
        if wrong_clause(before, event, index) == clause:
            return Deed(number, clause, index, short(act))
    return Deed(number, clause, None, short(event.text))
