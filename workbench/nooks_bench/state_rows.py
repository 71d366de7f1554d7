"""The states of a part as rows of text, each with its history: what it says from which event on."""

from __future__ import annotations

from typing import Any, Callable

from .event_words import waits_for
from .held import Resource
from .state import INSIDE, INTERRUPTED, LastAnswer, OpenCall, PartState
from .times import LOSSES
from .words import CLAUSES, counted, short

# A section has rows by name, and a row has what it says at each event at which that changes. Null
# represents an absent row.
Rows = dict[str, Any]
History = list[tuple[int, Any]]
Sections = dict[str, dict[str, History]]


def mode_rows(now: PartState) -> Rows:
    stage = f"{now.stage}: the shadow is in the driver for it" if now.shadow else now.stage and f"{now.stage} is due"
    return {"mode": now.mode, "stage": stage, "failures": str(now.failures)}


def call_words(call: OpenCall, now: PartState) -> str:
    """Describes where an open call is."""
    tries = f"try {call.attempts}"
    if call.where == INSIDE:
        return f"inside the driver, context {call.thread}, {tries}, {counted(call.bursts, 'burst')}"
    if call.where == INTERRUPTED:
        return f"interrupted by the failure in its {tries}"
    again = f", after {tries} was interrupted" if call.attempts else ""
    return f"held {waits_for(call, now)}{again}"


def call_rows(now: PartState) -> Rows:
    """Returns a row for each thread: its open call, or its last one that was answered."""
    rows: Rows = {str(thread): answered_row(last) for thread, last in now.last_answers.items()}
    for call in now.calls:
        where = call.where
        rows[str(call.thread)] = [where, f"c{call.number}", short(call.text), call_words(call, now)]
    return rows


def answered_row(last: LastAnswer) -> list[str]:
    return ["answered", f"c{last.call}", short(last.text), f"answered at event {last.event}: {short(last.answer)}"]


def number_rows(numbers: tuple[int, ...]) -> Rows:
    return {str(index): str(number) for index, number in enumerate(numbers)}


def list_rows(lists: dict[int, str]) -> Rows:
    """Returns lists of words by number: shortened, and in full."""
    return {str(number): [short(words), words] for number, words in lists.items()}


def frame_rows(now: PartState) -> Rows:
    return {
        "ring": [short(frame) for frame in now.ring],
        "driver": [short(frame) for frame in now.popped],
        "queue": [short(frame) for frame in now.queue],
    }


def counted_row(out: tuple[int, str], noun: str) -> str:
    return f"{counted(out[0], noun)}, the last {short(out[1])}" if out[0] else f"no {noun}"


def stream_rows(now: PartState) -> Rows:
    holder = "nobody" if now.holder is None else str(now.holder)
    return {"holder": holder, "played": counted_row(now.played, "sample")}


def resource_words(resources: tuple[Resource, ...], lent: tuple[tuple[int, str], ...]) -> list[str]:
    """Names what the driver holds, as `stage collect` does."""
    return [*(each.text for each in resources), *(f"buffer {context} {right}" for context, right in lent)]


def loss_rows(now: PartState) -> Rows:
    return {"": ", ".join(f"{LOSSES[name]} {number}" for name, number in now.losses)}


def broken_rows(now: PartState) -> Rows:
    if now.broken is None:
        return {"": ""}
    number, clause = now.broken
    return {"": f"broken at event {number}, clause {clause}: the driver {CLAUSES[clause]}"}


# The fields that each section is made from, and how.
SECTIONS: dict[str, tuple[tuple[str, ...], Callable[[PartState], Rows]]] = {
    "part": (("mode", "stage", "shadow", "failures"), mode_rows),
    "calls": (("calls", "last_answers", "mode"), call_rows),
    "record": (("record",), lambda now: number_rows(now.record)),
    "registers": (("registers",), lambda now: number_rows(now.registers)),
    "blocks": (("blocks",), lambda now: list_rows(now.blocks)),
    "frames": (("ring", "popped", "queue"), frame_rows),
    "wire": (("wire",), lambda now: {"": counted_row(now.wire, "frame")}),
    "stream": (("holder", "played"), stream_rows),
    "objects": (("objects",), lambda now: list_rows(now.objects)),
    "holds": (("resources", "lent"), lambda now: {"": resource_words(now.resources, now.lent)}),
    "losses": (("losses",), loss_rows),
    "contract": (("broken",), broken_rows),
}

# The sections that a class does not have.
WITHOUT = {
    "block": {"frames", "wire", "stream"},
    "net": {"blocks", "stream"},
    "sound": {"blocks", "frames", "wire"},
}


def note(history: dict[str, History], event: int, rows: Rows) -> None:
    """Records what rows say from an event on."""
    for name, value in rows.items():
        known = history.setdefault(name, [])
        if not known or known[-1][1] != value:
            known.append((event, value))
    for name, known in history.items():
        if name not in rows and known[-1][1] is not None:
            known.append((event, None))


def histories(states: list[PartState], kind: str) -> Sections:
    """Returns the sections of a part of a class, from its states."""
    found: Sections = {name: {} for name in SECTIONS if name not in WITHOUT[kind]}
    for name in found:
        fields, rows_of = SECTIONS[name]
        before: list[object] = []
        for event, now in enumerate(states):
            made = [getattr(now, each) for each in fields]
            if event == 0 or any(one is not other for one, other in zip(made, before)):
                note(found[name], event, rows_of(now))
            before = made
    return found
