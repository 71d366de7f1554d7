"""Each event of a part in a sentence or two."""

from __future__ import annotations

import re
from typing import Collection

from .calls import AT_ENTER, BY_DRIVER, answerer
from .folding import folded_lines
from .report import SHADOW, Event
from .state import HELD, OpenCall, PartState
from .times import BOOT, RECOVERS
from .words import cause_words, counted, service_name, short

SERVICE = re.compile(r"service (\d+) (\d+) (\d+)(?: = (\d+))?(?: (\[.*\]))?")

# What is done in a stage; docs/REPORT.md has the same in its table.
STAGES = {
    "stop": "The driver is stopped: all of its contexts end",
    "collect": "The kernel takes back what the driver held",
    "reset": "The device is reset",
    "load": "The driver's image is loaded",
    "init": "The shadow enters the driver at its init",
    "replay_set": "The shadow enters the driver at its set, to bring register {0} back to {1}",
    "replay_open": "The shadow enters the driver at its open, to open the stream again",
    "resume": "The driver serves calls: those that are held may enter",
}


def asked(call: OpenCall) -> str:
    return f"c{call.number} {short(call.text)}"


def waits_for(call: OpenCall, now: PartState) -> str:
    """What a held call waits for."""
    if now.mode == BOOT:
        return "until the driver has started"
    if now.mode == RECOVERS:
        return "until the driver is back"
    if call.waits_for:
        return f"until c{call.waits_for[0]} is answered, which it conflicts with"
    return "until it enters"


class Sentences:
    """Describes the events of one part. `names` has the threads' names, `guarded` the bursts that a guard stopped."""

    def __init__(self, names: dict[int, str], guarded: Collection[int] = ()) -> None:
        self.names = names
        self.guarded = guarded

    def name(self, thread: int) -> str:
        return self.names.get(thread, f"thread {thread}")

    def of(self, event: Event, before: PartState, after: PartState) -> str:
        """The sentences for an event, given the states before and after it."""
        if event.kind == "invoke":
            return self.invoke(event, after)
        if event.kind == "enter":
            return self.enter(event, before)
        if event.kind == "burst":
            return self.burst(event, before)
        return self.stage(event, after) if event.kind == "stage" else arrived(event)

    def invoke(self, event: Event, after: PartState) -> str:
        prefix = f"{self.name(event.context)} invokes {short(event.text)}. Call c{event.call} is "
        call = after.call(event.call)
        if event.answer is None and call:
            return f"{prefix}held {waits_for(call, after)}."
        answer = event.answer or ""
        return f"{prefix}answered {answerer(answer)}: {short(answer)}."

    def enter(self, event: Event, before: PartState) -> str:
        call = before.call(event.call)
        what = asked(call) if call else f"c{event.call}"
        if event.answer is not None:
            answered = f"is answered {AT_ENTER}, without the driver: {short(event.answer)}"
            return f"{self.name(event.context)}'s {what} {answered}."
        again = f", its try {event.attempt}: it starts from the beginning" if event.attempt > 1 else ""
        return f"{self.name(event.context)}'s {what} goes into the driver, context {event.context}{again}."

    def burst(self, event: Event, before: PartState) -> str:
        call = before.call(event.call)
        whose = f"the shadow's {before.stage.split(' ')[0]}" if event.context == SHADOW else f"c{event.call}"
        whose = f"{self.name(event.context)}'s {asked(call)}" if call else whose
        did = f": {', '.join(folded_lines(list(event.acts)))}" if event.acts else ""
        return f"The driver works {counted(event.instructions, 'instruction')} for {whose}{did}. {self.end(event)}"

    def end(self, event: Event) -> str:
        """How a burst ended."""
        if event.burst in self.guarded:
            return "The guard stops it: a failure like any other."
        if event.cause:
            return f"It fails: {cause_words(event.cause)} ({event.cause})."
        if event.answer is not None:
            by = f"c{event.call} is answered {BY_DRIVER}"
            return f"It replies {event.text.split(' ')[1]}, and {by}: {short(event.answer)}."
        if event.text == "pause":
            return "It pauses after its 64th act, and continues with another burst."
        found = SERVICE.fullmatch(event.text)
        if not found:
            return f"It replies {event.text.split(' ')[1]}."
        service, first, second, result, words = found.groups()
        moved = f" {short(words)}" if words else ""
        return f"It calls the kernel's {service_name(int(service))}{moved}, r1 = {first}, r2 = {second}: {result}."

    def stage(self, event: Event, after: PartState) -> str:
        name, *numbers = event.text.split(" ")
        details = [f"c{number} is answered {answerer(answer)}: {short(answer)}" for number, answer in event.replies]
        if name == "stop":
            details += [f"{asked(call)} is held" for call in after.calls if call.where == HELD]
        text = STAGES[name].format(*numbers)
        return ". ".join([text, *details]) + (f": {event.line.partition(' collect ')[2]}." if has_found(event) else ".")


def has_found(event: Event) -> bool:
    """Whether a collect names what the driver held."""
    return " collect " in event.line


def arrived(event: Event) -> str:
    outcome = "kept in the device's ring" if event.answer == "kept" else "lost, since the ring is full"
    return f"A frame comes from the wire: {short(event.text)}, {outcome}."
