"""The state of a part after each event, computed from its events; nothing else computes it.

Everything here follows from the lines of a report (docs/REPORT.md). What a report does not say, such as the words of
the driver's memory or the block register of a disk, is not part of it."""

from __future__ import annotations

from dataclasses import dataclass, field, replace

from .held import COPY_WORDS, Resource, Resources
from .operations import BUFFERS, Operation, conflict, parse_operation
from .ports import REGISTERS
from .report import SHADOW, Event, Part
from .times import BOOT, GIVEN_UP, RECOVERS, SERVES

# The stage that follows each one, if it does not depend on the record.
NEXT_STAGE = {"stop": "collect", "collect": "reset", "reset": "load", "load": "init"}

NET_RX = "service 6 "

# Where an open call is: it waits, it is in the driver, or a failure interrupted it and `stop` has not come yet.
HELD = "held"
INSIDE = "inside"
INTERRUPTED = "cut"


@dataclass(frozen=True)
class OpenCall:
    """A call that is not answered. `sent` and `played` count the frames and samples of its bursts; `waits_for` has the
    earlier open calls that it waits for."""

    number: int
    thread: int
    text: str
    operation: Operation
    where: str = HELD
    attempts: int = 0
    bursts: int = 0
    sent: int = 0
    played: int = 0
    waits_for: tuple[int, ...] = ()


@dataclass(frozen=True)
class LastAnswer:
    """The last answer that a thread got from the part, and at which event."""

    call: int
    text: str
    answer: str
    event: int


@dataclass(frozen=True)
class PartState:
    """The state after an event. `stage` is the stage that is due in a boot or a recovery, as an answer `busy` names it;
    `shadow` is true while the shadow is inside the driver for this stage. Blocks, frames and objects are lists as in a
    report."""

    mode: str
    stage: str
    record: tuple[int, ...]
    registers: tuple[int, ...]
    shadow: bool = False
    failures: int = 0
    calls: tuple[OpenCall, ...] = ()
    last_answers: dict[int, LastAnswer] = field(default_factory=dict)
    blocks: dict[int, str] = field(default_factory=dict)
    ring: tuple[str, ...] = ()
    popped: tuple[str, ...] = ()
    queue: tuple[str, ...] = ()
    wire: tuple[int, str] = (0, "")
    holder: int | None = None
    played: tuple[int, str] = (0, "")
    objects: dict[int, str] = field(default_factory=dict)
    resources: tuple[Resource, ...] = ()
    lent: tuple[tuple[int, str], ...] = ()
    losses: tuple[tuple[str, int], ...] = ()
    broken: tuple[int, int] | None = None

    def call(self, number: int) -> OpenCall | None:
        return next((call for call in self.calls if call.number == number), None)


class Following:
    """Follows the events of a part. Each kind of event has a method that changes `now`."""

    def __init__(self, part: Part) -> None:
        self.part = part
        self.resources = Resources()
        self.defaults = tuple(value for _, value in REGISTERS[part.kind])
        self.losses: dict[str, int] = {}
        self.now = PartState(BOOT, "load", self.defaults, self.defaults)

    def change(self, **fields: object) -> None:
        self.now = replace(self.now, **fields)

    def see(self, event: Event) -> PartState:
        """Processes an event, and returns the state after it."""
        {"invoke": self.invoke, "enter": self.enter, "burst": self.burst, "stage": self.stage,
         "arrive": self.arrive}[event.kind](event)
        if event.kind in ("burst", "stage"):
            self.resources.see(event)
            resources = tuple(self.resources.list())
            if resources != self.now.resources:
                self.change(resources=resources)
        if self.part.broken and self.part.broken[0] == event.number:
            self.change(broken=self.part.broken)
        return self.now

    # Calls.

    def invoke(self, event: Event) -> None:
        operation = parse_operation(event.text)
        call = OpenCall(event.call, event.context, event.text, operation)
        if event.answer is None:
            waits_for = (each.number for each in self.now.calls if conflict(each.operation, operation))
            call = replace(call, waits_for=tuple(waits_for))
        self.change(calls=(*self.now.calls, call))
        self.answered(event, event.call, event.answer)

    def enter(self, event: Event) -> None:
        call = self.now.call(event.call)
        if call and event.answer is None:
            self.put(replace(call, where=INSIDE, attempts=event.attempt, bursts=0))
            if call.operation.name in BUFFERS:
                self.change(lent=tuple(sorted((*self.now.lent, (call.thread, BUFFERS[call.operation.name])))))
        self.answered(event, event.call, event.answer)

    def put(self, call: OpenCall) -> None:
        """Replaces the call of the same number."""
        self.change(calls=tuple(call if each.number == call.number else each for each in self.now.calls))

    def answered(self, event: Event, number: int, answer: str | None) -> None:
        """Closes a call if there is an answer, and applies what the answer does to the kernel's side."""
        call = self.now.call(number)
        if answer is None or call is None:
            return
        rest = (replace(each, waits_for=tuple(other for other in each.waits_for if other != number))
                for each in self.now.calls if each.number != number)
        last = LastAnswer(number, call.text, answer, event.number)
        self.change(calls=tuple(rest), last_answers={**self.now.last_answers, call.thread: last})
        if answer.startswith("frame "):
            self.change(queue=self.now.queue[1:])
        if answer.startswith("busy "):
            self.lose("busy", 1)
        if answer == "done" and call.operation.name == "send" and not call.sent:
            self.lose("sends", 1)
        if answer == "done" and call.operation.name == "play":
            self.lose("samples", max(len(call.operation.words) - call.played, 0))

    def lose(self, name: str, more: int) -> None:
        if more:
            self.losses[name] = self.losses.get(name, 0) + more
            self.change(losses=tuple(self.losses.items()))

    # Bursts.

    def burst(self, event: Event) -> None:
        for act in event.acts:
            self.act(event.call, act)
        if event.text.startswith("service ") and event.text.endswith("]"):
            self.moved(event.text)
        call = self.now.call(event.call)
        if call and event.context != SHADOW:
            self.put(replace(call, bursts=call.bursts + 1))
        if event.failed:
            self.fail(event)
        elif event.context == SHADOW and event.text.startswith("reply "):
            self.next_stage()
        elif call and event.answer is not None:
            self.replied(event, call)

    def act(self, number: int, act: str) -> None:
        """Applies an act."""
        name, _, rest = act.partition(" ")
        call = self.now.call(number)
        if name == "store":
            block, _, words = rest.partition(" ")
            blocks = {**self.now.blocks, int(block): words}
            if not words.strip("[0,]"):
                blocks.pop(int(block))
            self.change(blocks=blocks)
        elif name == "register":
            key, value = map(int, rest.split(" "))
            registers = self.now.registers
            self.change(registers=(*registers[:key], value, *registers[key + 1 :]))
        elif name == "sent":
            self.change(wire=(self.now.wire[0] + 1, rest))
            if call:
                self.put(replace(call, sent=call.sent + 1))
        elif name == "popped":
            self.change(ring=self.now.ring[1:], popped=(*self.now.popped, rest))
        elif name == "played":
            self.change(played=(self.now.played[0] + 1, rest))
            if call:
                self.put(replace(call, played=call.played + 1))

    def moved(self, text: str) -> None:
        """Applies a service that moved words: a frame was handed up, or a kernel object was given back."""
        prefix, _, words = text.rpartition(" ")
        numbers = prefix.split(" ")
        if text.startswith(NET_RX):
            self.change(popped=self.now.popped[1:])
            if numbers[5] == "1":
                self.change(queue=(*self.now.queue, words))
            else:
                self.lose("full_queue", 1)
        else:
            objects = {**self.now.objects, int(numbers[2]): words}
            self.change(objects={each: now for each, now in objects.items() if now != first_words(each)})

    def replied(self, event: Event, call: OpenCall) -> None:
        """Applies a reply of the driver that was accepted."""
        operation = call.operation
        if event.answer == "done" and operation.name == "set":
            key, value = operation.numbers
            record = self.now.record
            self.change(record=(*record[:key], value, *record[key + 1 :]))
        if event.answer == "done" and operation.name in ("open", "close"):
            self.change(holder=call.thread if operation.name == "open" else None)
        self.change(lent=tuple(each for each in self.now.lent if each[0] != call.thread))
        self.answered(event, call.number, event.answer)

    def fail(self, event: Event) -> None:
        calls = tuple(replace(call, where=INTERRUPTED) if call.where == INSIDE else call for call in self.now.calls)
        shadow = self.now.shadow and event.context != SHADOW
        self.change(calls=calls, failures=self.now.failures + 1, mode=RECOVERS, stage="stop", shadow=shadow)

    # Stages.

    def stage(self, event: Event) -> None:
        name = event.text.split(" ")[0]
        if name == "stop":
            self.stop(event)
        elif name == "resume":
            self.change(mode=SERVES, stage="")
        elif name in ("init", "replay_set", "replay_open"):
            self.change(shadow=True)
        elif name == "collect" and self.now.mode == GIVEN_UP:
            self.change(stage="", lent=())
        else:
            self.change(stage=NEXT_STAGE[name])
        if name == "collect":
            self.change(lent=())
        if name == "reset":
            lost = len(self.now.ring) + len(self.now.popped)
            self.change(registers=self.defaults, ring=(), popped=())
            self.lose("reset", lost)

    def stop(self, event: Event) -> None:
        given_up = self.now.failures > self.part.limit
        self.change(mode=GIVEN_UP if given_up else RECOVERS, stage="collect", shadow=False)
        for number, answer in event.replies:
            self.answered(event, number, answer)
        self.change(calls=tuple(replace(call, where=HELD, bursts=0) for call in self.now.calls))

    def next_stage(self) -> None:
        """Makes the next stage due, since the shadow's call is done."""
        key = int(self.now.stage.split(" ")[1]) + 1 if self.now.stage.startswith("replay_set") else 0
        replays = [f"replay_set {each} {self.now.record[each]}" for each in range(key, len(self.defaults))
                   if self.now.record[each] != self.defaults[each]]
        if self.now.holder is not None:
            replays.append("replay_open")
        done = self.now.stage == "replay_open" or not replays
        self.change(stage="resume" if done else replays[0], shadow=False)

    # Frames.

    def arrive(self, event: Event) -> None:
        if event.answer == "kept":
            self.change(ring=(*self.now.ring, event.text))
        else:
            self.lose("full_ring", 1)


def first_words(number: int) -> str:
    """Returns the initial words of a kernel object: its number, followed by zeros."""
    return f"[{number}{',0' * (COPY_WORDS - 1)}]"


def states_of(part: Part) -> list[PartState]:
    """Returns the states of a part: before the first event, and after each event."""
    following = Following(part)
    return [following.now, *(following.see(event) for event in part.events)]
