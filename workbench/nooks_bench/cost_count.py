"""What the protection of a part did in a run, counted from its events.

A report has each entry of the driver, each burst with its instructions and acts, each kernel call with the words that
it moved, and each stage. The rest follows from an event by a rule of the kernel and is counted by it. A burst enters
the driver's domain and leaves it; a call with a buffer has its words copied there and the rest of the buffer cleared; a
buffer that is lent for writing has the rights of its pages changed, and changed back when it is taken back; a load
creates every page of the driver again."""

from __future__ import annotations

import re
from collections import Counter
from dataclasses import dataclass, fields

from .calls import REFUSED, answerer
from .facts import LIMITS, MEMORY_MAP
from .held import BORROWS, COPY_WORDS, GIVES_BACK, SERVED
from .operations import BLOCK_WORDS, BUFFERS, Operation, parse_operation
from .program import Mistake
from .report import SHADOW, Event, Part

PAGE_WORDS = MEMORY_MAP["PAGE_WORDS"]
BUFFER_WORDS = (MEMORY_MAP["BUFFERS_END"] - MEMORY_MAP["STACKS_END"]) // LIMITS["CONTEXTS"]
BUFFER_PAGES = BUFFER_WORDS // PAGE_WORDS

# A load creates all pages below the kernel's objects again.
LOADED_PAGES = MEMORY_MAP["BUFFERS_END"] // PAGE_WORDS

# A burst enters the driver's domain and leaves it.
CROSSINGS = 2

WRITABLE = re.compile(r" buffer \d+ write")
MOVED = re.compile(r"\[([0-9,]+)\]$")


@dataclass
class Counts:
    """What was done for some calls, for a boot or for recoveries. `calls` counts those invoked, `refused` those of them
    that were wrong by themselves and answered at once, and `entries` how often one entered the driver, more than once
    if it was interrupted. `crossings` counts changes of domain, `copied` and `cleared` words of buffers and kernel
    objects, `rights` pages whose rights changed, and `pages` those that a load created. `instructions` are the
    driver's."""

    calls: int = 0
    refused: int = 0
    entries: int = 0
    crossings: int = 0
    kernel_calls: int = 0
    pauses: int = 0
    copied: int = 0
    cleared: int = 0
    rights: int = 0
    pages: int = 0
    resets: int = 0
    instructions: int = 0
    acts: int = 0

    @property
    def bursts(self) -> int:
        return self.crossings // CROSSINGS

    def __add__(self, other: Counts) -> Counts:
        return Counts(*(getattr(self, each.name) + getattr(other, each.name) for each in fields(self)))


# The name under which the boot is counted.
BOOT = "boot"


class Counting:
    """Counts the events of a part. `hidden` has the number of instructions of bursts whose events do not show it."""

    def __init__(self, part: Part, hidden: dict[int, int]) -> None:
        self.part = part
        self.hidden = hidden
        self.operations: dict[int, Operation] = {}
        self.by_name: dict[str, Counts] = {}
        self.boot = Counts()
        self.recoveries: list[Counts] = []

    def see(self, event: Event) -> None:
        {"invoke": self.invoke, "enter": self.enter, "burst": self.burst, "stage": self.stage,
         "arrive": self.arrive}[event.kind](event)

    def of_call(self, call: int) -> Counts:
        return self.by_name.setdefault(self.operations[call].name, Counts())

    def of_kernel(self) -> Counts:
        """The counts of what the kernel itself asks of the driver: of the boot, or of the last recovery."""
        return self.recoveries[-1] if self.recoveries else self.boot

    def invoke(self, event: Event) -> None:
        self.operations[event.call] = parse_operation(event.text)
        counts = self.of_call(event.call)
        counts.calls += 1
        counts.refused += event.answer is not None and answerer(event.answer) == REFUSED

    def enter(self, event: Event) -> None:
        if event.answer is not None:
            return
        operation, counts = self.operations[event.call], self.of_call(event.call)
        counts.entries += 1
        if operation.name in BUFFERS:
            counts.copied += len(operation.words)
            counts.cleared += BUFFER_WORDS - len(operation.words)
        if BUFFERS.get(operation.name) == "write":
            counts.rights += BUFFER_PAGES

    def burst(self, event: Event) -> None:
        counts = self.of_kernel() if event.context == SHADOW else self.of_call(event.call)
        counts.crossings += CROSSINGS
        counts.instructions += self.hidden.get(event.burst, event.instructions)
        counts.acts += len(event.acts)
        counts.pauses += event.text == "pause"
        if event.text.startswith("service "):
            counts.kernel_calls += 1
            counts.copied += moved_words(event)
        if event.context != SHADOW and event.answer is not None:
            self.replied(event, counts)

    def replied(self, event: Event, counts: Counts) -> None:
        """A reply copies a read's blocks or a get's value out, and ends the right to write to their buffer."""
        operation = self.operations[event.call]
        if BUFFERS.get(operation.name) == "write":
            counts.rights += BUFFER_PAGES
            answered = event.answer or ""
            if answered.startswith("data "):
                counts.copied += operation.numbers[1] * BLOCK_WORDS
            elif answered.startswith("value "):
                counts.copied += 1

    def stage(self, event: Event) -> None:
        name = event.text.split(" ")[0]
        if name == "stop":
            self.recoveries.append(Counts(calls=1))
        counts = self.of_kernel()
        if name == "collect":
            counts.rights += BUFFER_PAGES * len(WRITABLE.findall(event.line))
        elif name == "load":
            counts.pages += LOADED_PAGES
        elif name == "reset":
            counts.resets += 1

    def arrive(self, event: Event) -> None:
        """Counts nothing: a frame that arrives is the device's work."""


def moved_words(event: Event) -> int:
    """The words that a kernel call moved between the driver and the kernel: a frame, or a kernel object's copy."""
    found = SERVED.fullmatch(event.text)
    if not found:
        return 0
    service, result = int(found[1]), int(found[3])
    if service == BORROWS:
        return COPY_WORDS if result else 0
    if service == GIVES_BACK:
        return COPY_WORDS
    words = MOVED.search(event.text)
    return words[1].count(",") + 1 if words else 0


@dataclass(frozen=True)
class PartCost:
    """The counts of a part: of each operation, of the boot, and of each recovery. A failure past the limit counts as a
    last recovery, without a load."""

    part: Part
    operations: dict[str, Counts]
    boot: Counts
    recoveries: tuple[Counts, ...]

    @property
    def all_calls(self) -> Counts:
        return sum(self.operations.values(), Counts())

    @property
    def all_recoveries(self) -> Counts:
        return sum(self.recoveries, Counts())


def cost_of(part: Part, hidden: dict[int, int] | None = None) -> PartCost:
    """The counts of a part."""
    counting = Counting(part, hidden or {})
    for event in part.events:
        counting.see(event)
    cost = PartCost(part, dict(sorted(counting.by_name.items())), counting.boot, tuple(counting.recoveries))
    check(cost)
    return cost


def check(cost: PartCost) -> None:
    """Raises a mistake if the counts do not add up to the totals of the report."""
    kinds = Counter(event.kind for event in cost.part.events)
    whole = cost.all_calls + cost.boot + cost.all_recoveries
    if cost.all_calls.calls != kinds["invoke"] or whole.bursts != kinds["burst"]:
        raise Mistake(f"the calls or the bursts of part {cost.part.index} do not add up")
