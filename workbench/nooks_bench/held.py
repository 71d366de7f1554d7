"""What a driver holds of the kernel's memory, by the kernel calls that a report shows.

Each kernel call ends a burst and has its line in the report, so this is exact: a run of the heap is held from the
`alloc` that was served until its `free`, a copy of an object from `borrow` to `give_back`, and `stage collect` takes
all of them. Buffers are not counted: they are lent to a call and not taken by the driver."""

from __future__ import annotations

import re
from dataclasses import dataclass

from .facts import MEMORY_MAP, SERVICE_NUMBERS
from .report import Event, Part
from .words import counted

HEAP = "heap"
BORROW = "borrow"
COPY_WORDS = MEMORY_MAP["OBJECT_WORDS"]

SERVED = re.compile(r"service (\d+) (\d+) \d+ = (\d+)(?: \[.*)?")
ALLOC, FREE, BORROWS, GIVES_BACK = (SERVICE_NUMBERS[name] for name in ("alloc", "free", "borrow", "give_back"))

# The most pieces of a leak that are named.
MOST_NAMED = 4


@dataclass(frozen=True)
class Resource:
    """A run of the heap or a copy of an object. `event` is the one at which the driver took it, `call` the call that it
    served then, 0 for its init."""

    kind: str
    start: int
    words: int
    event: int
    call: int
    item: int = 0

    @property
    def text(self) -> str:
        """As `stage collect` names it."""
        return f"borrow {self.item} {self.start}" if self.kind == BORROW else f"heap {self.start} {self.words}"


class Resources:
    """Follows what a driver holds. `by_start` has the resources by the address at which they start."""

    def __init__(self) -> None:
        self.by_start: dict[int, Resource] = {}

    def see(self, event: Event) -> None:
        if event.kind == "stage" and event.text == "collect":
            self.by_start = {}
        if event.kind == "burst" and (found := SERVED.fullmatch(event.text)):
            service, first, result = (int(number) for number in found.groups())
            self.served(event, service, first, result)

    def served(self, event: Event, service: int, first: int, result: int) -> None:
        if service == ALLOC and result:
            self.by_start[result] = Resource(HEAP, result, first, event.number, event.call)
        elif service == BORROWS and result:
            self.by_start[result] = Resource(BORROW, result, COPY_WORDS, event.number, event.call, first)
        elif service == FREE:
            self.by_start.pop(first, None)
        elif service == GIVES_BACK:
            copy = (BORROW, first)
            self.by_start = {start: each for start, each in self.by_start.items() if (each.kind, each.item) != copy}

    def list(self) -> list[Resource]:
        """The runs by their starts, then the copies by their objects, as `stage collect` has them."""
        return sorted(self.by_start.values(), key=lambda each: (each.kind != HEAP, each.item, each.start))


def resources_before(part: Part, last: int) -> list[Resource]:
    """What the driver holds after an event, given by its number."""
    resources = Resources()
    for event in part.events[:last]:
        resources.see(event)
    return resources.list()


def resources_at_end(part: Part) -> list[Resource]:
    return resources_before(part, len(part.events))


def resource_lines(part: Part) -> list[str]:
    """What the driver still holds at the end, by the operation that it served when it took it."""
    asked = {event.call: event.text.split(" ")[0] for event in part.events if event.kind == "invoke"}
    groups: dict[str, list[Resource]] = {}
    for each in resources_at_end(part):
        groups.setdefault(asked.get(each.call, ""), []).append(each)
    return [group_line(operation, group) for operation, group in groups.items()]


def group_line(operation: str, group: list[Resource]) -> str:
    """One operation's line."""
    calls = sorted({each.call for each in group})
    named = [f"{each.text} (event {each.event})" for each in group[:MOST_NAMED]]
    if len(group) > MOST_NAMED:
        named.append(f".. {len(group)} in all")
    whose = f"{counted(len(calls), 'call')} of {operation}" if operation else "its start"
    words = sum(each.words for each in group)
    return f"holds at the end {counted(words, 'word')} of the heap, taken in {whose}: {', '.join(named)}"
