"""Operations as a report writes them: what they apply to, and which of them wait for each other (docs/REPORT.md)."""

from __future__ import annotations

import re
from dataclasses import dataclass
from functools import lru_cache

from .facts import LIMITS

BLOCK_WORDS = LIMITS["BLOCK_WORDS"]
STREAM = ("open", "play", "close")

# What a driver may do with the buffer of a call, for the operations that have one (docs/DRIVER_MACHINE.md).
BUFFERS = {"read": "write", "get": "write", "write": "read", "send": "read", "play": "read"}

LIST = re.compile(r"\[([0-9,]*)\]")


def words_of(text: str) -> tuple[int, ...]:
    """Returns the words in a list of a report."""
    return tuple(int(word) for word in text[1:-1].split(",")) if len(text) > 2 else ()


@dataclass(frozen=True)
class Operation:
    """An operation: its numbers in the order of the report, and its words."""

    name: str
    numbers: tuple[int, ...] = ()
    words: tuple[int, ...] = ()

    @property
    def blocks(self) -> range:
        """The blocks of a read or a write; empty for any other operation."""
        if self.name == "read":
            return range(self.numbers[0], self.numbers[0] + self.numbers[1])
        if self.name == "write":
            return range(self.numbers[0], self.numbers[0] + len(self.words) // BLOCK_WORDS)
        return range(0)

    def written(self, block: int) -> tuple[int, ...] | None:
        """Returns the words that a write has for a block, None if it does not cover the block."""
        if self.name != "write" or block not in self.blocks:
            return None
        start = (block - self.numbers[0]) * BLOCK_WORDS
        return self.words[start : start + BLOCK_WORDS]


@lru_cache(maxsize=256)
def parse_operation(text: str) -> Operation:
    """Parses an operation such as `write 9 [1,2]`."""
    found = LIST.search(text)
    name, *numbers = LIST.sub("", text).split()
    return Operation(name, tuple(map(int, numbers)), words_of(found.group()) if found else ())


def conflict(one: Operation, other: Operation) -> bool:
    """Returns whether the later of two operations waits until the earlier one is answered."""
    names = {one.name, other.name}
    if "set" in names:
        return True
    if names == {"recv"} or names <= set(STREAM):
        return True
    if "write" in names and names <= {"read", "write"}:
        first, second = one.blocks, other.blocks
        return first.start < second.stop and second.start < first.stop
    return False
