"""The layout of a driver's memory (docs/DRIVER_MACHINE.md)."""

from __future__ import annotations

from .facts import MEMORY_MAP

DATA = MEMORY_MAP["DATA_START"]
STACKS = MEMORY_MAP["DATA_END"]
BUFFERS = MEMORY_MAP["STACKS_END"]
OBJECTS = MEMORY_MAP["BUFFERS_END"]
END = MEMORY_MAP["MEMORY_WORDS"]
PAGE = MEMORY_MAP["PAGE_WORDS"]


def area(address: int) -> str:
    """Names the area of memory that an address is in."""
    if address < DATA:
        return "text"
    if address < STACKS:
        return "data or heap"
    if address < BUFFERS:
        return f"stack of context {(address - STACKS) // PAGE}"
    if address < OBJECTS:
        return f"buffer of context {(address - BUFFERS) // (2 * PAGE)}"
    return f"kernel object {(address - OBJECTS) // PAGE}" if address < END else "no memory"
