"""The faults that a sweep tries: each kind at each position, which the base's report gives."""

from __future__ import annotations

import random
from typing import Sequence

from .facts import CHANGES, FAULT_KINDS, MEMORY_MAP, MOST_WORD, REGISTERS
from .faults import Selection
from .probe import Probe
from .program import Mistake
from .report import SHADOW, Event, Part
from .scenario import Fault

# A driver's own memory: initial words and heap, stacks, buffers. Pokes are drawn from it if no address is named.
OWN_WORDS = (MEMORY_MAP["DATA_START"], MEMORY_MAP["BUFFERS_END"] - 1)


def bursts_of_call(part: Part, call: int, attempt: int | None) -> list[Event]:
    """The bursts of a call, or only of one of its attempts."""
    found: list[Event] = []
    current = 0
    for event in part.events:
        if event.kind == "enter" and event.call == call:
            current = event.attempt
        if event.kind == "burst" and event.call == call and attempt in (None, current):
            found.append(event)
    if not found:
        raise Mistake(f"part {part.index} has no burst of call c{call}" + (f", try {attempt}" if attempt else ""))
    return found


def chosen_bursts(selection: Selection, part: Part) -> list[Event]:
    """The bursts of the base's run that are struck."""
    if selection.call is not None:
        found = bursts_of_call(part, selection.call, selection.attempt)
    elif selection.bursts is not None:
        return [event for event in part.bursts() if event.burst in selection.bursts]
    else:
        return [event for event in part.bursts() if event.context != SHADOW]
    if selection.bursts is not None:
        found = [event for event in found if event.burst in selection.bursts]
    return found


def positions_of(selection: Selection, part: Part, probe: Probe) -> list[tuple[int, int]]:
    """The positions that faults strike: each a burst, and the number of its instructions before the fault."""
    positions: list[tuple[int, int]] = []
    bursts = chosen_bursts(selection, part)
    for event in bursts:
        counts: Sequence[int] = range(0, event.instructions, selection.every)
        if selection.at_acts:
            acts = probe.instructions_before_acts(event)
            counts = sorted({after for act in acts for after in (act, act + 1) if after < event.instructions})
        positions.extend((event.burst, after) for after in counts)
    unknown = sorted(set(selection.bursts or ()) - {event.burst for event in bursts})
    positions.extend((burst, 0) for burst in unknown)
    return positions


def templates(selection: Selection) -> list[Fault]:
    """The faults that strike at each position, without the position itself."""
    values = selection.values or (1,)
    found: list[Fault] = []
    for kind in selection.kinds:
        if not FAULT_KINDS[kind]:
            found.append({"kind": kind})
        else:
            is_register = "register" in FAULT_KINDS[kind]
            key, numbers = ("register", selection.registers) if is_register else ("address", selection.addresses)
            found.extend({"kind": kind, key: number, "value": value} for number in numbers for value in values)
    return found


def drawn(selection: Selection, positions: list[tuple[int, int]], probe: Probe) -> list[Fault]:
    """Faults at positions drawn from these. What the selection does not name is drawn too: a word of the driver's own
    memory for a poke, a word of the text for a code fault, any register, any value."""
    draw = random.Random(selection.seed)
    in_text = {kind for kind in selection.kinds if CHANGES.get(kind) == "text"}
    words = len(probe.listing) if in_text and not selection.addresses else 1
    found: list[Fault] = []
    for _ in range(selection.random or 0):
        burst, after = draw.choice(positions)
        fault: Fault = {"burst": burst, "after": after, "kind": draw.choice(selection.kinds)}
        if "address" in FAULT_KINDS[fault["kind"]]:
            low, high = (0, max(words, 1) - 1) if fault["kind"] in in_text else OWN_WORDS
            fault["address"] = draw.choice(selection.addresses) if selection.addresses else draw.randint(low, high)
        if "register" in FAULT_KINDS[fault["kind"]]:
            fault["register"] = draw.choice(selection.registers) if selection.registers else draw.randrange(REGISTERS)
        if "value" in FAULT_KINDS[fault["kind"]]:
            fault["value"] = draw.choice(selection.values) if selection.values else draw.randint(0, MOST_WORD)
        found.append(fault)
    return found


def faults_of(selection: Selection, part: Part, probe: Probe) -> list[Fault]:
    """The faults of a sweep, in the order of their positions."""
    positions = positions_of(selection, part, probe)
    if not positions:
        raise Mistake(f"no burst of part {part.index} is chosen: the base's run has {len(part.bursts())}")
    if selection.random is not None:
        return drawn(selection, positions, probe)
    return [{"burst": burst, "after": after, **each} for burst, after in positions for each in templates(selection)]
