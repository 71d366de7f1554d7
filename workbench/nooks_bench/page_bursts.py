"""The traced bursts of a part, as the page shows them: the instructions with their effects, and the registers and words
that change.

An item of a burst is an executed instruction, or a fault between two of them. Items are numbered from 1; 0 is the
burst's start."""

from __future__ import annotations

from typing import Any, Iterator

from .deeds import Deed
from .facts import REGISTERS
from .guards import would_have
from .listing import Source
from .memory import area
from .program import Program
from .report import Event, GuardTrap, Part
from .scenario import Scenario
from .state_rows import History
from .trace import effect, head_lines, port_line, register_lines, since_reset, strike_text, traced
from .trace_text import REGISTER_FAULT, WORD_FAULT, Executed, Struck, Trace
from .words import cause_words, short


def important(part: Part, struck: set[int]) -> list[int]:
    """Returns the bursts of a part in the order in which they are traced: first those that failed, broke the contract
    or were struck, then all others."""
    broken = part.broken[0] if part.broken else 0
    bursts = part.bursts()
    first = [each for each in bursts if each.failed or each.number == broken or each.number in struck]
    chosen = {each.number for each in first}
    return [each.burst for each in first] + [each.burst for each in bursts if each.number not in chosen]


def traces_of(program: Program, scenario: Scenario, part: Part, bursts: list[int]) -> dict[int, Trace]:
    return {burst: traced(program, scenario, part.index, burst) for burst in bursts}


def source_rows(source: Source) -> dict[str, Any]:
    """Returns the driver's text: for each address the number of its line, its instruction and the names there. An image
    has no lines; their number is 0."""
    return {
        str(address): [source.lines.get(address, (0, ""))[0], text, source.shown_names(address)]
        for address, text in source.words.items()
    }


def item_of(item: Executed | Struck, source: Source, kind: str, trap: GuardTrap | None) -> list[Any]:
    """Returns an item as the page shows it. For an instruction: its number, its address, what it did, and its text if
    that differs from the driver's. For a fault: 0, the number of instructions before it, what it did, and true if it is
    the trap of a guard."""
    if isinstance(item, Struck):
        if trap and (item.after, item.text) == (trap.after, "trap"):
            return [0, item.after, f"the guard stops the driver: {would_have(trap)}", True]
        return [0, item.after, strike_text(item.text)]
    made = [item.number, item.address, effect(item, kind)]
    return made if source.words.get(item.address) == item.instruction else [*made, item.instruction]


def changes(trace: Trace) -> Iterator[tuple[int, str, int, int]]:
    """Yields what each item changes: the item's number, `register` or `word`, which one, and its new value."""
    for number, item in enumerate(trace.items, 1):
        if isinstance(item, Struck):
            if found := REGISTER_FAULT.fullmatch(item.text):
                yield number, "register", int(found[1]), int(found[2])
            elif found := WORD_FAULT.fullmatch(item.text):
                yield number, "word", int(found[1]), int(found[2])
            continue
        if item.register:
            yield number, "register", *item.register
        if item.stored:
            yield number, "word", *item.stored


def changed_rows(trace: Trace) -> dict[str, Any]:
    """Returns the registers with their histories, and the words that change with their histories and areas."""
    registers: dict[str, History] = {str(number): [(0, trace.registers.get(number, 0))] for number in range(REGISTERS)}
    words: dict[str, History] = {}
    for item, what, which, now in changes(trace):
        if what == "register":
            registers[str(which)].append((item, now))
        else:
            words.setdefault(str(which), []).append((item, now))
    return {"registers": registers, "words": words, "areas": {name: area(int(name)) for name in words}}


def acting(trace: Trace) -> list[int]:
    """Returns, for each act on the device, the item number of its instruction."""
    return [number for number, item in enumerate(trace.items, 1) if isinstance(item, Executed) for _ in item.acts]


def deed_item(trace: Trace, deed: Deed | None, event: Event) -> int:
    """Returns the item number of the instruction that broke the contract, 0 if no instruction of this burst did."""
    if deed is None or deed.event != event.number:
        return 0
    acts = acting(trace)
    return acts[deed.act] if deed.act is not None and deed.act < len(acts) else len(trace.items)


def burst_rows(part: Part, event: Event, traces: dict[int, Trace], source: Source, deed: Deed | None) -> dict[str, Any]:
    """Returns all that the page shows of a traced burst."""
    trace = traces[event.burst]
    trap = part.guards.get(event.burst)
    before = since_reset(part, event)
    device = [*port_line(part, before, traces.get), *register_lines(part, before)]
    return {
        "head": f"context {trace.context}, {head_lines(trace, part, event, source)[1]}",
        "device": "; ".join(device),
        "items": [item_of(item, source, part.kind, trap) for item in trace.items],
        **changed_rows(trace),
        "end": short(event.text),
        "cause": "the guard stopped the driver" if trap else cause_words(event.cause) if event.cause else "",
        "breaks": deed_item(trace, deed, event),
    }
