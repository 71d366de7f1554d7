"""What a burst does at each instruction: the strip above the cells of a map."""

from __future__ import annotations

import json
from dataclasses import dataclass
from typing import Any

from .listing import Source, source_of
from .program import REFUSED, Program
from .scenario import Scenario
from .trace_text import parse_trace
from .times import ACTS


@dataclass(frozen=True)
class Step:
    """One executed instruction: its text as `address: INSTRUCTION`, what it did to the device, and the line that made
    it."""

    instruction: str
    acts: tuple[str, ...] = ()
    source: str = ""

    @property
    def mnemonic(self) -> str:
        return self.words.split(" ")[0]

    @property
    def words(self) -> str:
        """The instruction without its address."""
        return self.instruction.partition(": ")[2]

    @property
    def letter(self) -> str:
        """The letter of its act, as in a timeline; empty for none."""
        return ACTS[self.acts[0].split(" ")[0]] if self.acts else ""


Strip = dict[int, Step]
# The strips of a map, by the index of the run and the burst.
Strips = dict[tuple[int, int], Strip]


def line_of(source: Source, address: int) -> str:
    """Returns the line of the text that made a word."""
    number, line = source.lines.get(address, (0, ""))
    return f"line {number}: {line.strip()}" if number else ""


def strip_by_trace(program: Program, scenario: Scenario, part: int, burst: int, source: Source) -> Strip | None:
    """Returns the executed instructions of a burst, counted from 0, from the program's trace; None if there is no such
    burst, or the program writes no traces."""
    ended = program.ask(["trace", str(part), str(burst)], json.dumps(scenario))
    if ended.status:
        return None
    found: Strip = {}
    for executed in parse_trace(ended.out).executed():
        instruction = f"{executed.address}: {executed.instruction}"
        found[executed.number - 1] = Step(instruction, executed.acts, line_of(source, executed.address))
    return found


def strip_by_entries(entries: list[dict[str, Any]], burst: int) -> Strip:
    """Returns the instructions of a burst, as far as a sweep asked for them."""
    known = [entry for entry in entries if entry["fault"]["burst"] == burst and entry["instruction"]]
    return {entry["fault"]["after"]: Step(entry["instruction"]) for entry in known}


def strips_of(program: Program | None, runs: list[dict[str, Any]], part: int) -> Strips:
    """Returns the strips of all bursts of some runs."""
    found: Strips = {}
    for number, run in enumerate(runs):
        source = source_of(program, run["base"]["parts"][part]["driver"]) if program else Source()
        for burst in sorted({entry["fault"]["burst"] for entry in run["faults"]}):
            traced = strip_by_trace(program, run["base"], part, burst, source) if program else None
            strip = strip_by_entries(run["faults"], burst) if traced is None else traced
            if strip:
                found[number, burst] = strip
    return found


def writes_traces(program: Program) -> bool:
    """Returns whether the program has the subcommand `trace`: it then refuses an input that is no scenario, and does
    not print its usage line."""
    return program.ask(["trace", "0", "1"], "").status == REFUSED


def fill_instructions(runs: list[dict[str, Any]], strips: Strips) -> None:
    """Writes into the entries of a sweep the instruction that each fault comes before, if it struck."""
    for number, run in enumerate(runs):
        for entry in run["faults"]:
            step = strips.get((number, entry["fault"]["burst"]), {}).get(entry["fault"]["after"])
            if step and not entry["instruction"]:
                entry["instruction"] = step.instruction
