"""Parses a trace of the program (docs/TRACE.md)."""

from __future__ import annotations

import re
from dataclasses import dataclass, field

from .facts import CHANGES
from .program import Mistake

HEAD = re.compile(r"trace (\d+) (\w+) burst (\d+) context (\d+) call (\d+)")
START = re.compile(r"start (\d+)((?: r\d+ \d+)*)")
EXECUTED = re.compile(r"(\d+) (\d+) (.+)")
SET = re.compile(r"r(\d+) (\d+)")
STORED = re.compile(r"\[(\d+)\] (\d+)")
GOTO = re.compile(r"goto (\d+)")
FAULT = re.compile(r"fault (\d+) (.+)")


def fault_of(*changed: str) -> re.Pattern[str]:
    """The line of a fault that changes one of these."""
    kinds = "|".join(kind for kind, each in CHANGES.items() if each in changed)
    return re.compile(rf"(?:{kinds}) (\d+) (\d+)")


REGISTER_FAULT, WORD_FAULT = fault_of("register"), fault_of("memory", "text")


@dataclass(frozen=True)
class Executed:
    """One executed instruction: `before` has the registers before it, and `acts` is what it did to the device."""

    number: int
    address: int
    instruction: str
    before: dict[int, int]
    register: tuple[int, int] | None = None
    stored: tuple[int, int] | None = None
    goto: int | None = None
    acts: tuple[str, ...] = ()

    @property
    def mnemonic(self) -> str:
        return self.instruction.split(" ")[0]

    @property
    def operands(self) -> list[str]:
        return self.instruction.split(" ")[1:]

    def value(self, operand: int) -> int:
        """Returns the word of the register that an operand names."""
        return self.before.get(int(self.operands[operand][1:]), 0)


@dataclass(frozen=True)
class Struck:
    """A fault, with the number of instructions before it."""

    after: int
    text: str


@dataclass
class Trace:
    """The trace of a burst: its executed instructions, with the faults between them."""

    part: int
    name: str
    burst: int
    context: int
    call: int
    counter: int = 0
    registers: dict[int, int] = field(default_factory=dict)
    items: list[Executed | Struck] = field(default_factory=list)
    end: str = ""
    unstruck: list[str] = field(default_factory=list)

    def executed(self) -> list[Executed]:
        return [item for item in self.items if isinstance(item, Executed)]


def executed_of(line: str, registers: dict[int, int]) -> Executed:
    """Parses the line of an executed instruction, and updates the registers to those after it."""
    start, *effects = line.split(" | ")
    found = EXECUTED.fullmatch(start)
    if not found:
        raise Mistake(f"no line of a trace: {line[:80]!r}")
    before = dict(registers)
    register = stored = goto = None
    acts: list[str] = []
    for effect in effects:
        if match := SET.fullmatch(effect):
            register = (int(match[1]), int(match[2]))
            registers[register[0]] = register[1]
        elif match := STORED.fullmatch(effect):
            stored = (int(match[1]), int(match[2]))
        elif match := GOTO.fullmatch(effect):
            goto = int(match[1])
        else:
            acts.append(effect)
    return Executed(int(found[1]), int(found[2]), found[3], before, register, stored, goto, tuple(acts))


def parse_trace(text: str) -> Trace:
    """Parses a trace. A text that is not one is a mistake."""
    lines = [line for line in text.split("\n") if line]
    head = HEAD.fullmatch(lines[0]) if lines else None
    start = START.fullmatch(lines[1]) if len(lines) > 1 else None
    if not head or not start:
        raise Mistake("the program wrote no trace")
    part, burst, context, call = (int(head[group]) for group in (1, 3, 4, 5))
    trace = Trace(part, head[2], burst, context, call, int(start[1]))
    words = start[2].split()
    trace.registers = {int(name[1:]): int(word) for name, word in zip(words[::2], words[1::2])}
    now = dict(trace.registers)
    for line in lines[2:]:
        if line.startswith("unstruck "):
            trace.unstruck.append(line[9:])
        elif re.match(r"n\d+ ", line):
            trace.end = line
        elif found := FAULT.fullmatch(line):
            trace.items.append(Struck(int(found[1]), found[2]))
            if match := REGISTER_FAULT.fullmatch(found[2]):
                now[int(match[1])] = int(match[2])
        else:
            trace.items.append(executed_of(line, now))
    if not trace.end:
        raise Mistake("the trace has no line of its end: it is not whole")
    return trace
