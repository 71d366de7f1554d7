"""The mutants of a driver: one instruction changed, by the kinds of mistakes that programmers make."""

from __future__ import annotations

from dataclasses import dataclass
from typing import Callable, Iterable, Iterator

from .facts import MEMORY, MNEMONICS, MOVE, REGISTERS, SUM
from .inject_code import (DESTINATION, FROM_CALLER, NOTHING, NUMBER, POINTER, ROLES, SOURCE, TARGET, Code, Flow,
                          Instruction, encoded, flow_of, text_of)
from .program import Program

# The greatest number of an instruction, its bits, and those of a word.
MOST_NUMBER = 2**16 - 1
NUMBER_BITS = 16
WORD_BITS = 32

# Instructions with a number that counts or points: a limit, a start, a step, an index. The number of one that also
# reads the register that it sets is half a word, and does neither.
COUNTING = [name for name, mnemonic in MNEMONICS.items() if mnemonic.group in (MOVE, SUM, MEMORY)
            and NUMBER in ROLES[name] and not (mnemonic.sets and mnemonic.does_read("a"))]

# Comparisons, each with its opposite.
OPPOSITES = {"=": "!=", "!=": "=", "<": ">=", ">=": "<"}


@dataclass(frozen=True)
class Mutant:
    """A word that replaces the one at an address, with both as text. The text of a flipped bit is its number, since the
    word may not be an instruction."""

    kind: str
    address: int
    word: int
    was: str
    now: str


# An address, and the instruction that replaces the one there, as text.
Replacement = tuple[int, str]


def other_operands(instruction: Instruction, index: int) -> Iterator[Replacement]:
    """An instruction with each other register as an operand."""
    for register in range(REGISTERS):
        if register != instruction.operands[index]:
            yield instruction.address, instruction.with_operand(index, register)


def other_registers(flow: Flow, role: str) -> Iterator[Replacement]:
    for each in flow.code.instructions:
        for index in each.of_role(role):
            yield from other_operands(each, index)


def sources(flow: Flow) -> Iterator[Replacement]:
    """Another register is read."""
    return other_registers(flow, SOURCE)


def destinations(flow: Flow) -> Iterator[Replacement]:
    """Another register is written."""
    return other_registers(flow, DESTINATION)


def pointers(flow: Flow) -> Iterator[Replacement]:
    """A load or a store uses another register, or an offset with a bit flipped, or the last write of its register is
    left out."""
    for each in flow.code.instructions:
        for index in each.of_role(POINTER):
            yield from other_operands(each, index)
            offset = each.of_role(NUMBER)[0]
            for bit in range(NUMBER_BITS):
                yield each.address, each.with_operand(offset, each.operands[offset] ^ 1 << bit)
            for origin in sorted(flow.of(each, each.operands[index]) - {FROM_CALLER}):
                yield origin, NOTHING


def interfaces(flow: Flow) -> Iterator[Replacement]:
    """What the caller passed is read from another register; an argument of a kernel call or the status of a reply is
    not set."""
    for each in flow.code.instructions:
        for role in (SOURCE, POINTER):
            for index in each.of_role(role):
                if FROM_CALLER in flow.of(each, each.operands[index]):
                    yield from other_operands(each, index)
        handed = each.operands[:1] if each.name == "RET" else each.arguments()
        for origin in sorted(set().union(*(flow.of(each, register) for register in handed)) - {FROM_CALLER}):
            yield origin, NOTHING


def branches(flow: Flow) -> Iterator[Replacement]:
    """A jump or a branch is left out."""
    for each in flow.code.instructions:
        if each.of_role(TARGET) or each.name == "JR":
            yield each.address, NOTHING


def loops(flow: Flow) -> Iterator[Replacement]:
    """The condition of a backward branch is inverted. If no instruction has the opposite condition, as for `BLT`, the
    registers are exchanged."""
    by_condition = {mnemonic.compares: name for name, mnemonic in MNEMONICS.items()}
    for each in flow.code.instructions:
        condition = MNEMONICS[each.name].compares
        if condition and each.operands[2] <= each.address:
            one, other, target = each.operands
            opposite = by_condition.get(OPPOSITES[condition])
            registers = (one, other) if opposite else (other, one)
            yield each.address, text_of(opposite or each.name, (*registers, target))


def left_out(flow: Flow) -> Iterator[Replacement]:
    """An instruction is left out."""
    for each in flow.code.instructions:
        yield each.address, NOTHING


def off_by_one(flow: Flow) -> Iterator[Replacement]:
    """A limit, a start, a step or an index is one more or one less. A number that only the kernel reads, such as a
    status, is none of these."""
    for each in flow.code.instructions:
        if each.name not in COUNTING or is_handed_over(flow, each):
            continue
        index = each.of_role(NUMBER)[0]
        for value in (each.operands[index] - 1, each.operands[index] + 1):
            if 0 <= value <= MOST_NUMBER:
                yield each.address, each.with_operand(index, value)


def is_handed_over(flow: Flow, instruction: Instruction) -> bool:
    """Whether all that reads an instruction's result are kernel calls and replies."""
    readers = [each.name for each in flow.uses(instruction.address)] if instruction.name == "LI" else []
    return bool(readers) and all(name in ("KCALL", "RET") for name in readers)


# The kinds whose mutants are instructions, each with the function that makes them.
MAKERS: dict[str, Callable[[Flow], Iterable[Replacement]]] = {
    "source": sources,
    "destination": destinations,
    "pointer": pointers,
    "interface": interfaces,
    "branch": branches,
    "loop": loops,
    "nop": left_out,
    "off_by_one": off_by_one,
}

# All kinds, in the order of the tables; `mixed` draws one of them for each fault.
KINDS = ("source", "destination", "pointer", "interface", "branch", "loop", "nop", "text", "off_by_one")
MIXED = "mixed"

# A bit of a word is flipped, whatever the word is then.
TEXT = "text"


def flipped(code: Code) -> list[Mutant]:
    """Each bit of each instruction flipped."""
    return [
        Mutant(TEXT, each.address, each.word ^ 1 << bit, each.text, f"bit {bit}")
        for each in code.instructions
        for bit in range(WORD_BITS)
    ]


def mutants_of(program: Program, code: Code, kinds: Iterable[str]) -> dict[str, list[Mutant]]:
    """Every mutant of some kinds, each once, by rising address."""
    flow = flow_of(code)
    written = {each.address: each for each in code.instructions}
    changed = [(kind, address, now) for kind in kinds if kind != TEXT
               for address, now in dict.fromkeys(MAKERS[kind](flow))]
    words = encoded(program, code.kind, [now for _, _, now in changed])
    found: dict[str, list[Mutant]] = {kind: flipped(code) if kind == TEXT else [] for kind in kinds}
    for (kind, address, now), word in zip(changed, words):
        if word != written[address].word:
            found[kind].append(Mutant(kind, address, word, written[address].text, now))
    return {kind: sorted(each, key=lambda mutant: mutant.address) for kind, each in found.items()}
