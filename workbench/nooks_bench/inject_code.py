"""A driver's image as instructions: what each operand is for, where the counter goes next, and which writes of a
register reach which reads. Mutants are made from this; the program itself encodes and decodes the words."""

from __future__ import annotations

import json
from dataclasses import dataclass
from typing import Any, Iterator

from .facts import CLASSES, JUMP, MEMORY, MNEMONICS, REGISTERS, SERVICES, Mnemonic
from .program import Program

# What an operand is for.
DESTINATION, SOURCE, POINTER, NUMBER, TARGET = "destination", "source", "pointer", "number", "target"


def roles_of(mnemonic: Mnemonic) -> tuple[str, ...]:
    """The roles of an instruction's operands, in their order."""
    roles = {
        "a": DESTINATION if mnemonic.sets else SOURCE,
        "b": POINTER if mnemonic.group == MEMORY else SOURCE,
        "imm": TARGET if mnemonic.group == JUMP else NUMBER,
    }
    return tuple(roles[operand] for operand in mnemonic.each_operand)


ROLES: dict[str, tuple[str, ...]] = {name: roles_of(mnemonic) for name, mnemonic in MNEMONICS.items()}

# The registers that a service of the kernel checks, and the one that has its result.
ARGUMENTS = {"alloc": (1,), "free": (1,), "register": (1,), "borrow": (1,), "give_back": (1,), "net_rx": (1, 2)}
RESULT = 1

# The registers that an entry is passed: r14 has the end of the stack page.
STACK_END = 14
PASSED = {"read": (1, 2, 3), "write": (1, 2, 3), "send": (2, 3), "play": (2, 3), "get": (1, 3), "set": (1, 2)}

# The origin of a register's word that was passed to the entry; any other origin is an instruction's address.
FROM_CALLER = -1

# An instruction that changes nothing.
NOTHING = "MOV r0 r0"

# For each register the origins that its word may have.
Origins = list[frozenset[int]]


@dataclass(frozen=True)
class Instruction:
    """A word of the text that is an instruction. Registers are operands by their numbers."""

    address: int
    word: int
    name: str
    operands: tuple[int, ...]

    @property
    def text(self) -> str:
        """As `dis` writes it."""
        return text_of(self.name, self.operands)

    def with_operand(self, index: int, value: int) -> str:
        """The instruction with another operand, as text."""
        return text_of(self.name, (*self.operands[:index], value, *self.operands[index + 1 :]))

    def of_role(self, role: str) -> list[int]:
        """The indices of the operands with a role."""
        return [index for index, each in enumerate(ROLES[self.name]) if each == role]

    def operand(self, role: str) -> int | None:
        """The first operand with a role."""
        indices = self.of_role(role)
        return self.operands[indices[0]] if indices else None

    def reads(self) -> set[int]:
        """The registers that it reads, those of a kernel call's arguments too."""
        mnemonic = MNEMONICS[self.name]
        operands = zip(mnemonic.each_operand, self.operands)
        return {number for operand, number in operands if mnemonic.does_read(operand)} | set(self.arguments())

    def arguments(self) -> tuple[int, ...]:
        """The registers that the kernel checks, if it is a kernel call."""
        return ARGUMENTS.get(SERVICES.get(self.operands[0], ""), ()) if self.name == "KCALL" else ()

    def writes(self) -> int | None:
        """The register that it writes, if it writes one."""
        return RESULT if self.name == "KCALL" else self.operand(DESTINATION)

    def next(self) -> list[int]:
        """The addresses to which the counter may go. It is not known whether a subroutine returns: it may."""
        target = self.operand(TARGET)
        following = [self.address + 1] if MNEMONICS[self.name].next else []
        return following + ([target] if target is not None else [])


def text_of(name: str, operands: tuple[int, ...]) -> str:
    """An instruction as text."""
    sorts = MNEMONICS[name].each_operand
    written = [str(each) if sort == "imm" else f"r{each}" for sort, each in zip(sorts, operands)]
    return " ".join([name, *written])


def parse_instruction(address: int, word: int, text: str) -> Instruction | None:
    """The instruction of a line of `dis`; None if the word is not an instruction."""
    name, *operands = text.split()
    if name not in ROLES:
        return None
    return Instruction(address, word, name, tuple(int(each.lstrip("r")) for each in operands))


@dataclass(frozen=True)
class Code:
    """A driver's image, as `asm` writes it, with those of its words that are instructions, by rising address."""

    image: dict[str, Any]
    instructions: tuple[Instruction, ...]

    @property
    def kind(self) -> str:
        """Its class."""
        return str(self.image["class"])

    def with_words(self, words: dict[int, int]) -> dict[str, Any]:
        """The image with other words at some addresses."""
        text = list(self.image["text"])
        for address, word in words.items():
            text[address] = f"{word:08x}"
        return {**self.image, "text": text}


def code_of(program: Program, driver: dict[str, Any]) -> Code:
    """The code of a scenario's driver."""
    image = driver["image"] if "image" in driver else json.loads(program.answer(["asm"], driver["asm"]).out)
    lines = program.listing({"image": image})
    words = [int(each, 16) for each in image["text"]]
    found = (parse_instruction(at, word, line) for at, (word, line) in enumerate(zip(words, lines)))
    return Code(image, tuple(each for each in found if each is not None))


def encoded(program: Program, kind: str, lines: list[str]) -> list[int]:
    """The words of some instructions, from the program's assembler, which takes a limited number at a time."""
    entries = [f".entry {name} 0" for name in CLASSES[kind].entries]
    found: list[int] = []
    for start in range(0, len(lines), 2000):
        text = "\n".join([f".class {kind}", *entries, *lines[start : start + 2000]]) + "\n"
        found += [int(each, 16) for each in json.loads(program.answer(["asm"], text).out)["text"]]
    return found


@dataclass(frozen=True)
class Flow:
    """For each address that the counter may come to, the origins of each register's word there."""

    code: Code
    origins: dict[int, Origins]

    def of(self, instruction: Instruction, register: int) -> frozenset[int]:
        """The origins of a register's word as an instruction finds it."""
        known = self.origins.get(instruction.address)
        return known[register] if known else frozenset()

    def uses(self, address: int) -> Iterator[Instruction]:
        """The instructions that read what an instruction wrote."""
        for each in self.code.instructions:
            if any(address in self.of(each, register) for register in each.reads()):
                yield each


def at_entry(name: str) -> Origins:
    """The origins at an entry. A register that is not passed is 0, and has none."""
    passed = (*PASSED.get(name, ()), STACK_END)
    return [frozenset({FROM_CALLER}) if register in passed else frozenset() for register in range(REGISTERS)]


def flow_of(code: Code) -> Flow:
    """Follows the counter from each entry until nothing new is found."""
    by_address = {each.address: each for each in code.instructions}
    found: dict[int, Origins] = {}
    work = [(address, at_entry(name)) for name, address in code.image["entries"].items()]
    while work:
        address, coming = work.pop()
        known = found.get(address)
        joined = [one | other for one, other in zip(known, coming)] if known else coming
        if address not in by_address or joined == known:
            continue
        found[address] = joined
        instruction = by_address[address]
        after = list(joined)
        written = instruction.writes()
        if written is not None:
            after[written] = frozenset({address})
        work += [(each, after) for each in instruction.next()]
    return Flow(code, found)
