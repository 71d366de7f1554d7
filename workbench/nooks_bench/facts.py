"""The facts of the simulator: names, numbers, keys, limits and the memory map, from the tables that checks/tables reads
from the sources (tables.json). No other module has its own copy of one."""

from __future__ import annotations

import json
from dataclasses import dataclass
from importlib import resources
from typing import Any

FILE = "tables.json"


def read_tables() -> dict[str, Any]:
    """The tables of the package."""
    read: dict[str, Any] = json.loads(resources.files(__package__).joinpath(FILE).read_text(encoding="utf-8"))
    return read


TABLES = read_tables()


@dataclass(frozen=True)
class Allowed:
    """What a key of an input accepts: a number of a range, true or false, or a list. `items` has the least and the
    greatest length of the list, and `each` says what an item may be if it is a number or a list itself. All of it is
    None if the key has an object or a name."""

    least: int | None = None
    most: int | None = None
    items: tuple[int, int] | None = None
    each: Allowed | None = None
    truth: bool = False
    optional: bool = False

    @property
    def ends(self) -> tuple[int, int]:
        """The least and the greatest number."""
        if self.least is None or self.most is None:
            raise ValueError("this key has no number")
        return self.least, self.most

    @property
    def length(self) -> tuple[int, int]:
        """The least and the greatest number of items."""
        if self.items is None:
            raise ValueError("this key has no list")
        return self.items


def allowed_of(row: dict[str, Any]) -> Allowed:
    """What a key accepts, by its row."""
    items = (row["items"][0], row["items"][1]) if "items" in row else None
    each = allowed_of(row["each"]) if "each" in row else None
    return Allowed(row.get("least"), row.get("most"), items, each, row.get("truth", False), row.get("optional", False))


Keys = dict[str, Allowed]


def keys_of(table: dict[str, dict[str, Any]]) -> Keys:
    return {key: allowed_of(row) for key, row in table.items()}


@dataclass(frozen=True)
class Register:
    """A configuration register of a device: its name, what it is after a reset, and the most that may be asked for."""

    name: str
    default: int
    most: int


@dataclass(frozen=True)
class DriverClass:
    """A class of drivers: the number by which one registers, its entries, the keys of a part, and the registers. Some
    keys are allowed only in scenarios of version 2."""

    name: str
    code: int
    entries: tuple[str, ...]
    keys: tuple[str, ...]
    keys_of_version_2: tuple[str, ...]
    registers: tuple[Register, ...]


def class_of(row: dict[str, Any]) -> DriverClass:
    """A class, by its row."""
    entries, keys, later = (tuple(row[name]) for name in ("entries", "keys", "keys_of_version_2"))
    registers = tuple(Register(**each) for each in row["registers"])
    return DriverClass(row["name"], row["code"], entries, keys, later, registers)


@dataclass(frozen=True)
class Mnemonic:
    """An instruction of the driver machine. Of its operands `a` and `b` are registers, `imm` is a number or a label.
    `sets` says whether it sets register a, `reads` which registers it reads, `next` whether the next word may be
    executed after it, and `compares` how it compares a and b, if it does."""

    name: str
    number: int
    operands: str
    sets: bool
    group: str
    reads: str
    next: bool
    compares: str = ""

    @property
    def each_operand(self) -> list[str]:
        return self.operands.split()

    def does_read(self, operand: str) -> bool:
        return operand in self.reads.split()


# The groups of instructions.
GROUPS = MOVE, SUM, MEMORY, JUMP, PORT, KERNEL = ("move", "sum", "memory", "jump", "port", "kernel")


def numbered(table: str, column: str = "name") -> dict[int, str]:
    """A table whose rows have numbers: for each number, the text in a column of its row."""
    return {row["number"]: row[column] for row in TABLES[table]}


CLASSES: dict[str, DriverClass] = {row["name"]: class_of(row) for row in TABLES["classes"]}

MNEMONICS: dict[str, Mnemonic] = {row["name"]: Mnemonic(**row) for row in TABLES["instructions"]}
OPERANDS = {name: mnemonic.operands for name, mnemonic in MNEMONICS.items()}
OPCODES = {name: mnemonic.number for name, mnemonic in MNEMONICS.items()}

# The keys that only some operations, kinds of fault and kinds of schedule have.
OPERATIONS: dict[str, Keys] = {row["name"]: keys_of(row["keys"]) for row in TABLES["operations"]}
FAULT_KINDS: dict[str, Keys] = {row["name"]: keys_of(row["keys"]) for row in TABLES["fault_kinds"]}
SCHEDULES: dict[str, Keys] = {row["name"]: keys_of(row["keys"]) for row in TABLES["schedules"]}

# The cause with which a kind of fault stops the driver, and what another kind changes: a register, or a word of memory
# or of the text.
STOPS: dict[str, str] = {row["name"]: row["stops"] for row in TABLES["fault_kinds"] if row["stops"]}
CHANGES: dict[str, str] = {row["name"]: row["changes"] for row in TABLES["fault_kinds"] if row["changes"]}

# What the keys of each kind of object of an input accept.
INPUTS: dict[str, Keys] = {name: keys_of(table) for name, table in TABLES["inputs"].items()}

SERVICES = numbered("services")
SERVICE_NUMBERS = {name: number for number, name in SERVICES.items()}
CLAUSES = numbered("clauses", "broken")
FAULT_LINES = numbered("fault_lines")
ASM_FAULTS = numbered("asm_faults")
STATUSES = {name: number for number, name in numbered("statuses").items()}

LIMITS: dict[str, int] = TABLES["limits"]
MEMORY_MAP: dict[str, int] = TABLES["memory_map"]

# The ports of each class's device by direction, and the first of the ports of registers, which each device has.
PORTS: dict[str, dict[str, list[int]]] = TABLES["ports"]
FIRST_REGISTER = PORTS["registers"]["IN"][0]

# The words of a report's events, by what they are about.
WORDS: dict[str, tuple[str, ...]] = {name: tuple(words) for name, words in TABLES["report"].items()}

# The greatest number of 32 bits, and the number of registers of the driver machine.
MOST_WORD = INPUTS["bad"]["after"].ends[1]
REGISTERS = FAULT_KINDS["reg"]["register"].ends[1] + 1
