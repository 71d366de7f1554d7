"""gen: writes a scenario that tries one's own driver, with operations of its class whose sizes are at the limits."""

from __future__ import annotations

import argparse
import os
import random
import sys
from dataclasses import dataclass
from typing import Any

from .asm_faults import named_class
from .facts import CLASSES, INPUTS, LIMITS, MOST_WORD
from .faults import check_range
from .jsontext import json_text
from .program import Mistake
from .source import read_text
from .words import either

ABOUT = """Writes a scenario with operations for the driver of an assembler text, as `build` takes it. The operations
are of the driver's class and drawn from --seed; their sizes, blocks and values are at the edges of what may be asked.
The scenario names the driver's file, from the folder of --output on, or from this folder on."""

# The most words of a frame and samples of a play; and the sizes that are drawn: the least, the most, and some around a
# page's half and end.
MOST_SIZE = LIMITS["MOST_FRAME_WORDS"]
SIZES = (1, 2, 4, 16, MOST_SIZE // 2 - 1, MOST_SIZE // 2, MOST_SIZE // 2 + 1, MOST_SIZE - 1, MOST_SIZE)
WORDS_OF_BLOCK = LIMITS["BLOCK_WORDS"]
MOST_BLOCKS = LIMITS["MOST_BLOCKS"]
COUNTS = (1, 2, MOST_BLOCKS - 1, MOST_BLOCKS)

# What a scenario may have (docs/SCENARIO.md).
MOST_THREADS = INPUTS["scenario"]["threads"].length[1]
MOST_OPS = INPUTS["thread"]["ops"].length[1]
MOST_ARRIVALS = INPUTS["part"]["arrivals"].length[1]

Operation = dict[str, Any]


@dataclass(frozen=True)
class Work:
    """Draws the operations of one class."""

    kind: str
    blocks: int
    beyond: bool
    draw: random.Random

    def edge(self, least: int, most: int) -> int:
        """A number of a range: mostly one of its ends, or next to one."""
        near = {least, min(least + 1, most), max(most - 1, least), most}
        return self.draw.choice([*sorted(near), self.draw.randint(least, most)])

    def word(self) -> int:
        return self.draw.choice([self.edge(0, MOST_WORD), self.draw.randint(0, 255), self.draw.randint(0, MOST_WORD)])

    def words(self, count: int) -> list[Any]:
        """As many words as `count`: all the same, or all different, so that a word at a wrong index is seen."""
        if self.draw.randrange(3) == 0:
            return [{"repeat": count, "of": self.word()}]
        first = self.draw.choice([self.draw.randint(0, 99), self.draw.randint(0, MOST_WORD - count)])
        return list(range(first, first + count))

    def size(self) -> int:
        """The number of words of a frame or a play."""
        return self.draw.choice((0, MOST_SIZE + 1)) if self.is_beyond() else self.draw.choice(SIZES)

    def is_beyond(self) -> bool:
        """Whether an operation asks for more than there is; the kernel answers such a one by itself."""
        return self.beyond and self.draw.randrange(6) == 0

    def first_block(self, blocks: int) -> int:
        """The first block of a read or a write of this length."""
        return self.blocks if self.is_beyond() else self.edge(0, self.blocks - blocks)

    def block_count(self) -> int:
        """How many blocks a read or a write asks for."""
        count = MOST_BLOCKS + 1 if self.is_beyond() else self.draw.choice(COUNTS)
        return min(count, self.blocks) if count <= MOST_BLOCKS else count

    def read(self) -> Operation:
        count = self.block_count()
        return {"op": "read", "first": self.first_block(min(count, self.blocks)), "count": count}

    def write(self) -> Operation:
        count = self.block_count()
        first = self.first_block(min(count, self.blocks))
        return {"op": "write", "first": first, "data": self.words(count * WORDS_OF_BLOCK)}

    def send(self) -> Operation:
        return {"op": "send", "frame": self.words(self.size())}

    def play(self) -> Operation:
        return {"op": "play", "samples": self.words(self.size())}

    def register(self) -> Operation:
        """A get or a set, which each class has."""
        registers = CLASSES[self.kind].registers
        if self.is_beyond():
            return {"op": "get", "key": len(registers)}
        key = self.draw.randrange(len(registers))
        if self.draw.randrange(2):
            return {"op": "get", "key": key}
        most = registers[key].most
        return {
            "op": "set",
            "key": key,
            "value": most + 1 if self.is_beyond() and most < MOST_WORD else self.edge(0, most),
        }

    def session(self) -> list[Operation]:
        """A stream of sound from its open to its close."""
        inside = [self.play() if self.draw.randrange(6) else self.register() for _ in range(self.draw.randint(1, 5))]
        return [{"op": "open"}, *inside, {"op": "close"}]

    def next_operations(self) -> list[Operation]:
        """The next operations of a thread."""
        if self.draw.randrange(6) == 0:
            return [self.register()]
        if self.kind == "sound":
            return self.session()
        if self.kind == "net":
            return [self.send() if self.draw.randrange(2) else {"op": "recv"}]
        return [self.write() if self.draw.randrange(2) else self.read()]

    def thread(self, count: int) -> list[Operation]:
        """The operations of a thread."""
        made: list[Operation] = []
        while len(made) < count:
            made += self.next_operations()
        return [{"part": 0, **operation} for operation in made[:count]]


NAMES = {"block": "disk", "net": "link", "sound": "audio"}


@dataclass(frozen=True)
class Asked:
    """What the options ask of a scenario, in addition to its seed."""

    asm_file: str
    ops: int
    threads: int
    blocks: int
    limit: int
    beyond: bool


def scenario_of(kind: str, asked: Asked, seed: int) -> dict[str, Any]:
    """A scenario for a driver of a class, as people write it."""
    work = Work(kind, asked.blocks, asked.beyond, random.Random(seed))
    counts = [asked.ops // asked.threads + (index < asked.ops % asked.threads) for index in range(asked.threads)]
    worked = [work.thread(count) for count in counts]
    threads = [{"name": f"t{index}", "ops": each} for index, each in enumerate(worked)]
    part: dict[str, Any] = {
        "name": NAMES[kind],
        "class": kind,
        "limit": asked.limit,
        "driver": {"asm_file": asked.asm_file},
    }
    if kind == "block":
        part["blocks"] = asked.blocks
    if kind == "net":
        received = sum(operation["op"] == "recv" for each in worked for operation in each)
        part["arrivals"] = [work.words(work.draw.choice(SIZES)) for _ in range(min(received + 2, MOST_ARRIVALS))]
    notes = f"{asked.ops} operations, {asked.threads} threads, drawn from seed {seed}"
    return {"version": 1, "notes": notes, "parts": [part], "threads": threads}


def class_of(driver: str) -> str:
    """The class of a driver's text."""
    kind = named_class(read_text(driver))
    if kind is None:
        raise Mistake(f"{driver}: no line names a class: .class {either(CLASSES)}")
    return kind


def driver_from(driver: str, output: str | None) -> str:
    """The path of a driver as a scenario names it: relative to the folder of the scenario's file."""
    if not output or os.path.isabs(driver):
        return driver
    return os.path.relpath(os.path.realpath(driver), os.path.realpath(os.path.dirname(output) or "."))


def run(args: argparse.Namespace) -> int:
    check_range("threads", args.threads, (1, MOST_THREADS))
    check_range("ops", args.ops, (1, MOST_OPS * args.threads))
    check_range("blocks", args.blocks, INPUTS["part"]["blocks"].ends)
    check_range("limit", args.limit, INPUTS["part"]["limit"].ends)
    kind = class_of(args.driver)
    asked = Asked(driver_from(args.driver, args.output), args.ops, args.threads, args.blocks, args.limit, args.beyond)
    text = json_text(scenario_of(kind, asked, args.seed)) + "\n"
    if not args.output:
        sys.stdout.write(text)
        return 0
    try:
        with open(args.output, "w", encoding="utf-8") as file:
            file.write(text)
    except OSError as error:
        raise Mistake(f"{args.output}: {error.strerror}") from error
    return 0


def add_to(commands: argparse._SubParsersAction[argparse.ArgumentParser]) -> None:
    parser = commands.add_parser("gen", help="operations to try one's own driver with", description=ABOUT)
    parser.add_argument("driver", metavar="DRIVER", help="an assembler text")
    about = f"N operations in all (default 32; a campaign takes {LIMITS['MOST_CAMPAIGN_OPS']})"
    parser.add_argument("--ops", type=int, default=32, metavar="N", help=about)
    parser.add_argument("--seed", type=int, default=1, metavar="S", help="what is drawn begins from it (default 1)")
    parser.add_argument("--threads", type=int, default=2, metavar="T", help="T threads (default 2)")
    parser.add_argument("--blocks", type=int, default=16, metavar="B", help="a disk of B blocks (default 16)")
    parser.add_argument(
        "--limit", type=int, default=1, metavar="L", help="the part is recovered up to L times (default 1)"
    )
    about = "also operations beyond what may be asked, which the kernel answers by itself"
    parser.add_argument("--beyond", action="store_true", help=about)
    parser.add_argument("-o", "--output", metavar="FILE", help="write the scenario there")
    parser.set_defaults(run=run)
