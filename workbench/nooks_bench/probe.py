"""Which instruction of a driver comes next in a burst, and which instructions are acts on the device. The program is
asked by runs with additional faults."""

from __future__ import annotations

import functools
from dataclasses import dataclass, field

from .facts import LIMITS, OPCODES
from .pool import each_done
from .program import Program
from .report import Event, parse_report
from .scenario import Fault, Scenario, with_faults

# A word that stops the driver and names its address: IN r0 from a port that no device has, this number plus the
# address. The trap `bad_port` then names the address.
TELLTALE = OPCODES["IN"] << 24
FIRST_PORT = 0x8000


@dataclass
class Probe:
    """Asks about one part of one scenario."""

    program: Program
    scenario: Scenario
    part: int
    near: int = 0
    counts: dict[tuple[int, int], int] = field(default_factory=dict)

    @functools.cached_property
    def listing(self) -> list[str]:
        """The instructions of the part's driver, by address."""
        return self.program.listing(self.scenario["parts"][self.part]["driver"])

    def burst_under(self, burst: int, faults: list[Fault]) -> Event | None:
        """Returns the event of a burst in the run with additional faults."""
        text = self.program.report(with_faults(self.scenario, self.part, faults))
        found = [event for event in parse_report(text).parts[self.part].bursts() if event.burst == burst]
        return found[0] if found else None

    def address(self, burst: int, after: int) -> int | None:
        """Returns the address that a burst reaches after `after` instructions, None if it is not one of the image's.
        Every word of the text is replaced by one that names its address, as many at a time as a part may have
        faults."""
        room = LIMITS["MOST_FAULTS"] - len(self.scenario["parts"][self.part].get("faults", []))
        if room <= 0:
            return None
        chunks = [range(first, min(first + room, len(self.listing))) for first in range(0, len(self.listing), room)]
        chunks.sort(key=lambda chunk: self.near not in chunk)
        for chunk in chunks:
            words = [{"address": at, "value": TELLTALE + FIRST_PORT + at} for at in chunk]
            fault = {"burst": burst, "after": after, "kind": "code"}
            event = self.burst_under(burst, [{**fault, **word} for word in words])
            if event is None or event.instructions != after + 1 or not (event.cause or "").startswith("trap bad_port "):
                continue
            port = int((event.cause or "").split(" ")[2])
            if port - FIRST_PORT in chunk:
                self.near = port - FIRST_PORT
                return self.near
        return None

    def instruction(self, burst: int, after: int) -> str:
        """Returns the address and the instruction there, empty if it is not known."""
        address = self.address(burst, after)
        return "" if address is None else f"{address}: {self.listing[address]}"

    def acts_before(self, burst: int, after: int) -> int:
        """Returns how many acts a burst has made after `after` instructions: those that a run with a trap there has."""
        if (burst, after) not in self.counts:
            event = self.burst_under(burst, [{"burst": burst, "after": after, "kind": "trap"}])
            self.counts[burst, after] = len(event.acts) if event else 0
        return self.counts[burst, after]

    def instructions_before_acts(self, event: Event) -> list[int]:
        """Returns for each act of a burst the number of instructions before it, by bisection."""
        found: list[int] = []
        for act in range(1, len(event.acts) + 1):
            low, high = (found[-1] + 1 if found else 0), event.instructions - 1
            while low < high:
                middle = (low + high) // 2
                if self.acts_before(event.burst, middle + 1) >= act:
                    high = middle
                else:
                    low = middle + 1
            found.append(low)
        return found


@dataclass(frozen=True)
class Piece:
    """Some points of a run, each a burst and the number of instructions before it, with the probe to ask about them."""

    probe: Probe
    points: list[tuple[int, int]]


def instructions_of(piece: Piece) -> list[str]:
    return [piece.probe.instruction(*point) for point in piece.points]


def instructions(probe: Probe, points: list[tuple[int, int]], jobs: int) -> dict[tuple[int, int], str]:
    """Returns the instructions at some points. A piece has consecutive points, so that each search begins near the end
    of the one before."""
    size = max(8, -(-len(points) // jobs))
    pieces = [Piece(probe, points[at : at + size]) for at in range(0, len(points), size)]
    found: dict[tuple[int, int], str] = {}
    for number, texts in each_done(instructions_of, pieces, jobs):
        found.update(zip(pieces[number].points, texts))
    return found
