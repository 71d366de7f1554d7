"""The progress of a sweep: one line on standard error that is written over, or a line every ten seconds if standard
error is not a terminal."""

from __future__ import annotations

import time
from dataclasses import dataclass, field

from .batches import Results
from .messages import is_terminal, write_error

WIDEST = 120


@dataclass
class Progress:
    """`schedules` is the number of bases, if there are several. `about` begins each line, and `noun` is what is
    counted. As a context manager, it ends its line."""

    whole: int
    quiet: bool
    schedules: int = 1
    about: str = ""
    noun: str = "faults"
    done: int = 0
    counts: dict[str, int] = field(default_factory=dict)
    begun: float = field(default_factory=time.monotonic)
    last: float = field(default_factory=time.monotonic)
    is_open: bool = False

    def __enter__(self) -> Progress:
        return self

    def __exit__(self, *_: object) -> None:
        self.end()

    def take(self, results: Results, number: int) -> None:
        """Counts the results of a batch, of base `number`."""
        self.done += len(results)
        for outcome in results:
            self.counts[outcome.name] = self.counts.get(outcome.name, 0) + 1
        now = time.monotonic()
        pause = 0.2 if is_terminal() else 10
        if not self.quiet and (now - self.last >= pause or self.done == self.whole):
            self.last = now
            self.write(now - self.begun, number)

    def write(self, seconds: float, number: int) -> None:
        shown = ", ".join(f"{count} {name}" for name, count in sorted(self.counts.items(), key=lambda each: -each[1]))
        prefix = self.about + (f"schedule {number + 1} of {self.schedules}: " if self.schedules > 1 else "")
        line = f"{prefix}{self.done:,} of {self.whole:,} {self.noun} in {seconds:.1f} s: {shown}"
        if is_terminal():
            write_error("\r\x1b[K" + line[:WIDEST])
            self.is_open = True
        else:
            write_error(line + "\n")
        if self.done == self.whole:
            self.end()

    def end(self) -> None:
        """Ends the line, so that the next output begins a new one."""
        if self.is_open:
            write_error("\n")
        self.is_open = False
