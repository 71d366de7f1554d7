"""The journal of a sweep: the outcomes known so far, as JSON lines, so that a long sweep can be interrupted and
continued. The first line identifies the sweep; each further line has the outcomes of some faults."""

from __future__ import annotations

import json
import os
from dataclasses import dataclass, field
from typing import IO, Any

from . import __version__
from .batches import Results
from .outcomes import SHORT_NAMES, Losses, Outcome
from .program import Mistake

SHORT = {name: short for short, name in SHORT_NAMES.items()}

# The keys of a journal's first line, and how a message describes a sweep with another value.
KEYS = {
    "journal": "of another form",
    "workbench": "by another version of the workbench",
    "program": "by another version of the program",
    "scenario": "of another scenario",
    "choice": "of another choice of faults",
    "faults": "of other faults",
}


def digest(value: Any) -> str:
    """Returns a hash by which values are compared."""
    import hashlib

    return hashlib.sha256(json.dumps(value, sort_keys=True).encode()).hexdigest()


def heading_of(version: str, scenario: Any, choice: dict[str, Any], faults: list[Any]) -> dict[str, Any]:
    """Returns the first line, which identifies a sweep."""
    named = {"journal": 1, "workbench": __version__, "program": version, "scenario": digest(scenario)}
    heading: dict[str, Any] = json.loads(json.dumps({**named, "choice": choice, "faults": digest(faults)}))
    return heading


def line_of(first: int, results: Results) -> str:
    rows = [[SHORT[each.name], each.cause, *each.losses.numbers()] for each in results]
    return json.dumps({"first": first, "outcomes": rows}) + "\n"


def outcome_of(row: list[Any]) -> Outcome:
    name, cause, *losses = row
    return Outcome(SHORT_NAMES[name], cause, Losses(*losses))


def read_line(line: bytes) -> tuple[int, Results]:
    """Returns the index of the line's first fault, and the outcomes from that index on."""
    value = json.loads(line)
    return int(value["first"]), [outcome_of(row) for row in value["outcomes"]]


@dataclass
class Journal:
    """A journal that is being written. `known` has the outcomes that the file had when it was opened, by the index of
    the fault."""

    path: str
    known: dict[int, Outcome] = field(default_factory=dict)
    file: IO[bytes] | None = None

    def open(self, heading: dict[str, Any], resume: bool) -> None:
        """Creates the file, or with `resume` continues an existing one."""
        try:
            self.begin(heading, resume)
        except Mistake:
            self.close()
            raise

    def begin(self, heading: dict[str, Any], resume: bool) -> None:
        try:
            exists = os.path.exists(self.path) and os.path.getsize(self.path) > 0
            if exists and not resume:
                raise Mistake(f"{self.path} is there already: --resume continues it")
            self.file = open(self.path, "r+b" if exists else "wb")
            if exists:
                self.read(heading)
            else:
                self.write(json.dumps(heading) + "\n")
        except OSError as error:
            raise Mistake(f"{self.path}: {error.strerror}") from error

    def read(self, heading: dict[str, Any]) -> None:
        """Reads the outcomes in the file, and removes an incomplete last line."""
        assert self.file is not None
        end = 0
        for number, line in enumerate(self.file, 1):
            if not line.endswith(b"\n"):
                break
            end += len(line)
            try:
                if number == 1:
                    self.compare(json.loads(line), heading)
                else:
                    first, results = read_line(line)
                    self.known.update(enumerate(results, first))
            except (ValueError, KeyError, TypeError, AttributeError) as error:
                raise Mistake(f"{self.path}: line {number} is no line of a journal") from error
        self.file.seek(end)
        self.file.truncate()
        if end == 0:
            self.write(json.dumps(heading) + "\n")

    def compare(self, found: dict[str, Any], heading: dict[str, Any]) -> None:
        """Fails if the journal is of another sweep."""
        for key, about in KEYS.items():
            if found[key] != heading[key]:
                shown = f" ({found[key]}; this is {heading[key]})" if key in ("workbench", "program") else ""
                raise Mistake(f"{self.path} is the journal of a sweep {about}{shown}")

    def write(self, text: str) -> None:
        if self.file is not None:
            try:
                self.file.write(text.encode())
                self.file.flush()
            except OSError as error:
                raise Mistake(f"{self.path}: {error.strerror}") from error

    def add(self, first: int, results: Results) -> None:
        """Writes the outcomes of consecutive faults, from index `first` on."""
        self.write(line_of(first, results))

    def close(self) -> None:
        if self.file is not None:
            self.file.close()
