"""The rows of a map: what became of the faults of a burst, by the number of instructions before them."""

from __future__ import annotations

import json
import re
from dataclasses import dataclass, field
from typing import Any

from .facts import CHANGES
from .outcomes import BROKEN, LOSSES, OUTCOMES
from .scenario import Fault
from .unstruck import strikes_text
from .words import ranges_text

CLAUSE = re.compile(r"clause (\d+)")
# The most letters of a label of folded rows.
LONGEST_LABEL = 46


def clause_of(outcome: str, cause: str) -> int:
    """The clause that was broken, 0 for none."""
    found = CLAUSE.match(cause) if outcome == BROKEN else None
    return int(found[1]) if found else 0


@dataclass
class Cell:
    """What became of the faults of one row and instruction: the worst of them, how much was lost, and a text for each.
    `kinds` has the outcome and the clause of every fault."""

    outcome: str
    cause: str = ""
    lost: int = 0
    texts: list[str] = field(default_factory=list)
    kinds: list[tuple[str, int]] = field(default_factory=list)

    def add(self, outcome: str, cause: str, lost: int, text: str) -> None:
        self.texts.append(text)
        self.kinds.append((outcome, clause_of(outcome, cause)))
        worse = OUTCOMES.index(outcome) > OUTCOMES.index(self.outcome)
        if worse or (outcome == self.outcome and lost > self.lost) or len(self.texts) == 1:
            self.outcome, self.cause, self.lost = outcome, cause, lost

    @property
    def clause(self) -> int:
        """The clause that was broken, 0 for none."""
        return clause_of(self.outcome, self.cause)

    @property
    def look(self) -> tuple[str, int, int]:
        """What a reader sees of it."""
        return self.outcome, self.clause, self.lost if self.outcome == LOSSES else 0


Cells = dict[int, Cell]
CellsLook = tuple[tuple[int, tuple[str, int, int]], ...]


def look_of(cells: Cells) -> CellsLook:
    return tuple((turn, cells[turn].look) for turn in sorted(cells))


@dataclass
class Line:
    """A row of the map: what strikes, and a cell for each instruction. `guarded` has the cells of the guarded runs, if
    there are any."""

    strikes: str
    faults: list[Fault]
    cells: Cells = field(default_factory=dict)
    guarded: Cells = field(default_factory=dict)

    @property
    def look(self) -> tuple[CellsLook, CellsLook]:
        return look_of(self.cells), look_of(self.guarded)

    def cells_of_half(self, half: int) -> Cells:
        """The cells without a guard, 0, or with one, 1."""
        return self.guarded if half else self.cells

    def span(self) -> int:
        """How many instructions a cell covers, so that a sweep over each Kth instruction has no gaps."""
        turns = sorted(self.cells)
        gaps = {after - before for before, after in zip(turns, turns[1:])}
        return gaps.pop() if len(gaps) == 1 else 1


@dataclass
class Group:
    """The rows of one burst of one run."""

    run: int
    burst: int
    label: str
    lines: list[Line] = field(default_factory=list)

    @property
    def turns(self) -> int:
        """How many columns the rows have."""
        return max(turn + line.span() for line in self.lines for turn in line.cells)


def lost_in(entry: dict[str, Any]) -> int:
    """How much an entry of a sweep says was lost; 0 if it does not say."""
    losses = entry.get("losses") or {}
    return sum(number for number in losses.values() if isinstance(number, int))


def cell_text(entry: dict[str, Any], became: dict[str, Any]) -> str:
    """The text that a cell's tooltip has for one fault and for what became of it."""
    cause = f": {became['cause']}" if became["cause"] else ""
    losses = became.get("losses") or {}
    lost = ", ".join(f"{name} {number}" for name, number in losses.items() if number)
    at = f"\nat {entry['instruction']}" if entry["instruction"] else ""
    return f"{json.dumps(entry['fault'])}\n{became['outcome']}{cause}" + (f"\nlost: {lost}" if lost else "") + at


def add_entry(cells: Cells, entry: dict[str, Any], became: dict[str, Any]) -> None:
    """Adds what became of a fault to the cell of its instruction."""
    cell = cells.setdefault(entry["fault"]["after"], Cell(became["outcome"]))
    cell.add(became["outcome"], became["cause"], lost_in(became), cell_text(entry, became))


def groups_of(runs: list[dict[str, Any]], together: bool) -> list[Group]:
    """The groups of a sweep's runs, by runs and bursts; with `together` a burst is one row."""
    found: dict[tuple[int, int], Group] = {}
    rows: dict[tuple[int, int, str], Line] = {}
    for number, run in enumerate(runs):
        prefix = f"start {run['base']['schedule']['start']}: " if len(runs) > 1 else ""
        for entry in run["faults"]:
            fault = entry["fault"]
            strikes = "" if together else strikes_text(fault)
            group = found.setdefault((number, fault["burst"]), Group(number, fault["burst"], prefix + entry["place"]))
            key = (number, fault["burst"], strikes)
            if key not in rows:
                rows[key] = Line(strikes, [fault])
                group.lines.append(rows[key])
            add_entry(rows[key].cells, entry, entry)
            if "guarded" in entry:
                add_entry(rows[key].guarded, entry, entry["guarded"])
    return [found[key] for key in sorted(found)]


def short_label(text: str) -> str:
    return text if len(text) <= LONGEST_LABEL else text[: LONGEST_LABEL - 2] + ".."


def target_label(kind: str, value: int, faults: list[Fault]) -> str:
    """The label of several registers or addresses with one kind and value."""
    if CHANGES.get(kind) == "register":
        ranges = ranges_text(fault["register"] for fault in faults)
        text = re.sub(r"(\d+)", r"r\1", ranges)
        text = re.sub(r"by r(\d+)", r"by \1", text)
    else:
        text = ranges_text(fault["address"] for fault in faults)
    return f"{kind} {text} = {value}"


def folded_label(lines: list[Line]) -> str:
    """The label of rows that look the same."""
    targets: dict[tuple[str, int], list[Fault]] = {}
    plain: list[str] = []
    for line in lines:
        fault = line.faults[0]
        if "value" in fault:
            targets.setdefault((fault["kind"], fault["value"]), []).append(fault)
        else:
            plain.append(line.strikes)
    named = [target_label(kind, value, faults) for (kind, value), faults in targets.items()]
    outcomes = {cell.outcome for line in lines for cell in line.cells.values()}
    only = f": {outcomes.pop().removeprefix('struck, ')}" if len(outcomes) == 1 else ""
    return short_label("; ".join(plain + named)) + only


def merged(lines: list[Line]) -> Line:
    """Merges rows that look the same into one."""
    if len(lines) == 1:
        return lines[0]
    faults = [fault for line in lines for fault in line.faults]
    halves = (merged_cells([line.cells_of_half(half) for line in lines]) for half in (0, 1))
    return Line(folded_label(lines), faults, *halves)


def merged_cells(rows: list[Cells]) -> Cells:
    """Merges the cells of rows that look the same into those of one."""
    found: Cells = {}
    others = len(rows) - 1
    more = f"and {others} faults more that look the same" if others > 1 else "and 1 fault more that looks the same"
    for turn, cell in rows[0].items():
        kinds = [kind for cells in rows for kind in cells[turn].kinds]
        found[turn] = Cell(cell.outcome, cell.cause, cell.lost, [*cell.texts, more], kinds)
    return found


def fold_rows(group: Group) -> Group:
    """The group with equal rows merged into the first of them."""
    alike: dict[tuple[CellsLook, CellsLook], list[Line]] = {}
    for line in group.lines:
        alike.setdefault(line.look, []).append(line)
    return Group(group.run, group.burst, group.label, [merged(lines) for lines in alike.values()])
