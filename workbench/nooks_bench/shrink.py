"""shrink: makes a scenario smaller as long as a predicate holds for it."""

from __future__ import annotations

import argparse
import json
import sys
from dataclasses import dataclass
from typing import Any, Callable

from .jsontext import json_text
from .program import Mistake, Program, find_program
from .scenario import Scenario, operations, read_scenario
from .smaller import Change, lists_of, replaced, simpler_values, without_part, without_thread

ABOUT = """Makes a scenario smaller for as long as what is asked still holds of its run: fewer parts, threads,
operations, faults, arrivals and picks, shorter data. What is asked is a status, or a text in the report, or
both."""


@dataclass
class Shrinker:
    """Tries smaller scenarios; `best` is the smallest so far for which the predicate holds."""

    best: Scenario
    holds: Callable[[Scenario], bool]
    tries: int = 0

    def take(self, smaller: Scenario) -> bool:
        """Tries a scenario, which is the best from now on if the predicate holds for it."""
        self.tries += 1
        if not self.holds(smaller):
            return False
        self.best = smaller
        return True

    def shorten(self, path: tuple[Any, ...], least: int, unit: int) -> bool:
        """Removes pieces of a list, large ones first, and returns whether one could be removed. The length stays a
        multiple of `unit`."""
        changed = False
        size = max(len(at(self.best, path)) // unit // 2, 1) * unit
        while size >= unit:
            start = 0
            while start < len(at(self.best, path)):
                items = at(self.best, path)
                left = items[:start] + items[start + size :]
                if len(left) >= least and self.take(replaced(self.best, path, left)):
                    changed = True
                else:
                    start += size
            size = size // unit // 2 * unit
        return changed

    def drop(self, count: Callable[[Scenario], int], without: Callable[[Scenario, int], Scenario]) -> bool:
        """Removes parts or threads, one by one from the last on, and returns whether one could be removed."""
        changed = False
        for number in reversed(range(count(self.best))):
            changed |= self.take(without(self.best, number))
        return changed

    def simplify(self) -> bool:
        """Tries simpler values, and returns whether one was taken."""
        changed = False
        for change in list(simpler_values(self.best)):
            changed |= self.take_change(change)
        return changed

    def take_change(self, change: Change) -> bool:
        path, value = change
        try:
            now = at(self.best, path)
        except (KeyError, IndexError):
            return False
        if value is not None and not is_smaller(value, now):
            return False
        return self.take(replaced(self.best, path, value))

    def once(self) -> bool:
        """Tries everything once, and returns whether the scenario became smaller."""
        changed = len(self.best["parts"]) > 1 and self.drop(lambda each: len(each["parts"]), without_part)
        changed |= self.drop(lambda each: len(each["threads"]), without_thread)
        for path, least, unit in list(lists_of(self.best)):
            changed |= self.shorten(path, least, unit)
        return changed | self.simplify()

    def whole(self, report: Callable[[Shrinker], None]) -> Scenario:
        """Repeats until nothing makes the scenario smaller. `report` is called after each round."""
        while self.once():
            report(self)
        return self.best


def at(value: Any, path: tuple[Any, ...]) -> Any:
    """Returns the value at a path."""
    for step in path:
        value = value[step]
    return value


def is_smaller(value: Any, now: Any) -> bool:
    """Returns whether a number is less, or a list or a text shorter, than the present value."""
    return bool(value < now) if isinstance(value, int) else len(value) < len(now)


@dataclass(frozen=True)
class Predicate:
    """What must hold for a scenario's run."""

    program: Program
    status: int | None
    texts: tuple[str, ...]

    def __call__(self, scenario: Scenario) -> bool:
        ended = self.program.ask(["run"], json.dumps(scenario))
        is_status = self.status is None or ended.status == self.status
        return is_status and all(text in ended.out for text in self.texts)


def size_text(scenario: Scenario) -> str:
    """Describes the size of a scenario on one line."""
    faults = sum(len(part.get("faults", [])) for part in scenario["parts"])
    return (f"{len(scenario['parts'])} parts, {len(scenario['threads'])} threads, {operations(scenario)} operations, "
            f"{faults} faults, {len(json.dumps(scenario))} bytes")


def shrunk(scenario: Scenario, holds: Callable[[Scenario], bool], quiet: bool) -> Scenario:
    """Returns the smallest scenario that was found. If the predicate does not hold for the given one, this is a
    mistake."""
    if not holds(scenario):
        raise Mistake("what is asked does not hold of the scenario itself")

    def print_size(shrinker: Shrinker) -> None:
        if not quiet:
            print(f"{shrinker.tries} tries: {size_text(shrinker.best)}", file=sys.stderr)

    return Shrinker(scenario, holds).whole(print_size)


def run(args: argparse.Namespace) -> int:
    if args.status is None and not args.text:
        raise Mistake("what is asked? --status, --text, or both")
    holds = Predicate(find_program(args.program), args.status, tuple(args.text or ()))
    made = shrunk(read_scenario(args.file), holds, args.quiet)
    sys.stdout.write(json_text(made) + "\n")
    return 0


def add_to(commands: argparse._SubParsersAction[argparse.ArgumentParser]) -> None:
    parser = commands.add_parser("shrink", help="a smaller scenario of which the same holds", description=ABOUT)
    parser.add_argument("file", metavar="SCENARIO", help="as exact JSON or as `build` takes it; - is standard input")
    parser.add_argument("--status", type=int, metavar="S", help="the run's status: 7 if a contract is broken")
    parser.add_argument("--text", action="append", metavar="TEXT", help="a text in the report; may be given again")
    parser.add_argument("--quiet", action="store_true", help="no progress on standard error")
    parser.set_defaults(run=run)
