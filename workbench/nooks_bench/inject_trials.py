"""The trials of an experiment: which mutants are in the driver, and when they get there. All is drawn from a seed, for
each kind separately, so that a kind has the same trials whatever other kinds are asked for."""

from __future__ import annotations

import itertools
import random
from dataclasses import dataclass
from typing import Iterator, Sequence, TypeVar

from .facts import FAULT_KINDS
from .inject_code import Code
from .inject_mutants import KINDS, MIXED, Mutant
from .program import Mistake
from .report import SHADOW, Part
from .scenario import Fault, Scenario, with_faults

Item = TypeVar("Item")

# The most faults of a trial: as many as a member of a campaign may have.
MOST_FAULTS = 16

# The kind of fault of a scenario by which a word of the text changes; the next load brings the image's word back.
CODE = "code"
assert CODE in FAULT_KINDS

# The most draws for each trial that is asked for, since a trial that came before is drawn again.
REDRAWS = 50


@dataclass(frozen=True)
class Asked:
    """What an experiment consists of. Its faults strike at the first burst of a drawn call (live), with `any_turn` at a
    drawn instruction of it, or are in the image from the beginning (latent)."""

    kinds: tuple[str, ...]
    trials: int
    faults: int
    seed: int
    latent: bool = False
    any_turn: bool = False
    every: bool = False


@dataclass(frozen=True)
class Strike:
    """When the faults of a trial strike: after how many instructions of a burst, and the call that the burst serves."""

    call: int
    burst: int
    after: int = 0


@dataclass(frozen=True)
class Trial:
    """One driver with its faults. Latent ones have no strike."""

    kind: str
    number: int
    mutants: tuple[Mutant, ...]
    strike: Strike | None = None

    def words(self) -> dict[int, int]:
        """The changed words by their addresses."""
        return {mutant.address: mutant.word for mutant in self.mutants}

    def faults(self, words: dict[int, int]) -> list[Fault]:
        """The faults that write some words when the trial strikes."""
        if self.strike is None:
            return []
        position = {"burst": self.strike.burst, "after": self.strike.after, "kind": CODE}
        return [{**position, "address": address, "value": word} for address, word in words.items()]


@dataclass(frozen=True)
class Population:
    """The trials of one kind. `mutants` counts those of the kind. `is_whole` says that all possible trials are there,
    and that nothing was drawn."""

    kind: str
    mutants: int
    is_whole: bool
    trials: tuple[Trial, ...]


def scenario_of(trial: Trial, base: Scenario, part: int, code: Code, words: dict[int, int] | None = None) -> Scenario:
    """The scenario of a trial, perhaps with other words at the addresses of its mutants."""
    written = trial.words() if words is None else words
    if trial.strike is not None:
        return with_faults(base, part, trial.faults(written))
    changed = {**base["parts"][part], "driver": {"image": code.with_words(written)}}
    parts = [changed if index == part else each for index, each in enumerate(base["parts"])]
    return {**base, "parts": parts}


def strikes_of(part: Part) -> list[tuple[Strike, int]]:
    """The first burst of each call that entered the driver, with the number of its instructions."""
    found: dict[int, tuple[Strike, int]] = {}
    for event in part.bursts():
        if event.context != SHADOW and event.call not in found:
            found[event.call] = (Strike(event.call, event.burst), event.instructions)
    return list(found.values())


def one_of(draw: random.Random, items: Sequence[Item]) -> Item:
    """An item, drawn by `random()` alone: its numbers are the same in every version of Python."""
    return items[int(draw.random() * len(items))]


# The mutants of a kind, by their addresses.
MutantsAt = dict[int, list[Mutant]]


def by_address(mutants: Sequence[Mutant]) -> MutantsAt:
    found: MutantsAt = {}
    for mutant in mutants:
        found.setdefault(mutant.address, []).append(mutant)
    return found


@dataclass(frozen=True)
class Draws:
    """Draws trials of one kind. `pool` has the mutants of those kinds of which each fault is one, `strikes` when they
    may strike."""

    asked: Asked
    kind: str
    pool: dict[str, MutantsAt]
    strikes: list[tuple[Strike, int]]
    draw: random.Random

    def size(self) -> int:
        """How many faults a trial has: not more than there are addresses."""
        addresses = {address for mutants_at in self.pool.values() for address in mutants_at}
        return min(1 if self.asked.every else self.asked.faults, len(addresses))

    def moments(self) -> list[Strike | None]:
        """All times at which a trial may strike. Every mutant strikes at the first call."""
        if self.asked.latent:
            return [None]
        strikes = self.strikes[:1] if self.asked.every else self.strikes
        if not self.asked.any_turn:
            return [strike for strike, _ in strikes]
        return [Strike(strike.call, strike.burst, turn) for strike, count in strikes for turn in range(count)]

    def all(self) -> Iterator[tuple[Strike | None, tuple[Mutant, ...]]]:
        """All possible trials."""
        mutants_at = self.pool[self.kind]
        for moment in self.moments():
            for addresses in itertools.combinations(sorted(mutants_at), self.size()):
                for mutants in itertools.product(*(mutants_at[each] for each in addresses)):
                    yield moment, mutants

    def number(self) -> int:
        """How many trials are possible: the ways to choose addresses, and a mutant at each, at each time."""
        ways = [1] + [0] * self.size()
        for mutants in self.pool[self.kind].values():
            for chosen in range(len(ways) - 1, 0, -1):
                ways[chosen] += ways[chosen - 1] * len(mutants)
        return ways[-1] * len(self.moments())

    def mutants(self) -> tuple[Mutant, ...]:
        """Mutants at different addresses: first an address is drawn, and then one of its mutants."""
        found: dict[int, Mutant] = {}
        kinds, size = list(self.pool), self.size()
        while len(found) < size:
            mutants_at = self.pool[one_of(self.draw, kinds)]
            free = [address for address in mutants_at if address not in found]
            if free:
                mutant = one_of(self.draw, mutants_at[one_of(self.draw, free)])
                found[mutant.address] = mutant
        return tuple(found[address] for address in sorted(found))

    def moment(self) -> Strike | None:
        """When a trial strikes: first the call is drawn, and then the instruction."""
        if self.asked.latent:
            return None
        strike, instructions = one_of(self.draw, self.strikes)
        if not self.asked.any_turn:
            return strike
        return Strike(strike.call, strike.burst, one_of(self.draw, range(instructions)))

    def drawn(self) -> Iterator[tuple[Strike | None, tuple[Mutant, ...]]]:
        """Different trials, as many as are asked for."""
        known: set[tuple[Strike | None, tuple[Mutant, ...]]] = set()
        for _ in range(REDRAWS * self.asked.trials):
            each = (self.moment(), self.mutants())
            if each not in known:
                known.add(each)
                yield each
            if len(known) == self.asked.trials:
                return

    def population(self) -> Population:
        """The trials: all possible ones if these are no more than are asked for."""
        whole = self.kind != MIXED and (self.asked.every or self.number() <= self.asked.trials)
        found = self.all() if whole else self.drawn()
        trials = tuple(Trial(self.kind, number, mutants, moment) for number, (moment, mutants) in enumerate(found))
        in_pool = sum(len(each) for mutants_at in self.pool.values() for each in mutants_at.values())
        return Population(self.kind, in_pool, whole, trials)


def populations(asked: Asked, pool: dict[str, list[Mutant]], part: Part) -> list[Population]:
    """The trials of each kind that is asked for and of which the driver has mutants."""
    strikes = strikes_of(part)
    if not strikes:
        raise Mistake(f"no call comes to the driver of part {part.index}: its faults would have nothing to strike")
    by_kind = {kind: by_address(pool[kind]) for kind in KINDS if pool.get(kind)}
    found: list[Population] = []
    for kind in asked.kinds:
        here = by_kind if kind == MIXED else {kind: by_kind[kind]} if kind in by_kind else {}
        if here:
            draws = Draws(asked, kind, here, strikes, random.Random(f"{asked.seed} {kind}"))
            found.append(draws.population())
    return found
