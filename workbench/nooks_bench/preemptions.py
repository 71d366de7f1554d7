"""A search for outcomes by preemptions: orders in which the run switches away from an actor that still has a step. It
begins with no such switch, then takes one, then two. Each order is a run of the program with listed picks. The search
proves nothing about orders that it does not run; it is for scenarios with too many states to follow every order."""

from __future__ import annotations

import functools
import itertools
from collections import Counter, deque
from dataclasses import dataclass, field
from typing import Callable, Iterator

from .ends import End, listed, things_of
from .explored import Found, Picks
from .outcomes import row_of
from .pool import each_done
from .program import Mistake, Program
from .replay import MOST_PICKS, Merge, actor_of
from .report import Report, parse_report
from .scenario import Scenario, with_schedule

# How often the picks of one run go through all actors; an order that needs more takes several runs.
ROUNDS = 8

# How many picks a stretch has in addition to the steps that its actor takes under the scenario's own schedule.
SPARE = 2

# How many runs are made before their results are used.
WAVE = 256


@dataclass
class Walk(Merge):
    """Replays a run pick by pick. An actor has a step exactly if the next event of its part is the actor's. `steps`
    has, for each event of each part, the number of steps up to it."""

    def __post_init__(self) -> None:
        super().__post_init__()
        self.steps: list[list[int]] = [[] for _ in self.report.parts]

    def part_of(self, actor: int) -> int | None:
        """Returns the part of an actor's next step, None if it has none."""
        threads = len(self.report.threads)
        if actor >= threads:
            index = (actor - threads) // 2
            return index if index < len(self.report.parts) else None
        calls, begun = self.calls[actor], self.begun[actor]
        now = calls[begun - 1] if begun else None
        if now is not None and not 0 < now.answered <= self.done[now.part]:
            return now.part
        return calls[begun].part if begun < len(calls) else None

    def take(self, actor: int) -> bool:
        """Takes the step of an actor, and returns whether it had one."""
        part = self.part_of(actor)
        events = self.report.parts[part].events if part is not None else []
        if part is None or self.done[part] == len(events):
            return False
        event = events[self.done[part]]
        if actor_of(event, part, len(self.report.threads)) != actor:
            return False
        if event.kind == "invoke":
            if not self.may_invoke(event, part):
                return False
            self.begun[actor] += 1
        self.done[part] += 1
        self.picks.append(actor)
        self.steps[part].append(len(self.picks))
        return True

    @property
    def is_over(self) -> bool:
        return all(done == len(part.events) for done, part in zip(self.done, self.report.parts))

    def lasts(self, scenario: Scenario) -> Picks:
        """Returns for each actor after how many steps it certainly has none: a thread after its last answer, arrivals
        after the last frame, a recovery at the end."""
        threads = [self.steps[calls[-1].part][calls[-1].answered - 1] if calls else 0 for calls in self.calls]
        found = [*threads]
        for part, spec, steps in zip(self.report.parts, scenario["parts"], self.steps):
            arrived = [step for event, step in zip(part.events, steps) if event.kind == "arrive"]
            are_all = len(arrived) == len(spec.get("arrivals", []))
            found += [len(self.picks), max(arrived, default=0) if are_all else len(self.picks)]
        return tuple(found)


@dataclass(frozen=True)
class Switch:
    """An order to run: the steps before a switch, and the actor that comes next, None for the order that is run first.
    From then on each actor continues as long as it can."""

    prefix: Picks = ()
    actor: int | None = None

    @property
    def asked(self) -> Picks:
        """The steps that are requested."""
        return self.prefix if self.actor is None else (*self.prefix, self.actor)


@dataclass(frozen=True)
class Order:
    """All steps of a run. `asked` is how many of them were requested, and `lasts` has for each actor after how many
    steps it certainly has none."""

    picks: Picks
    asked: int
    lasts: Picks

    def switches(self, preempting: bool) -> Iterator[Switch]:
        """Yields the switches after the requested steps: with `preempting` those away from an actor that continues in
        this order, else those to another actor when the one before has no step."""
        for number in range(self.asked, len(self.picks)):
            continues = number > 0 and self.picks[number] == self.picks[number - 1]
            if continues == preempting:
                yield from (Switch(self.picks[:number], actor) for actor, last in enumerate(self.lasts)
                            if actor != self.picks[number] and number < last)


@dataclass(frozen=True)
class Setting:
    """What all runs of a search share: the scenario, and how many steps each actor takes in a run of it."""

    scenario: Scenario
    steps: Picks

    @property
    def actors(self) -> int:
        return len(self.steps)

    def stretches(self, first: int) -> list[tuple[int, int]]:
        """Returns the actors in rotation from `first` on, each with more picks than it takes steps. A pick that is not
        taken shows that the actor has no step."""
        rotation = ((first + offset) % self.actors for offset in range(ROUNDS * self.actors))
        return [(actor, self.steps[actor] + SPARE) for actor in rotation]


def setting_of(program: Program, scenario: Scenario) -> Setting:
    """Returns the setting of a search, from the scenario's run under its own schedule."""
    report = parse_report(program.report(scenario))
    threads = len(report.threads)
    events = [(event, part.index) for part in report.parts for event in part.events]
    counts = Counter(actor_of(event, index, threads) for event, index in events)
    return Setting(scenario, tuple(counts[actor] for actor in range(threads + 2 * len(report.parts))))


def report_of(program: Program, setting: Setting, prefix: Picks, stretches: list[tuple[int, int]]) -> Report:
    """Returns the report of a run of some steps followed by stretches."""
    more = itertools.chain.from_iterable(itertools.repeat(actor, count) for actor, count in stretches)
    picks = tuple(itertools.islice(itertools.chain(prefix, more), MOST_PICKS))
    return parse_report(program.report(with_schedule(setting.scenario, listed(picks))))


def advance(walk: Walk, stretches: list[tuple[int, int]], room: int) -> int:
    """Takes stretches until the run is over, the picks are used up, or an actor took its whole stretch and may
    continue. Returns the actor that comes next."""
    actor = stretches[0][0]
    for actor, count in stretches:
        room -= count
        if walk.is_over or room < 0 or all(walk.take(actor) for _ in range(count)):
            break
    return actor


def follow(program: Program, setting: Setting, switch: Switch) -> tuple[Order, End] | None:
    """Runs the order of a switch to its end. Returns None if the switch's actor has no step then."""
    prefix, actor = switch.asked, switch.actor or 0
    while True:
        stretches = setting.stretches(actor)
        report = report_of(program, setting, prefix, stretches)
        walk = Walk(report)
        if not all([walk.take(pick) for pick in prefix]):
            return None
        actor = advance(walk, stretches, MOST_PICKS - len(prefix))
        if walk.is_over:
            picks = tuple(walk.picks)
            order = Order(picks, len(switch.asked), walk.lasts(setting.scenario))
            return order, End(Found(row_of(report), picks), things_of(report))
        if len(walk.picks) == len(prefix):
            raise Mistake(f"a run has more steps than the {MOST_PICKS:,} that a schedule lists")
        prefix = tuple(walk.picks)


def follow_by_path(path: str, setting: Setting, switch: Switch) -> tuple[Order, End] | None:
    """Does the same given only a path, as a worker does."""
    return follow(Program(path), setting, switch)


@dataclass
class Level:
    """The orders with one number of preemptions: how many switches were tried for them, how many had a step and made an
    order, and how many outcomes were new. It is whole if none of its switches is left."""

    preemptions: int
    tried: int = 0
    orders: int = 0
    fresh: int = 0
    is_whole: bool = False


def taken(pending: deque[Iterator[Switch]], most: int) -> list[Switch]:
    """Returns the next switches, and drops iterators that have none left."""
    found: list[Switch] = []
    while pending and len(found) < most:
        found.extend(itertools.islice(pending[0], most - len(found)))
        if len(found) < most:
            pending.popleft()
    return found


@dataclass
class Search:
    """A search with a bound on the switches that it tries. `found` has the outcomes by key, including those known
    before. `on_wave` is called with the number of switches that a wave tried and with their outcomes."""

    program: Program
    setting: Setting
    left: int
    jobs: int
    on_wave: Callable[[int, list[End]], None]
    found: dict[str, End] = field(default_factory=dict)
    levels: list[Level] = field(default_factory=list)

    def wave(self, level: Level, switches: list[Switch]) -> list[Order]:
        """Runs some switches, and returns the orders that they make."""
        work = functools.partial(follow_by_path, self.program.path, self.setting)
        results = dict(each_done(work, switches, self.jobs))
        runs = [run for run in (results[index] for index in range(len(switches))) if run is not None]
        self.left -= len(switches)
        level.tried += len(switches)
        level.orders += len(runs)
        known = len(self.found)
        for _, end in runs:
            self.found.setdefault(end.key, end)
        level.fresh += len(self.found) - known
        self.on_wave(len(switches), [end for _, end in runs])
        return [order for order, _ in runs]

    def level(self, preemptions: int, first: Iterator[Switch]) -> list[Order]:
        """Runs the orders with some preemptions, from the switches that make the last of these."""
        level = Level(preemptions)
        self.levels.append(level)
        pending = deque([first])
        orders: list[Order] = []
        while switches := taken(pending, min(WAVE, self.left)):
            made = self.wave(level, switches)
            orders += made
            pending.extend(order.switches(preempting=False) for order in made)
        level.is_whole = not taken(pending, 1)
        return orders

    def run(self, most: int | None) -> None:
        """Runs orders with no preemption, then with one, and so on, up to `most` or until nothing is left to try."""
        first = iter([Switch()])
        for preemptions in itertools.count() if most is None else range(most + 1):
            orders = self.level(preemptions, first)
            if not orders or not self.levels[-1].is_whole:
                break
            first = itertools.chain.from_iterable(
                order.switches(preempting=True) for order in orders)

    @property
    def is_whole(self) -> bool:
        """Whether every order was run, since none has more preemptions."""
        return bool(self.levels) and self.levels[-1].is_whole and not self.levels[-1].orders
