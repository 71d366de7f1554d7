"""A sweep that is run: its bases and their faults, and the outcomes that are known so far."""

from __future__ import annotations

import contextlib
from dataclasses import dataclass, field
from typing import Iterator

from .batches import Asking, Batch, Results
from .chosen import templates
from .engines import CLUSTER_BATCH, MOST_LOCAL, local_size, run_dask, run_local
from .every import Every, Whole, can_say
from .faults import Selection
from .journal import Journal
from .model import Entry, Swept
from .outcomes import BROKEN, Outcome, bursts_of, driver_work, judge_of, own_outcome
from .plans import Plan, batches_of
from .pool import uninterrupted
from .probe import Probe, instructions
from .program import Program
from .progress import Progress
from .report import Report


@dataclass(frozen=True)
class How:
    """How a sweep is run, apart from its faults. With `guard` each fault is also tried with a guard."""

    jobs: int
    quiet: bool
    instructions: bool
    dask: str | None = None
    dask_program: str | None = None
    guard: bool = False


Known = list[Outcome | None]


@dataclass
class Sweep:
    """A sweep that is run. `known` has the outcome of each fault so far, by its index in the whole sweep, and `guarded`
    the outcome with a guard. `first` is the report of the scenario under its own schedule. `wholes` has the totals of
    the tables of campaigns with `every`, without a guard and with one."""

    program: Program
    selection: Selection
    how: How
    plans: list[Plan]
    first: Report
    journal: Journal | None = None
    known: Known = field(default_factory=list)
    guarded: Known = field(default_factory=list)
    wholes: dict[bool, Whole] = field(default_factory=dict)
    texts: dict[tuple[int, int, int], str] = field(default_factory=dict)
    interrupted: bool = False

    def start(self, known: dict[int, Outcome]) -> None:
        """Begins with the outcomes that a journal has, by index. Those with a guard come after all others."""
        chosen = sum(len(plan.faults) for plan in self.plans)
        self.known = [known.get(index) for index in range(chosen)]
        self.guarded = [known.get(chosen + index) for index in range(chosen if self.how.guard else 0)]

    def batches(self, known: Known, asking: Asking) -> list[Batch]:
        """Returns the work that is left."""
        seconds = max(plan.seconds for plan in self.plans)
        size = CLUSTER_BATCH if self.how.dask else local_size(len(known), self.how.jobs, seconds)
        return batches_of(self.plans, self.selection.part, known, size, asking)

    def results(self, batches: list[Batch]) -> Iterator[tuple[int, Results]]:
        """Yields the index and the results of each batch as it is done."""
        if self.how.dask:
            return run_dask(self.how.dask, self.how.dask_program or self.program.path, batches)
        return run_local(self.program.path, batches, self.how.jobs)

    def take(self, known: Known, first: int, results: Results, number: int, progress: Progress) -> None:
        """Takes results of a base, for the faults from index `first` on, and writes them to the journal."""
        if not results:
            return
        with uninterrupted():
            known[first : first + len(results)] = results
            if self.journal:
                self.journal.add(first + (len(self.known) if known is self.guarded else 0), results)
        progress.take(results, number)

    def run(self) -> None:
        """Runs what is left. An interruption ends it with the outcomes that are known so far."""
        try:
            self.run_unguarded()
            if self.how.guard:
                self.run_guarded()
            if self.how.instructions:
                self.ask_instructions()
        except KeyboardInterrupt:
            self.interrupted = True

    def run_unguarded(self) -> None:
        """Tries the faults without a guard."""
        with Progress(len(self.known), self.how.quiet, len(self.plans)) as progress:
            progress.take([outcome for outcome in self.known if outcome], 0)
            asked = self.run_every(progress)
            asking = Asking(by_rows=not asked, detail=self.program.has_campaign_key("detail"))
            self.run_batches(self.known, asking, progress)

    def run_guarded(self) -> None:
        """Tries the faults with a guard. If the base keeps its contract, a fault that breaks none has no trap."""
        for plan in self.plans:
            if plan.guarded is not None and not plan.guarded.guards:
                for index in range(plan.first, plan.first + len(plan.faults)):
                    outcome = self.known[index]
                    self.guarded[index] = outcome if outcome and outcome.name != BROKEN else self.guarded[index]
        with Progress(self.guarded.count(None), self.how.quiet, len(self.plans), "with a guard: ") as progress:
            self.run_batches(self.guarded, Asking(guarded=True), progress)
        if False in self.wholes and self.program.has_campaign_key("guard"):
            self.wholes[True] = self.guarded_whole()

    def run_batches(self, known: Known, asking: Asking, progress: Progress) -> None:
        batches = self.batches(known, asking)
        for index, results in self.results(batches):
            self.take(known, batches[index].first, results, batches[index].number, progress)

    def run_every(self, progress: Progress) -> bool:
        """Asks for all faults by campaigns with `every`, if these can express the selection and no outcome is known
        yet. Faults with a row that is not sufficient are left. Returns whether it has asked. The totals of a table are
        not written to the journal, so a sweep with a journal does not have them, whether it was interrupted or not."""
        kinds = templates(self.selection)
        bases = [plan.base for plan in self.plans]
        if self.how.dask or any(self.known) or not can_say(self.program, self.selection, kinds, bases):
            return False
        for number, plan in enumerate(self.plans):
            judge = judge_of(plan.report, plan.base, self.selection.part)
            every = Every(self.program, plan.base, self.selection.part, judge, kinds)
            self.fill(every, plan, number, progress)
            if len(self.plans) == 1 and every.whole and not self.journal:
                self.wholes[False] = every.whole
        return True

    def fill(self, every: Every, plan: Plan, number: int, progress: Progress) -> None:
        """Takes the outcomes of a plan's faults from a campaign, as far as its rows are sufficient, some at a time."""
        results: Results = []
        first = plan.first
        with contextlib.closing(every.outcomes(plan.faults)) as outcomes:
            for index, outcome in enumerate(outcomes, plan.first):
                results += [outcome] if outcome else []
                if outcome is None or len(results) == MOST_LOCAL:
                    self.take(self.known, first, results, number, progress)
                    results, first = [], index + 1
        self.take(self.known, first, results, number, progress)

    def guarded_whole(self) -> Whole:
        """Returns the totals of the guarded campaign with `every`, which is over one plan."""
        plan = self.plans[0]
        judge = judge_of(plan.guarded or plan.report, plan.base, self.selection.part)
        kinds = templates(self.selection)
        every = Every(self.program, plan.base, self.selection.part, judge, kinds, guarded=True)
        with contextlib.closing(every.outcomes([])) as outcomes:
            list(outcomes)
        assert every.whole is not None
        return every.whole

    def ask_instructions(self) -> None:
        """Asks for the instruction at each point that was struck."""
        for number, plan in enumerate(self.plans):
            judge = judge_of(plan.report, plan.base, self.selection.part)
            struck = [fault for fault in plan.faults if judge.strikes(fault)]
            points = sorted({(fault["burst"], fault["after"]) for fault in struck})
            probe = Probe(self.program, plan.base, self.selection.part)
            for (burst, after), text in instructions(probe, points, self.how.jobs).items():
                self.texts[number, burst, after] = text

    def done(self) -> int:
        """Returns for how many faults all that was requested is known."""
        guarded = self.guarded or self.known
        return sum(None not in pair for pair in zip(self.known, guarded))

    def entries(self, number: int) -> list[Entry]:
        """Returns the faults of a base with a known outcome."""
        plan = self.plans[number]
        bursts = bursts_of(plan.report, self.selection.part)
        work: dict[int, str] = {}
        entries: list[Entry] = []
        for at, fault in enumerate(plan.faults, plan.first):
            burst = fault["burst"]
            if burst not in work:
                event, is_alone = bursts.get(burst), len(self.plans) == 1
                work[burst] = driver_work(event, plan.report, self.selection.part, is_alone)
            outcome, guarded = self.known[at], self.guarded[at] if self.how.guard else None
            if outcome is not None and (guarded is not None or not self.how.guard):
                text = self.texts.get((number, burst, fault["after"]), "")
                fields = (outcome.name, outcome.cause, work[burst], text, outcome.losses)
                entries.append(Entry(fault, *fields, guarded=guarded))
        return entries

    def runs(self) -> list[Swept]:
        """Returns what is known, base by base."""
        found: list[Swept] = []
        for number, plan in enumerate(self.plans):
            own = own_outcome(plan.report, self.first)
            found.append(Swept(plan.base, plan.report, self.entries(number), own, len(plan.faults), plan.guarded))
        return found
