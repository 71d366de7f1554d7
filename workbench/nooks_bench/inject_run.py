"""Runs trials, in batches. Live ones are the members of a campaign, whose rows say everything about a trial that was
not stopped; of one that was, the report says what came first. Each latent one has its own image and its own report."""

from __future__ import annotations

import functools
import json
from dataclasses import dataclass, replace
from typing import Any, Iterator, Sequence

from .facts import LIMITS, STATUSES
from .inject_code import Code, code_of, encoded
from .inject_found import Evidence, Found, Row, by_row, by_evidence, parse_detail, read_evidence
from .inject_trials import Trial, scenario_of
from .outcomes import Row as Summary
from .outcomes import row_of
from .pool import each_done
from .program import REPORTED, Ended, Mistake, Program
from .report import Report, parse_report
from .scenario import Scenario, operations, with_limit

MOST_OPERATIONS = LIMITS["MOST_CAMPAIGN_OPS"]

# A fault that strikes nothing: no burst has this number.
NEVER = {"burst": 2**32 - 1, "after": 0, "kind": "trap"}

# The instruction that shows that an address was executed: it traps, and its port gives the address.
FIRST_PORT = 1000
TELLTALE = "IN r0 {port}"
TELLTALE_CAUSE = "trap bad_port "

# How many trials a worker takes at a time.
BATCH = 100


@dataclass(frozen=True)
class Setting:
    """What all trials of an experiment share: the scenario without faults, whose driver is an image, its struck part,
    whether runs are guarded, and the telltale word of each address."""

    base: Scenario
    part: int
    code: Code
    guard: bool
    telltales: tuple[int, ...]

    def at_limit(self, limit: int) -> Setting:
        return replace(self, base=with_limit(self.base, self.part, limit))


@dataclass(frozen=True)
class Batch:
    """Some trials, and the limits under which each is run."""

    setting: Setting
    trials: tuple[Trial, ...]
    limits: tuple[int, ...]


# For each trial what became of it under each limit.
Results = list[dict[int, Found]]


def campaign_rows(program: Program, setting: Setting, members: list[list[dict[str, Any]]]) -> list[Row]:
    """The rows with detail of the members' runs."""
    keys = {"guard": True} if setting.guard else {}
    campaign = {"base": setting.base, "part": setting.part, "members": members, **keys, "detail": True}
    ended = program.ask(["campaign"], json.dumps(campaign))
    if ended.out.startswith("fault 2 unknown_key /\n") or ended.out.startswith("fault 3 missing_key /faults\n"):
        raise program.too_old("campaigns with `members`, `guard` and `detail`")
    if ended.status:
        raise Mistake(f"the program refuses a campaign of the trials: {ended.out.strip() or ended.err.strip()}")
    rows = [parse_detail(line) for line in ended.out.split("\n") if line and not line.startswith("campaign")]
    if len(rows) != len(members):
        raise Mistake(f"{len(members)} trials, and {len(rows)} rows")
    return rows


def report_of(program: Program, setting: Setting, scenario: Scenario) -> str:
    """The report of a run, guarded or not."""
    word = "guard" if setting.guard else "run"
    ended: Ended = program.ask([word], json.dumps(scenario))
    if ended.status == STATUSES["usage"]:
        raise program.too_old(f"`{word}`")
    if ended.status not in REPORTED:
        raise Mistake(f"`{word}` ended with status {ended.status}: {(ended.out or ended.err).strip()[:200]}")
    return ended.out


def evidence_of(program: Program, setting: Setting, scenario: Scenario) -> Evidence:
    return read_evidence(report_of(program, setting, scenario), setting.part)


def found_by_report(program: Program, setting: Setting, trial: Trial, base: Evidence, limit: int) -> Found:
    """What became of a trial by its own report."""
    scenario = scenario_of(trial, setting.base, setting.part, setting.code)
    struck = trial.strike.burst if trial.strike else 1
    return by_evidence(evidence_of(program, setting, scenario), base, limit, struck)


def check_row(row: Row, found: Found, trial: Trial) -> None:
    """Raises a mistake if the row and the report of a run differ."""
    ours = (found.failures, found.same_answers, found.same_left, found.clause, found.traps)
    if ours != (row.failures, row.same_answers, row.same_left, row.clause, row.traps):
        raise Mistake(f"the row and the report of trial {trial.kind} {trial.number} differ: {row} and {found}")


def live(program: Program, setting: Setting, trials: Sequence[Trial], base: Evidence, limit: int) -> list[Found]:
    """What became of live trials under one limit."""
    rows = campaign_rows(program, setting, [trial.faults(trial.words()) for trial in trials])
    found: list[Found] = []
    for trial, row in zip(trials, rows):
        one = by_row(row)
        if one is None:
            one = found_by_report(program, setting, trial, base, limit)
            check_row(row, one, trial)
        found.append(one)
    return found


def judged(program: Program, setting: Setting, trials: Sequence[Trial], base: Evidence, limit: int) -> list[Found]:
    """What became of trials under one limit, except whether a mutant was executed."""
    at_limit = setting.at_limit(limit)
    if trials and trials[0].strike is not None:
        return live(program, at_limit, trials, base, limit)
    return [found_by_report(program, at_limit, trial, base, limit) for trial in trials]


def telltales_of(setting: Setting, trial: Trial) -> dict[int, int]:
    """The telltale words at the addresses of a trial's mutants."""
    return {mutant.address: setting.telltales[mutant.address] for mutant in trial.mutants}


def executed(program: Program, setting: Setting, trials: Sequence[Trial]) -> list[bool]:
    """For each trial whether the driver reached any of the changed words. Up to the first of them its run is that
    without faults, and a telltale word there stops it."""
    unguarded = replace(setting.at_limit(0), guard=False)
    if not trials:
        return []
    if trials[0].strike is not None:
        members = [trial.faults(telltales_of(setting, trial)) for trial in trials]
        return [row.cause.startswith(TELLTALE_CAUSE) for row in campaign_rows(program, unguarded, members)]
    found: list[bool] = []
    for trial in trials:
        scenario = scenario_of(trial, unguarded.base, setting.part, setting.code, telltales_of(setting, trial))
        failed = evidence_of(program, unguarded, scenario).failed
        found.append(failed is not None and failed[2].startswith(TELLTALE_CAUSE))
    return found


def results_of(program: Program, batch: Batch) -> Results:
    """What became of a batch. A run with no more failures than a smaller limit is also that limit's run."""
    setting = batch.setting
    base = evidence_of(program, setting, setting.base)
    limits = sorted(batch.limits, reverse=True)
    results: Results = [{} for _ in batch.trials]
    for limit in limits:
        for each in results:
            known = [found for found in each.values() if found.failures <= limit]
            if known:
                each[limit] = known[0]
        missing = [index for index, each in enumerate(results) if limit not in each]
        found = judged(program, setting, [batch.trials[index] for index in missing], base, limit)
        for index, one in zip(missing, found):
            results[index][limit] = one
    return with_executed(program, batch, results)


def with_executed(program: Program, batch: Batch, results: Results) -> Results:
    """Finds, for each trial without any effect, whether a mutant was executed; in any other trial one was."""
    quiet = [index for index, each in enumerate(results) if not any(found.has_effect for found in each.values())]
    answers = executed(program, batch.setting, [batch.trials[index] for index in quiet])
    for index, answer in zip(quiet, answers):
        results[index] = {limit: replace(found, executed=answer) for limit, found in results[index].items()}
    return results


def run_batch(path: str, batch: Batch) -> Results:
    """Runs a batch, given only the program's path."""
    return results_of(Program(path), batch)


def check_base(program: Program, base: Scenario, part: int) -> Report:
    """The report of the run without faults. Raises a mistake if anything went wrong in it."""
    if not part < len(base["parts"]):
        raise Mistake(f"there is no part {part}: the scenario has {len(base['parts'])}")
    report = parse_report(program.report(base))
    row: Summary = row_of(report)
    if row.status or row.failures:
        raise Mistake("the run without faults has to go well: status 0 and no failure"
                      f" (this one: status {row.status}, {row.failures} failures)")
    return report


def check_live(program: Program, setting: Setting) -> None:
    """Raises a mistake if the program has no such campaigns, or refuses them for this scenario."""
    if operations(setting.base) > MOST_OPERATIONS:
        raise Mistake(f"live faults are members of a campaign, whose scenario has at most {MOST_OPERATIONS} operations")
    row = campaign_rows(program, setting, [[NEVER]])[0]
    if row.failures or row.traps or not (row.same_answers and row.same_left):
        raise Mistake("the guarded run without faults is not the run without faults")


def setting_of(program: Program, scenario: Scenario, part: int, guard: bool) -> Setting:
    """What the trials of a scenario's part share."""
    code = code_of(program, scenario["parts"][part]["driver"])
    parts = [{**each, "driver": {"image": code.image}} if index == part else each
             for index, each in enumerate(scenario["parts"])]
    words = len(code.image["text"])
    lines = [TELLTALE.format(port=FIRST_PORT + address) for address in range(words)]
    return Setting({**scenario, "parts": parts}, part, code, guard, tuple(encoded(program, code.kind, lines)))


def run_trials(program: Program, setting: Setting, trials: Sequence[Trial], limits: Sequence[int],
               jobs: int) -> Iterator[tuple[int, Results]]:
    """Runs trials. Yields the index of the first one and the results of each batch when it is done."""
    size = max(1, min(BATCH, -(-len(trials) // (2 * jobs))))
    starts = range(0, len(trials), size)
    batches = [Batch(setting, tuple(trials[start : start + size]), tuple(limits)) for start in starts]
    for index, results in each_done(functools.partial(run_batch, program.path), batches, jobs):
        yield starts[index], results
