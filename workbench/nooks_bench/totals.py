"""The totals of a sweep: how often each outcome occurred, with its share in percent, which instructions were struck,
the outcomes of the bases under their schedules, and the counts for each call, register or other group."""

from __future__ import annotations

import math
from dataclasses import dataclass, field
from typing import Any, Callable, Iterable, Optional, Sequence

from .every import Whole
from .model import Entry, Swept
from .outcomes import MISSED, OUTCOMES, SAME, SHORT_NAMES, Losses, bursts_of, least_and_most
from .report import Event
from .table import losses_json, losses_text
from .words import counted, ranges_text

# 95 % of a normal distribution are within this many standard deviations.
NORMAL_95 = 1.959964


def counts_of(entries: Iterable[Entry]) -> dict[str, int]:
    """Returns how often each outcome occurred, from the mildest to the worst."""
    names = [entry.outcome for entry in entries]
    return {name: names.count(name) for name in OUTCOMES if name in names}


def wilson(count: int, whole: int) -> tuple[float, float]:
    """Returns the 95 % interval of a share that was seen `count` times among `whole` draws (E. B. Wilson, 1927)."""
    share, square = count / whole, NORMAL_95**2
    centre = share + square / (2 * whole)
    wide = NORMAL_95 * math.sqrt(share * (1 - share) / whole + square / (4 * whole**2))
    low, high = ((centre + side * wide) / (1 + square / whole) for side in (-1, 1))
    return max(0.0, low), min(1.0, high)


def percent(share: float) -> str:
    return f"{100 * share:.1f}"


@dataclass(frozen=True)
class Coverage:
    """How many instructions were struck, of how many that the struck bursts have."""

    struck: int
    turns: int
    bursts: int


def coverage_of(runs: Sequence[Swept], part: int) -> Coverage:
    """Counts the instructions before which a fault struck, over all bases together."""
    struck = instructions = bursts = 0
    for run in runs:
        bursts_here = bursts_of(run.report, part)
        points = {(each.fault["burst"], each.fault["after"]) for each in run.entries if each.outcome != MISSED}
        named = {burst for burst, _ in points}
        struck += len(points)
        instructions += sum(bursts_here[burst].instructions for burst in named)
        bursts += len(named)
    return Coverage(struck, instructions, bursts)


def guarded_counts(entries: Iterable[Entry]) -> dict[str, int]:
    """Returns how often each outcome occurred with a guard, from the mildest to the worst."""
    names = [entry.guarded.name for entry in entries if entry.guarded]
    return {name: names.count(name) for name in OUTCOMES if name in names}


def share_cell(count: int, whole: int) -> str:
    """Formats a count with its share in percent."""
    return f"{count:6} {percent(count / whole):>5} %"


def guarded_lines(runs: Sequence[Swept]) -> list[str]:
    """Returns the outcomes without a guard and with one, in two columns."""
    entries = [entry for run in runs for entry in run.entries]
    sides = [counts_of(entries), guarded_counts(entries)]
    lines = [f"{'without':>16}{'with':>16}  a guard"]
    for name in OUTCOMES:
        if any(name in counts for counts in sides):
            cells = [share_cell(counts[name], len(entries)) if name in counts else "." for counts in sides]
            lines.append("".join(f"{cell:>16}" for cell in cells) + f"  {name}")
    return lines


def whole_lines(wholes: dict[bool, Whole]) -> list[str]:
    """Describes the totals of campaigns over every instruction."""
    lines: list[str] = []
    for guarded, whole in wholes.items():
        prefix = "with a guard: " if guarded else ""
        traps = f", {whole.traps:,} traps" if whole.traps is not None else ""
        faults = f"{whole.members:,} faults at every burst and instruction, those of the shadow's bursts too"
        lines.append(f"{prefix}{faults}: {whole.given_up:,} given up, {whole.broken:,} broken{traps}")
        if whole.all_kept:
            lines.append("        so no single fault of these, wherever it strikes, ends with another status than 0")
    return lines


def total_lines(runs: Sequence[Swept], part: int, is_drawn: bool) -> list[str]:
    """Returns the outcomes with their shares; for drawn faults with the interval of each."""
    counts = counts_of(entry for run in runs for entry in run.entries)
    done, chosen = sum(counts.values()), sum(run.chosen for run in runs)
    wide = max((len(name) for name in counts), default=0)
    lines = []
    for name, count in counts.items():
        low, high = wilson(count, done)
        interval = f" ({percent(low)} to {percent(high)})" if is_drawn else ""
        lines.append(f"{count:6}  {name.ljust(wide)}  {percent(count / done):>5} %{interval}")
    cover = coverage_of(runs, part)
    drawn = " drawn" if is_drawn else ""
    of_all = f", of {chosen:,}: interrupted" if done < chosen else ""
    lines.append(f"{done:6}  faults{drawn}{of_all}")
    if cover.turns:
        lines.append(f"{cover.struck:6}  instructions struck, of {cover.turns:,} in {counted(cover.bursts, 'burst')}")
    if is_drawn and done:
        lines.append("        in brackets 95 % intervals, by Wilson's formula")
    return lines


@dataclass
class Own:
    """The outcome of some bases without a fault, if they all have one outcome, cause and losses."""

    outcome: str
    cause: str
    losses: Losses
    starts: list[int] = field(default_factory=list)

    def as_json(self) -> dict[str, Any]:
        return {**vars(self), "losses": vars(self.losses)}


def own_groups(runs: Sequence[Swept]) -> list[Own]:
    """Returns the bases under drawn schedules, grouped by outcome, from the worst on."""
    groups: dict[tuple[Any, ...], Own] = {}
    for run in runs:
        own = run.own
        group = groups.setdefault((own.name, own.cause, own.losses), Own(own.name, own.cause, own.losses))
        if run.start is not None:
            group.starts.append(run.start)
    order = (SAME, *OUTCOMES)
    return sorted(groups.values(), key=lambda group: -order.index(group.outcome))


def own_lines(runs: Sequence[Swept]) -> list[str]:
    """Describes the outcomes of the bases under drawn schedules, without a fault of the sweep."""
    lines = [f"the same under {counted(len(runs), 'drawn schedule')}:"]
    for group in own_groups(runs):
        lost = losses_text(group.losses, group.losses)
        about = "as under its own schedule" if group.outcome == SAME else group.outcome
        lines.append(f"{len(group.starts):6}  {about}" + (f": {group.cause}" if group.cause else ""))
        if lost:
            lines.append(f"        lost: {lost}")
        if group.outcome != SAME:
            lines.append(f"        starts {starts_text(group.starts)}")
    return lines


def starts_text(starts: list[int], most: int = 60) -> str:
    """Returns where the draws of some schedules begin; of many only the first ones."""
    text = ranges_text(starts)
    if len(text) <= most:
        return text
    return f"{text[: text.rindex(',', 0, most)]}, .. ({len(starts)} of them)"


def call_of(run: Swept, entry: Entry, event: Event | None) -> str:
    """Returns the call that a fault strikes, without the burst and the attempt; with its number if there is one
    base."""
    if event is None or event.call == 0:
        return "no call"
    text = entry.place.partition(" try ")[0]
    first, _, rest = text.partition(" ")
    return f"c{event.call} {rest}" if first == f"b{event.burst}" else text


# Returns the group of an entry of a base, given the burst that its fault names.
Key = Callable[[Swept, Entry, Optional[Event]], str]


def named_key(key: str) -> Key:
    """Groups faults by the value of a key."""
    return lambda run, entry, event: str(entry.fault.get(key, f"no {key}"))


# How a sweep's faults may be grouped.
GROUPS: dict[str, Key] = {
    "call": call_of,
    "burst": lambda run, entry, event: entry.place,
    "instruction": lambda run, entry, event: entry.instruction or "not known",
    "register": named_key("register"),
    "address": named_key("address"),
    "value": named_key("value"),
    "kind": named_key("kind"),
    "schedule": lambda run, entry, event: str(run.start) if run.start is not None else "its own",
}


@dataclass
class Group:
    """The entries of one group."""

    name: str
    entries: list[Entry] = field(default_factory=list)

    def losses(self) -> tuple[Losses, Losses]:
        """Returns the least and the most of each kind that a fault of the group lost."""
        return least_and_most(entry.losses for entry in self.entries)

    def as_json(self) -> dict[str, Any]:
        losses = losses_json(*self.losses())
        return {"name": self.name, "faults": len(self.entries), "outcomes": counts_of(self.entries), "losses": losses}


def groups_of(runs: Sequence[Swept], part: int, by: str) -> list[Group]:
    """Returns the groups in the order in which they occur."""
    found: dict[str, Group] = {}
    for run in runs:
        bursts = bursts_of(run.report, part)
        for entry in run.entries:
            name = GROUPS[by](run, entry, bursts.get(entry.fault["burst"]))
            found.setdefault(name, Group(name)).entries.append(entry)
    if all(name.isdecimal() for name in found):
        return sorted(found.values(), key=lambda group: int(group.name))
    return list(found.values())


def group_lines(runs: Sequence[Swept], part: int, by: str) -> list[str]:
    """Returns a row for each group, with a column for each outcome that occurred."""
    groups = groups_of(runs, part, by)
    came = counts_of(entry for group in groups for entry in group.entries)
    short = {name: word for word, name in SHORT_NAMES.items() if name in came}
    heads = [f"{short[name]:>14}" for name in came]
    lines = [f"faults{''.join(heads)}  by {by}"]
    for group in groups:
        counts = counts_of(group.entries)
        whole = len(group.entries)
        cells = [share_cell(counts[name], whole) if name in counts else "." for name in came]
        lost = losses_text(*group.losses())
        columns = "".join(f"{cell:>14}" for cell in cells)
        lines.append(f"{whole:6}{columns}  {group.name}" + (f"; lost: {lost}" if lost else ""))
    return lines
