"""The outcomes of every order, as tables for people."""

from __future__ import annotations

from collections import Counter
from typing import Sequence

from .columns import Row, text_lines
from .ends import CONTRACT, KEPT, Differing, End, differing, listed, order_text
from .explored import name_of
from .facts import STATUSES
from .preemptions import Search
from .ways import Ways
from .words import counted, ranges_text, short

# How many outcomes the table shows, and how many values of a thing, unless all are requested.
MOST_ROWS = 20
MOST_VALUES = 8

# A list of outcomes, a value and an order are shortened if they have more characters.
LONGEST_LIST = 30
LONGEST_VALUE = 90
LONGEST_ORDER = 400

HEAD: Row = ["outcome", "status", "steps", "failures", "gone", "lost"]


def clipped(text: str, most: int) -> str:
    """Shortens a text that is too long."""
    return text if len(text) <= most else text[:most].rstrip() + " .."


def statuses_text(ends: Sequence[End]) -> str:
    """Returns how many outcomes have each status."""
    counts = Counter(end.found.row.status for end in ends)
    names = {STATUSES["done"]: "kept", STATUSES["given_up"]: "given up", STATUSES["contract_broken"]: "broken"}
    return ", ".join(f"{counts[status]} {name}" for status, name in names.items() if counts[status])


def covered_lines(ways: Ways) -> list[str]:
    """Describes what was followed, and by which program."""
    lines = [f"run by {name_of(ways.program)}, {ways.program.path}"]
    found = ways.explored
    if found and found.is_prefix:
        lines.append(f"NOT every order: there are more than {found.states:,} states, so longer runs were not followed")
    elif found:
        lines.append(f"every order of the steps: {found.states:,} states")
    lines.append(f"{counted(len(ways.ends), 'outcome')}: {statuses_text(ways.ends)}" if ways.ends else "no outcome yet")
    return lines


def outcome_lines(ends: Sequence[End], most: int) -> list[str]:
    """Returns a table with a row for each outcome."""
    rows = [HEAD]
    for number, end in enumerate(ends[:most], 1):
        row = end.found.row
        rows.append([str(each) for each in (number, row.status, row.events, row.failures, row.gone, row.lost)])
    lines = text_lines(rows)
    return lines + ([f".. and {len(ends) - most:,} more (--all)"] if len(ends) > most else [])


def shortened(values: Sequence[str]) -> list[str]:
    """Shortens some values, unless two of them would then look the same."""
    found = [clipped(short(value), LONGEST_VALUE) or "nothing" for value in values]
    return found if len({*found}) == len(found) else [value or "nothing" for value in values]


def value_lines(thing: Differing, most: int) -> list[str]:
    """Returns a thing that differs: its values, each with its outcomes."""
    lists = [clipped(ranges_text(numbers), LONGEST_LIST) for numbers in thing.values.values()][:most]
    values = shortened(list(thing.values)[:most])
    wide = max(len(numbers) for numbers in lists)
    lines = [f"  {thing.name}", *(f"    {numbers:{wide}}  {value}" for numbers, value in zip(lists, values))]
    left = len(thing.values) - most
    return lines + ([f"    .. and {counted(left, 'other value')} (--all)"] if left > 0 else [])


def worst(ends: Sequence[End]) -> int:
    """Returns the number of the first outcome with the worst status."""
    statuses = [end.found.row.status for end in ends]
    return statuses.index(max(statuses)) + 1


def worst_lines(ways: Ways) -> list[str]:
    """Returns an order for the worst outcome, and its schedule to paste; nothing if all outcomes have status 0."""
    number = worst(ways.ends)
    end = ways.end(number)
    if not end.found.row.status:
        return []
    broken = [f"{name} broken, {value}" for name, value in end.things.items()
              if name.startswith(CONTRACT) and value != KEPT]
    about = "; ".join(broken) or "a part is given up"
    order = clipped(order_text(end.found.picks, ways.scenario), LONGEST_ORDER)
    picks = ", ".join(map(str, listed_picks(end)))
    return ["", f"outcome {number}: {about}", f"  {order}", f'  "schedule": {{"kind": "listed", "picks": [{picks}]}}']


def listed_picks(end: End) -> list[int]:
    """Returns the picks of an outcome's schedule."""
    picks = listed(end.found.picks)["picks"]
    assert isinstance(picks, list)
    return picks


def search_lines(search: Search) -> list[str]:
    """Describes what a search covered."""
    rows: list[Row] = [["preemptions", "tried", "orders", "new outcomes", "covered"]]
    for level in search.levels:
        numbers = [str(each) for each in (level.preemptions, level.tried, level.orders, level.fresh)]
        rows.append([*numbers, "all" if level.is_whole else "a part"])
    lines = ["", "search by preemptions, switches away from an actor that could continue:", *text_lines(rows)]
    if search.is_whole:
        return lines + ["every order there is was run, one by one"]
    return lines + ["this proves nothing: any order that was not run may end otherwise, even break a contract"]


def verdict_lines(ways: Ways) -> list[str]:
    """Returns what holds for every order, if every order was followed."""
    worst_status = max((end.found.row.status for end in ways.ends), default=0)
    if not ways.is_whole:
        return []
    if worst_status == STATUSES["contract_broken"]:
        return ["", "some order breaks a contract"]
    given_up = ", and some order gives a part up" if worst_status else " or gives a part up"
    return ["", f"no order breaks a contract{given_up}"]


def text_of(ways: Ways, file: str, is_all: bool) -> str:
    rows = len(ways.ends) if is_all else MOST_ROWS
    threads, parts = (counted(len(ways.scenario[f"{name}s"]), name) for name in ("thread", "part"))
    lines = [f"{file}: {threads}, {parts}"]
    lines += covered_lines(ways)
    if ways.ends:
        lines += ["", *outcome_lines(ways.ends, rows)]
        things = differing(ways.ends)
        lines += ["", "what differs"] if things else []
        for thing in things:
            lines += value_lines(thing, len(thing.values) if is_all else MOST_VALUES)
        lines += worst_lines(ways)
    lines += search_lines(ways.search) if ways.search else []
    return "\n".join(lines + verdict_lines(ways))
