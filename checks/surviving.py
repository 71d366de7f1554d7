"""The page docs/SURVIVAL.md: the experiments that it is about, the files with their counts, and its text, of which each
number is taken from these files."""

from __future__ import annotations

import itertools
import json
import os
import re
import sys
import textwrap
from collections.abc import Callable, Sequence
from dataclasses import dataclass
from typing import Any

from running import TOP

sys.path.insert(0, os.path.join(TOP, "workbench"))

from nooks_bench.columns import Row, markdown_lines  # noqa: E402
from nooks_bench.inject_counts import ENDINGS, WAIT_NAMES, share_text  # noqa: E402
from nooks_bench.inject_figure import figure  # noqa: E402
from nooks_bench.inject_found import CONTRACT, GIVEN_UP, MEANS, SYSTEM  # noqa: E402
from nooks_bench.inject_mutants import KINDS, MIXED  # noqa: E402
from nooks_bench.inject_tables import (  # noqa: E402
    count_text, ending_rows, means_rows, question_rows, wait_rows)
from nooks_bench.inject_trials import Asked  # noqa: E402
from nooks_bench.program import Mistake  # noqa: E402

FOLDER = os.path.join(TOP, "docs/survival")
TEMPLATE = os.path.join(FOLDER, "page.template")
PAGE = os.path.join(TOP, "docs/SURVIVAL.md")

# The drivers, each with the scenario of its work.
LOADS = os.path.join(TOP, "workbench/examples")
DRIVERS = {name: os.path.join(LOADS, f"load-{name}.jsonc") for name in ("block", "media", "net", "sound")}

WITHOUT, WITH = "without", "with"

# A table of a kind of trials: of one driver, of one guard, of one limit.
Tables = dict[str, Any]


@dataclass(frozen=True)
class Experiment:
    """One of the page's experiments, which all drivers are put through."""

    asked: Asked
    limits: tuple[int, ...]
    guard: str

    @property
    def most(self) -> str:
        """The greatest limit, as files name it."""
        return str(max(self.limits))


EXPERIMENTS = {
    # The papers' plan.
    "live": Experiment(Asked((*KINDS, MIXED), 400, 5, 1), (1, 16), "both"),
    # The same with fewer faults a trial.
    "one": Experiment(Asked(KINDS, 200, 1, 1), (16,), "no"),
    "two": Experiment(Asked(KINDS, 200, 2, 1), (16,), "no"),
    # One fault in the middle of a call's work.
    "turn": Experiment(Asked(KINDS, 200, 1, 1, any_turn=True), (16,), "both"),
    # One fault, in the image.
    "latent": Experiment(Asked(KINDS, 60, 1, 1, latent=True), (1, 4, 16), "both"),
}


def path_of(name: str) -> str:
    """The file of an experiment's counts."""
    return os.path.join(FOLDER, f"{name}.json")


def nested(ran: dict[str, Any]) -> Tables:
    """The counts of one driver by guard, limit and kind."""
    found: Tables = {}
    for table in ran["tables"]:
        guard = found.setdefault(WITH if table["guard"] else WITHOUT, {})
        kinds = {each["kind"]: each for each in table["kinds"]}
        guard[str(table["limit"])] = {"questions": table["questions"], "kinds": kinds}
    return found


def pruned(value: Any) -> Any:
    """Counts without those that are 0."""
    if isinstance(value, dict):
        return {key: pruned(each) for key, each in value.items() if each != 0 or isinstance(each, bool)}
    return value


# The names of counts, of which a file has only those that are not 0.
NAMES: dict[str, Sequence[str]] = {"endings": ENDINGS, "system": SYSTEM, "contract": CONTRACT, "means": MEANS,
                                   "waits": WAIT_NAMES}
SINGLE = ("trials", "failures", "stopped", "other_answers", "other_left", "silent_seen")


def restored(counts: dict[str, Any]) -> dict[str, Any]:
    """The counts of a kind with those that are 0."""
    named = {name: {**dict.fromkeys(keys, 0), **counts.get(name, {})} for name, keys in NAMES.items()}
    return {**counts, **dict.fromkeys(SINGLE, 0), **{name: counts[name] for name in SINGLE if name in counts}, **named}


def restored_table(table: dict[str, Any]) -> dict[str, Any]:
    """The counts of one driver, guard and limit with those that are 0."""
    questions = {name: {**dict.fromkeys(CONTRACT, 0), **table["questions"].get(name, {})} for name in SYSTEM}
    return {"questions": questions, "kinds": {kind: restored(each) for kind, each in table["kinds"].items()}}


def file_text(name: str, drivers: dict[str, Tables]) -> str:
    """The text of an experiment's file: a line for each kind."""
    experiment = EXPERIMENTS[name]
    asked = {**vars(experiment.asked), "limits": list(experiment.limits)}
    tables = [f'  "{driver}/{guard}/{limit}": {{\n{table_text(table)}\n  }}' for driver, guards in drivers.items()
              for guard, limits in guards.items() for limit, table in limits.items()]
    return f'{{"asked": {json.dumps(asked)}, "tables": {{\n' + ",\n".join(tables) + "\n}}\n"


def table_text(table: dict[str, Any]) -> str:
    """The counts of one driver, guard and limit: a line for each kind."""
    rows = {"questions": table["questions"], **table["kinds"]}
    return ",\n".join(f"    {json.dumps(name)}: {json.dumps(pruned(each))}" for name, each in rows.items())


def drivers_of(tables: dict[str, Any]) -> dict[str, Tables]:
    """The tables of a file by driver, guard and limit."""
    found: dict[str, Tables] = {}
    for name, table in tables.items():
        driver, guard, limit = name.split("/")
        kinds = {key: each for key, each in table.items() if key != "questions"}
        whole = restored_table({"questions": table["questions"], "kinds": kinds})
        found.setdefault(driver, {}).setdefault(guard, {})[limit] = whole
    return found


def read_files() -> dict[str, Any]:
    """The files, as the tool wrote them."""
    found: dict[str, Any] = {}
    for name in EXPERIMENTS:
        try:
            with open(path_of(name), encoding="utf-8") as file:
                read = json.load(file)
            found[name] = {"asked": read["asked"], "drivers": drivers_of(read["tables"])}
        except (OSError, ValueError, KeyError) as error:
            raise Mistake(f"{path_of(name)} cannot be read: checks/survival writes it") from error
    return found


# Figures.


def figures(files: dict[str, Any]) -> dict[str, str]:
    """The page's pictures, by the names of their files."""
    found: dict[str, str] = {}
    for name, title in {"live": "live faults", "latent": "latent faults"}.items():
        for guard, about in {WITHOUT: "without a guard", WITH: "with a guard"}.items():
            asked, limit = EXPERIMENTS[name].asked, EXPERIMENTS[name].most
            panels = [(driver, list(each[guard][limit]["kinds"].values()))
                      for driver, each in files[name]["drivers"].items()]
            found[f"{name}-{guard}.svg"] = figure(f"{title}, {asked.faults} a trial, limit {limit}, {about}", panels)
    return found


# Tables. Each takes the files and the words after its name.


def counts_at(files: dict[str, Any], name: str, driver: str, guard: str, limit: str) -> dict[str, Any]:
    """The counts of each kind."""
    kinds: dict[str, Any] = files[name]["drivers"][driver][guard][limit]["kinds"]
    return kinds


def kinds_table(files: dict[str, Any], name: str, driver: str, guard: str, limit: str) -> list[Row]:
    return ending_rows(list(counts_at(files, name, driver, guard, limit).values()))


def questions_table(files: dict[str, Any], name: str, driver: str, guard: str, limit: str) -> list[Row]:
    table = files[name]["drivers"][driver][guard][limit]
    return question_rows(table["kinds"]["all"], table["questions"])


def all_kinds(files: dict[str, Any], name: str, guard: str, limit: str) -> dict[str, dict[str, Any]]:
    """For each driver the counts of all kinds together."""
    return {driver: counts_at(files, name, driver, guard, limit)["all"] for driver in files[name]["drivers"]}


def drivers_table(files: dict[str, Any], name: str, guard: str, limit: str) -> list[Row]:
    """A row a driver, all kinds together."""
    rows = ending_rows([{**each, "kind": driver} for driver, each in all_kinds(files, name, guard, limit).items()])
    return [["driver", *rows[0][1:]], *rows[1:]]


def means_table(files: dict[str, Any], name: str, guard: str, limit: str) -> list[Row]:
    return means_rows(all_kinds(files, name, guard, limit), "driver")


def waits_table(files: dict[str, Any], name: str, guard: str, limit: str) -> list[Row]:
    return wait_rows(all_kinds(files, name, guard, limit), "driver")


def papers_table(files: dict[str, Any], name: str, guard: str, limit: str) -> list[Row]:
    """How often a driver was stopped and recovered, as the papers count, and how many of these were late."""
    rows = [["driver", "failures", "stopped and recovered", "of these, broken before", "never stopped",
             "of these, seen in answers"]]
    for driver, each in all_kinds(files, name, guard, limit).items():
        recovered = each["stopped"] - each["system"][GIVEN_UP]
        late = recovered - each["endings"]["recovered"] - each["endings"]["with losses"]
        silent = each["endings"]["silent"]
        of_failures = [of_whole(number, each["failures"]) for number in (recovered, silent)]
        seen, before = of_whole(each["silent_seen"], silent), of_whole(late, recovered)
        rows.append([driver, str(each["failures"]), of_failures[0], before, of_failures[1], seen])
    return rows


def of_whole(number: int, whole: int) -> str:
    """A number with its share of a whole."""
    return f"{number} ({round(100 * number / whole)} %)" if whole else count_text(number)


def limits_table(files: dict[str, Any], name: str, guard: str) -> list[Row]:
    """A row for each driver and limit: what became of the trials that were stopped."""
    rows = [["driver", "limit", "failures", "stopped", "recovered", "with losses", "given up", "broken and stopped",
             "silent"]]
    for driver, each in files[name]["drivers"].items():
        for limit, table in each[guard].items():
            counts = table["kinds"]["all"]
            ends = counts["endings"]
            both = ends["broken, then stopped"] + ends["stopped, later broken"]
            numbers = [counts["failures"], counts["stopped"], ends["recovered"], ends["with losses"], ends["given up"],
                       both, ends["silent"]]
            rows.append([driver, limit, *map(count_text, numbers)])
    return rows


def silent_table(files: dict[str, Any], *names: str) -> list[Row]:
    """The silent share of the failures by experiment, all kinds together, without a guard."""
    drivers = list(files[names[0]]["drivers"])
    rows = [["faults a trial", *drivers]]
    for name in names:
        counts = all_kinds(files, name, WITHOUT, EXPERIMENTS[name].most)
        asked = EXPERIMENTS[name].asked
        label = f"{asked.faults}, at any instruction" if asked.any_turn else str(asked.faults)
        rows.append([label, *(share_text(counts[driver]["percent"]["silent"]) for driver in drivers)])
    return rows


def guard_table(files: dict[str, Any], *names: str) -> list[Row]:
    """What a guard changes: broken contracts and wrong answers, without it and with it."""
    rows = [["faults", "driver", "trials", "broken without", "broken with", "other answers without",
             "other answers with", "given up without", "given up with"]]
    for name in names:
        limit = EXPERIMENTS[name].most
        without, guarded = (all_kinds(files, name, guard, limit) for guard in (WITHOUT, WITH))
        for driver in files[name]["drivers"]:
            pair = (without[driver], guarded[driver])
            broken = [each["trials"] - each["contract"]["kept"] for each in pair]
            answers = [each["other_answers"] for each in pair]
            lost = [each["system"][GIVEN_UP] for each in pair]
            rows.append([name, driver, str(pair[0]["trials"]), *map(str, (*broken, *answers, *lost))])
    return rows


TABLES: dict[str, Callable[..., list[Row]]] = {
    "kinds": kinds_table,
    "questions": questions_table,
    "drivers": drivers_table,
    "means": means_table,
    "waits": waits_table,
    "papers": papers_table,
    "limits": limits_table,
    "silent": silent_table,
    "guard": guard_table,
}


# The text.

HOLE = re.compile(r"\{\{(.+?)\}\}")
FOLDS: dict[str, Callable[[list[Any]], Any]] = {"min": min, "max": max, "sum": sum}

# What of a template has no number of an experiment: code, links and pictures, and years and the name of an interval.
NO_NUMBERS = re.compile(r"`[^`]*`|\]\([^)]*\)|\{\{.+?\}\}|95 %|\b(?:19|20)\d\d\b|^#+ .*$|^    .*$", re.MULTILINE)


def values_at(value: Any, path: list[str]) -> list[Any]:
    """The values at a path, in which `*` is every key."""
    if not path:
        return [value]
    key, *rest = path
    if isinstance(value, list):
        return values_at(value[int(key)], rest)
    keys = list(value) if key == "*" else [key]
    return [found for each in keys for found in values_at(value[each], rest)]


def filled(files: dict[str, Any], hole: str) -> str:
    """What belongs into a hole of the template: a table by its name, or a number by its path."""
    word, _, rest = hole.partition(" ")
    try:
        if word in TABLES:
            return "\n".join(markdown_lines(TABLES[word](files, *rest.split(" "))))
        fold, path = (FOLDS[word], rest) if word in FOLDS else (FOLDS["sum"], hole)
        return f"{fold(values_at(files, path.split('/'))):,}"
    except (KeyError, IndexError, TypeError, ValueError) as error:
        raise Mistake(f"the template's {{{{{hole}}}}} is in no file: {error!r}") from error


def wrapped(block: str) -> str:
    """A block of a page in lines of one width, if it is a paragraph or a list."""
    if block.startswith(("|", "#", "    ", "!")):
        return block
    items = re.split(r"\n(?=- )", block)
    return "\n".join(textwrap.fill(" ".join(item.split()), 118, subsequent_indent="  " if item.startswith("- ") else "",
                                   break_long_words=False, break_on_hyphens=False) for item in items)


def page_text(template: str, files: dict[str, Any]) -> str:
    """The page: its template with the numbers of the files."""
    for number in re.findall(r"\d+", NO_NUMBERS.sub("", template)):
        raise Mistake(f"the template has the number {number} itself: it has to be one of a file")
    text = HOLE.sub(lambda found: filled(files, found[1]), template).strip("\n")
    return "\n\n".join(wrapped(block) for block in text.split("\n\n")) + "\n"


def read_template() -> str:
    with open(TEMPLATE, encoding="utf-8") as file:
        return file.read()


def expected() -> dict[str, str]:
    """The page and its pictures, by their paths, as the files of counts have them."""
    files = read_files()
    pictures = {os.path.join(FOLDER, name): text for name, text in figures(files).items()}
    return {PAGE: page_text(read_template(), files), **pictures}


def differences() -> list[str]:
    """The files that differ from what the counts say, each with the first line that differs."""
    found: list[str] = []
    for path, text in expected().items():
        name = os.path.relpath(path, TOP)
        if not os.path.exists(path):
            found.append(f"{name} is missing")
            continue
        with open(path, encoding="utf-8") as file:
            lines, computed = file.read().split("\n"), text.split("\n")
        if lines != computed:
            pairs = itertools.zip_longest(lines, computed)
            index = next(at for at, (ours, theirs) in enumerate(pairs) if ours != theirs)
            found.append(f"{name}, line {index + 1}: differs from the counts in docs/survival")
    return found
