"""Ways to make a scenario smaller. Each returns a new scenario; the program decides whether it is valid."""

from __future__ import annotations

from typing import Any, Iterator

from .facts import LIMITS
from .scenario import Scenario

# The path of a value in a scenario, and its new value.
Path = tuple[Any, ...]
Change = tuple[Path, Any]

WORDS_OF_BLOCK = LIMITS["BLOCK_WORDS"]


def replaced(value: Any, path: Path, new: Any) -> Any:
    """Returns the value with another one at a path. None removes a key."""
    if not path:
        return new
    step, rest = path[0], path[1:]
    if isinstance(value, dict):
        if not rest and new is None:
            return {key: each for key, each in value.items() if key != step}
        return {**value, step: replaced(value.get(step), rest, new)}
    return [replaced(each, rest, new) if index == step else each for index, each in enumerate(value)]


def picked(scenario: Scenario, numbers: dict[int, int]) -> Scenario:
    """Returns the scenario with new numbers for the actors, if its schedule lists them."""
    schedule = scenario.get("schedule")
    if not schedule or schedule.get("kind") != "listed":
        return scenario
    picks = [numbers[pick] for pick in schedule["picks"] if pick in numbers]
    return {**scenario, "schedule": {**schedule, "picks": picks}}


def without_thread(scenario: Scenario, number: int) -> Scenario:
    threads = scenario["threads"]
    whole = len(threads) + 2 * len(scenario["parts"])
    numbers = {each: each - (each > number) for each in range(whole) if each != number}
    return picked({**scenario, "threads": threads[:number] + threads[number + 1 :]}, numbers)


def without_part(scenario: Scenario, index: int) -> Scenario:
    """Returns the scenario without a part and the operations on it."""
    threads = len(scenario["threads"])
    first = threads + 2 * index
    whole = threads + 2 * len(scenario["parts"])
    numbers = {each: each - 2 * (each > first) for each in range(whole) if each not in (first, first + 1)}
    remaining = []
    for thread in scenario["threads"]:
        ops = [{**op, "part": op["part"] - (op["part"] > index)} for op in thread["ops"] if op["part"] != index]
        remaining.append({**thread, "ops": ops})
    parts = scenario["parts"][:index] + scenario["parts"][index + 1 :]
    return picked({**scenario, "parts": parts, "threads": remaining}, numbers)


def lists_of(scenario: Scenario) -> Iterator[tuple[Path, int, int]]:
    """Yields the lists that may become shorter: the path, the least length, and the unit of the length."""
    for index in range(len(scenario["threads"])):
        yield ("threads", index, "ops"), 0, 1
    for index, part in enumerate(scenario["parts"]):
        for key in ("faults", "arrivals", "bad"):
            if key in part:
                yield ("parts", index, key), 0, 1
        yield from driver_lists(part, ("parts", index, "driver"))
    if scenario.get("schedule", {}).get("kind") == "listed":
        yield ("schedule", "picks"), 0, 1


def driver_lists(part: dict[str, Any], path: Path) -> Iterator[tuple[Path, int, int]]:
    """Yields the list of a driver's initial words, if it is an image."""
    if "image" in part["driver"]:
        yield (*path, "image", "data"), 0, 1


def shorter_words(words: list[int], unit: int) -> Iterator[list[int]]:
    """Yields prefixes of a list of words, the shortest first."""
    length = unit
    while length < len(words):
        yield words[:length]
        length *= 2


def simpler_values(scenario: Scenario) -> Iterator[Change]:
    """Yields values that may become simpler, one by one."""
    if "schedule" in scenario:
        yield ("schedule",), None
    for index, part in enumerate(scenario["parts"]):
        path = ("parts", index)
        for key in ("faults", "arrivals", "bad"):
            if key in part and not part[key]:
                yield (*path, key), None
        if "limit" in part:
            yield (*path, "limit"), None
            yield from (((*path, "limit"), limit) for limit in range(1, part["limit"]))
        for blocks in sorted({1, 2, part.get("blocks", 0) // 2}):
            if 0 < blocks < part.get("blocks", 0):
                yield (*path, "blocks"), blocks
        yield from driver_values(part["driver"], (*path, "driver"))
        for number, frame in enumerate(part.get("arrivals", [])):
            yield from (((*path, "arrivals", number), words) for words in shorter_words(frame, 1))
    for index, thread in enumerate(scenario["threads"]):
        for number, op in enumerate(thread["ops"]):
            yield from operation_values(op, ("threads", index, "ops", number))


def driver_values(driver: dict[str, Any], path: Path) -> Iterator[Change]:
    """Yields a driver's text with fewer initial words, and without comments."""
    text = driver.get("asm")
    if text is None:
        return
    bare = "\n".join(line for line in (line.split(";")[0].strip() for line in text.split("\n")) if line) + "\n"
    if len(bare) < len(text):
        yield (*path, "asm"), bare
    lines = text.split("\n")
    for number in reversed([at for at, line in enumerate(lines) if line.strip().startswith(".word")]):
        yield (*path, "asm"), "\n".join(lines[:number] + lines[number + 1 :])


def operation_values(op: dict[str, Any], path: Path) -> Iterator[Change]:
    """Yields values that give an operation shorter words, fewer blocks, or equal words."""
    for key, unit in (("data", WORDS_OF_BLOCK), ("frame", 1), ("samples", 1)):
        for words in shorter_words(op.get(key, []), unit):
            yield (*path, key), words
    if op.get("count", 0) > 1:
        yield (*path, "count"), 1
