"""Scenarios of several parts and threads, drawn from a seed."""

from __future__ import annotations

import random
from typing import Any

from common import example_text


def driver(kind: str) -> dict[str, str]:
    return {"asm": example_text(f"{kind}.asm")}


def part(draw: random.Random, index: int, kind: str) -> dict[str, Any]:
    """A part with up to three faults, which may be more than its limit."""
    faults = [
        {"burst": draw.randint(3, 20), "after": draw.randint(0, 30), "kind": draw.choice(["trap", "hang"])}
        for _ in range(draw.randint(0, 3))
    ]
    made: dict[str, Any] = {"name": f"p{index}", "class": kind, "limit": draw.choice([1, 3]), "driver": driver(kind), "faults": faults}
    if kind == "block":
        made["blocks"] = 8
    if kind == "net":
        made["arrivals"] = [[draw.randint(0, 9)] * draw.randint(1, 3) for _ in range(draw.randint(0, 12))]
    return made


def operation(draw: random.Random, index: int, kind: str) -> dict[str, Any]:
    """An operation of a part."""
    name = draw.choice({"block": ["read", "write"], "net": ["send", "recv"], "sound": ["open", "play", "close"]}[kind] + ["get", "set"])
    made: dict[str, Any] = {"part": index, "op": name}
    more = {
        "read": {"first": draw.randint(0, 8), "count": 1},
        "write": {"first": draw.randint(0, 7), "data": [draw.randint(0, 99)] * 16},
        "send": {"frame": [draw.randint(0, 99)] * 3},
        "play": {"samples": [1, 2, 3]},
        "get": {"key": draw.randint(0, 3)},
        "set": {"key": draw.randint(0, 3), "value": draw.randint(0, 1)},
    }
    made.update(more.get(name, {}))
    return made


def scenario(seed: int) -> dict[str, Any]:
    """A scenario of one to three parts and one to four threads."""
    draw = random.Random(seed)
    kinds = [draw.choice(["block", "net", "sound"]) for _ in range(draw.randint(1, 3))]
    indices = range(len(kinds))
    threads = []
    for number in range(draw.randint(1, 4)):
        asked = [draw.choice(indices) for _ in range(draw.randint(1, 10))]
        threads.append({"name": f"t{number}", "ops": [operation(draw, index, kinds[index]) for index in asked]})
    return {"version": 1, "parts": [part(draw, index, kinds[index]) for index in indices], "threads": threads}
