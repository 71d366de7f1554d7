"""A net driver with a race: it yields between the transmit length and the words, so that another send may set its own
length. Under round robin the two sends of the scenario never overlap; under some drawn schedules they do."""

from __future__ import annotations

from typing import Any

from common import example_text

LENGTH = "send:   OUT r2 1            ; the transmit length\n"
YIELD = "        KCALL 8             ; yield\n"


def racing_driver() -> str:
    text = example_text("net.asm")
    assert LENGTH in text
    return text.replace(LENGTH, LENGTH + YIELD)


def failing_driver() -> str:
    """A driver that fails, by a flag, if a send enters while another is between its length and its words."""
    text = racing_driver()
    flag = """send:   LI r4 2048
        LD r5 r4 0
        BNE r5 r0 twice
        LI r5 1
        ST r5 r4 0
"""
    made = text.replace(LENGTH, flag + LENGTH.replace("send:", "     ")).replace(YIELD, YIELD + "        ST r0 r4 0\n")
    return made + "twice:  FAULT\n"


def send(*words: int) -> dict[str, Any]:
    return {"part": 0, "op": "send", "frame": list(words)}


def get(key: int) -> dict[str, Any]:
    return {"part": 0, "op": "get", "key": key}


def racing_scenario() -> dict[str, Any]:
    """One thread sends three words; another reads three registers, then sends one word."""
    part = {"name": "link", "class": "net", "limit": 1, "driver": {"asm": racing_driver()}}
    first = {"name": "long", "ops": [send(1, 2, 3)]}
    second = {"name": "short", "ops": [get(0), get(1), get(2), send(4)]}
    return {"version": 1, "parts": [part], "threads": [first, second]}
