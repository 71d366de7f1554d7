"""Wording of the workbench's texts: ranges, shortened lists, the clauses of the contracts, and causes of failures."""

from __future__ import annotations

import re
from typing import Iterable

from . import facts
from .program import Mistake

# What a driver did that broke its class contract, by the clause's number; and the kernel's services.
CLAUSES = facts.CLAUSES
SERVICES = facts.SERVICES

# Why a driver failed, by the causes of docs/REPORT.md. Each number of a cause has its name in braces.
CAUSES = {
    "trap bad_opcode": "a word was no instruction",
    "trap bad_fetch": "its counter went past the end of the text",
    "trap bad_read {address}": "it read past the end of memory, at address {address}",
    "trap foreign_write {address}": "it wrote to address {address}, which is not its own",
    "trap bad_port {port}": "its device has no port {port} in that direction",
    "trap hang": f"it ran {facts.LIMITS['MOST_INSTRUCTIONS']:,} instructions without a call into the kernel",
    "trap explicit": "it came to the instruction FAULT",
    "trap injected": "a fault of the scenario stopped it",
    "bad_param {service} {argument}": "argument {argument} of the service {service_name} failed its check",
    "bad_param {service} 0": "it may not call the service {service_name}",
    "too_many_crossings": f"the {facts.LIMITS['MOST_BURSTS']}nd burst of one attempt was no reply",
    "bad_reply {status}": "it replied with status {status}, which this call does not have",
    "bad_init {status}": "its init replied with status {status}, and it owes 0 and a register before",
}

LIST = re.compile(r"\[([0-9,]*)\]")


def parse_ranges(text: str) -> list[int]:
    """Returns the numbers of `3`, `4-9` or `1,5-7`, in that order."""
    found: list[int] = []
    for piece in text.split(","):
        ends = re.fullmatch(r"(0x[0-9a-fA-F]+|\d+)(?:-(0x[0-9a-fA-F]+|\d+))?", piece)
        if not ends:
            raise Mistake(f"{text!r} is no list of numbers: 3, 4-9 or 1,5-7")
        first = int(ends[1], 0)
        last = int(ends[2], 0) if ends[2] else first
        if last < first or last - first > 100_000:
            raise Mistake(f"{piece!r} is no range")
        found.extend(range(first, last + 1))
    return found


def ranges_text(numbers: Iterable[int]) -> str:
    """Formats numbers as `0-23, 30`: the inverse of parse_ranges, with each number once and in order. Three or more
    numbers with one step are `0-170 by 5`."""
    rest = sorted(set(numbers))
    pieces: list[str] = []
    while rest:
        step = rest[1] - rest[0] if len(rest) > 1 else 1
        length = 1
        while length < len(rest) and rest[length] - rest[length - 1] == step:
            length += 1
        if length == 2 and step > 1:
            length = 1
        run, rest = rest[:length], rest[length:]
        if length == 1:
            pieces.append(str(run[0]))
        else:
            pieces.append(f"{run[0]}-{run[-1]}" + (f" by {step}" if step > 1 else ""))
    return ", ".join(pieces)


def folded(words: list[str]) -> list[str]:
    """Joins equal neighbours, as in `7 x16`, and omits the middle of rising ones, as in `1 to 16`."""
    pieces: list[str] = []
    at = 0
    while at < len(words):
        equal = rising = at + 1
        while equal < len(words) and words[equal] == words[at]:
            equal += 1
        while rising < len(words) and int(words[rising]) == int(words[rising - 1]) + 1:
            rising += 1
        if equal - at >= 3:
            pieces.append(f"{words[at]} x{equal - at}")
            at = equal
        elif rising - at >= 4:
            pieces.append(f"{words[at]} to {words[rising - 1]}")
            at = rising
        else:
            pieces.append(words[at])
            at += 1
    return pieces


def short_list(words: list[str]) -> str:
    """Formats a list of words with few characters."""
    pieces = folded(words)
    if len(pieces) > 8:
        pieces = pieces[:3] + [f".. {len(words)} words"]
    return "[" + ", ".join(pieces) + "]"


def short(text: str) -> str:
    """Shortens the lists in a text of a report."""
    return LIST.sub(lambda found: short_list(found[1].split(",") if found[1] else []), text)


def cause_pattern(form: str) -> str:
    """Returns the regular expression of a cause's form."""
    return re.sub(r"\{(\w+)\}", r"(?P<\1>\\d+)", form)


def service_name(number: int) -> str:
    """Returns the name of a service, or its number if there is none of that number."""
    return SERVICES.get(number, str(number))


def cause_words(cause: str) -> str:
    """Describes why a driver failed. Returns the cause itself if it is unknown."""
    forms = sorted(CAUSES, key=lambda form: form.count("{"))
    for form in forms:
        if found := re.fullmatch(cause_pattern(form), cause):
            numbers = found.groupdict()
            name = service_name(int(numbers.get("service", 0)))
            return CAUSES[form].format(**numbers, service_name=name)
    return cause


def counted(number: int, noun: str) -> str:
    return f"{number} {noun}" + ("" if number == 1 else "s")


def either(names: Iterable[str]) -> str:
    """Joins names of which one is allowed: `block, net or sound`."""
    *others, last = names
    return f"{', '.join(others)} or {last}" if others else last
