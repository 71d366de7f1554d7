"""Repeated acts and lines of a device, folded: `played [1 to 40] 8000 5`, `wire [45] x3`, `disk 5-8 [51 x16]`."""

from __future__ import annotations

import re
from itertools import groupby

from .report import Event
from .words import short, short_list

PLAYED = re.compile(r"played (\d+) (\d+ \d+)")
DISK = re.compile(r"disk (\d+) (\[.*\])")


def family(text: str) -> str:
    """What adjacent texts that fold have in common."""
    if found := PLAYED.fullmatch(text):
        return f"played {found[2]}"
    if found := DISK.fullmatch(text):
        return f"disk {found[2]}"
    return text


def runs_of_blocks(blocks: list[int]) -> list[str]:
    """Blocks in runs: `5-8`."""
    runs: list[list[int]] = []
    for block in blocks:
        if runs and block == runs[-1][-1] + 1:
            runs[-1].append(block)
        else:
            runs.append([block])
    return [f"{run[0]}-{run[-1]}" if len(run) > 1 else str(run[0]) for run in runs]


def fold_group(texts: list[str]) -> list[str]:
    """The lines of adjacent texts of one family."""
    first = texts[0]
    if len(texts) == 1:
        return [short(first)]
    if found := PLAYED.fullmatch(first):
        return [f"played {short_list([text.split(' ')[1] for text in texts])} {found[2]}"]
    if found := DISK.fullmatch(first):
        blocks = [int(text.split(" ")[1]) for text in texts]
        return [f"disk {run} {short(found[2])}" for run in runs_of_blocks(blocks)]
    return [f"{short(first)} x{len(texts)}"]


def folded_lines(texts: list[str]) -> list[str]:
    """Acts, or the lines of what is left of a part, with equal adjacent ones folded and lists shortened."""
    lines: list[str] = []
    for _, group in groupby(texts, family):
        lines.extend(fold_group(list(group)))
    return lines


def short_event(event: Event) -> str:
    """The line of an event, with its acts folded and its lists shortened."""
    if len(event.acts) < 2:
        return short(event.line)
    acts = " | ".join(event.acts)
    before, _, after = event.line.partition(" | " + acts)
    return short(before) + " | " + " | ".join(folded_lines(list(event.acts))) + short(after)
