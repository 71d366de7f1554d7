"""The figure of an experiment: a stacked bar for each kind of each driver, as an SVG."""

from __future__ import annotations

from typing import Any, Sequence

from .inject_counts import (ENDINGS, GIVEN_UP_KEPT, IN_TIME, IN_TIME_LOSSES, LATE, LATER, NO_EFFECT, NOT_EXECUTED,
                            OTHER, SILENT)
from .svg import BLACK, BLUE, GREEN, GREY, ORANGE, PALE, RED, SKY, WHITE, YELLOW, Canvas, text_width

BAR_WIDTH, BAR_HEIGHT, BAR_STEP = 260, 12, 16
LEFT = 80
PANEL_WIDTH = LEFT + BAR_WIDTH + 40
PANELS_ACROSS = 2

FILLS = {NOT_EXECUTED: WHITE, NO_EFFECT: PALE, OTHER: YELLOW, IN_TIME: GREEN, IN_TIME_LOSSES: SKY, GIVEN_UP_KEPT: BLUE,
         LATE: ORANGE, LATER: RED, SILENT: BLACK}
# The labels of the endings whose names need more words.
NOTES = {IN_TIME: "recovered, contract kept", IN_TIME_LOSSES: "recovered with losses, contract kept",
         GIVEN_UP_KEPT: "given up, contract kept", OTHER: "other answers, contract kept",
         SILENT: "contract broken, never stopped", LATE: "contract broken, then stopped",
         LATER: "stopped, contract broken after the recovery"}

# For each driver its name and the counts of its kinds.
Panels = Sequence[tuple[str, Sequence[dict[str, Any]]]]


def bar(canvas: Canvas, x: float, y: float, counts: dict[str, Any]) -> None:
    """Draws the bar of one kind, over its whole width."""
    canvas.words(x - 6, y + 10, counts["kind"], 10, text_anchor="end")
    at = x
    for name in ENDINGS:
        count = counts["endings"][name]
        if count:
            wide = BAR_WIDTH * count / counts["trials"]
            title = f"{counts['kind']}: {NOTES.get(name, name)}, {count} of {counts['trials']}"
            canvas.box(round(at, 1), y, round(wide, 1), BAR_HEIGHT, FILLS[name], title, stroke=GREY, stroke_width=0.5)
            at += wide
    canvas.words(x + BAR_WIDTH + 4, y + 10, str(counts["trials"]), 8, GREY)


def panel(canvas: Canvas, x: float, y: float, name: str, kinds: Sequence[dict[str, Any]]) -> float:
    """Draws the bars of one driver; returns their height."""
    canvas.words(x, y + 11, name, 12)
    for index, counts in enumerate(kinds):
        bar(canvas, x + LEFT, y + 18 + index * BAR_STEP, counts)
    return 18 + len(kinds) * BAR_STEP + 12


def legend(canvas: Canvas, y: float, wide: float) -> None:
    """What the colours mean, in lines as wide as the panels."""
    x = 12.0
    for name in ENDINGS:
        text = NOTES.get(name, name)
        room = 18 + text_width(text, 10) + 14
        if x + room > wide:
            x, y = 12.0, y + 18
        canvas.box(x, y, 12, 12, FILLS[name], stroke=GREY, stroke_width=0.5)
        canvas.words(x + 17, y + 10, text, 10)
        x += room


def figure(title: str, panels: Panels) -> str:
    """The whole figure: the panels in two columns, and the legend below."""
    canvas = Canvas()
    canvas.words(12, 16, title, 13)
    y, across = 28.0, min(PANELS_ACROSS, len(panels))
    for start in range(0, len(panels), across):
        row = panels[start : start + across]
        y += max(panel(canvas, 12 + index * PANEL_WIDTH, y, *each) for index, each in enumerate(row))
    legend(canvas, y, max(across * PANEL_WIDTH, 520))
    return canvas.text(title)
