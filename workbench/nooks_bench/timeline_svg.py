"""A timeline as an SVG. A long report is drawn in several rows, each with all lanes."""

from __future__ import annotations

import math
from typing import Callable

from .calls import AT_ENTER, BY_DRIVER, BY_SHADOW, GONE, REFUSED, Call
from .folding import folded_lines, short_event
from .picture import caption
from .report import Event
from .svg import BLACK, BLUE, EDGE, GREEN, GREY, ORANGE, PALE, PURPLE, RED, SKY, WHITE, Canvas
from .svg import cross, diamond, text_width, triangle
from .times import ACTS, BOOT, GIVEN_UP, GUARD, RECOVERS, SERVES, SEVERAL, STAGES, STRIKES, PartTimes
from .times import act_letter, failure_note
from .words import counted, short

LANE = 30
LOW_LANE = 26
BAR = 16
BETWEEN = 20

# The greatest width of an event, in which names of stages fit, and the least, in which single
# letters fit.
WIDEST, NARROWEST = 34, 18
FEWEST_PIXELS = 9

MODES = {BOOT: SKY, SERVES: PALE, RECOVERS: ORANGE, GIVEN_UP: GREY}
STAGE_SIZE = 8
ACT_NAMES = {letter: name for name, letter in ACTS.items()} | {SEVERAL: "several kinds"}
STRIKE_NAMES = {letter: name for name, letter in STRIKES.items()} | {SEVERAL: "several"}
ANSWERS = {
    BY_DRIVER: "answered by the driver",
    BY_SHADOW: "answered by the shadow",
    AT_ENTER: "answered at its enter",
    REFUSED: "answered at once, as a wrong operation",
    GONE: "gone: the part is given up",
}
# Acts that reach beyond the device and cannot be undone.
OUTWARD = "stpr"

Mark = Callable[[float, float, str], None]


def rows_of(count: int, room: float, wrap: int | None) -> tuple[int, float]:
    """Returns how many events a row has, and how wide each is."""
    per_row = wrap
    if per_row is None:
        rows = max(1, math.ceil(count * NARROWEST / room))
        per_row = math.ceil(count / rows)
    return max(per_row, 1), min(WIDEST, max(FEWEST_PIXELS, room / max(per_row, 1)))


class Drawing:
    """Draws parts one below the other."""

    def __init__(self, times: list[PartTimes], width: float, wrap: int | None) -> None:
        self.canvas = Canvas()
        self.times = times
        self.width = width
        names = ["contract", *(name for each in times for name in each.names.values())]
        self.margin = 20 + max(text_width(name, 11) for name in names)
        most = max((each.last - each.first + 1 for each in times), default=1)
        self.per_row, self.step = rows_of(most, width - self.margin - 12, wrap)
        self.held = self.canvas.stripes("held", WHITE, GREY)
        self.first = 1
        self.last = 1
        self.y = 12.0

    def left(self, event: int) -> float:
        return self.margin + (event - self.first) * self.step

    def middle(self, event: int) -> float:
        return self.left(event) + self.step / 2

    def bounds(self, first: int, last: int) -> tuple[float, float]:
        """Returns the left edge and the width of some events, as far as this row shows them."""
        first, last = max(first, self.first), min(last, self.last)
        return self.left(first), (last - first + 1) * self.step

    def shows(self, event: int) -> bool:
        return self.first <= event <= self.last

    # The legend.

    def legend(self) -> None:
        """Draws what the colours, the marks and the letters mean."""
        modes = {span.mode for each in self.times for span in each.spans}
        self.flow([(self.filled(fill), text) for fill, text in
                   [(self.held, "held"), (BLUE, "inside the driver"),
                    *((fill, mode) for mode, fill in MODES.items() if mode in modes)]])
        by = {call.by for each in self.times for call in each.calls}
        marks = [(mark, ANSWERS[whose]) for whose, mark in self.answer_marks().items() if whose in by]
        if any(call.interruptions for each in self.times for call in each.calls):
            marks.append((self.mark_interrupted, "interrupted by a failure"))
        marks.append((self.mark_burst, "burst"))
        if any(each.events("arrive") for each in self.times):
            marks += [(self.mark_delivered, "frame kept"), (self.mark_lost, "frame lost")]
        self.flow(marks)
        self.flow(self.letters())
        self.y += 14

    def letters(self) -> list[tuple[Mark, str]]:
        """Returns the letters that are drawn, with their meanings."""
        key: list[tuple[Mark, str]] = []
        stages = {event.text.split(" ")[0] for each in self.times for event in each.events("stage")}
        key += [(self.lettered(letter, PALE), name) for name, letter in STAGES.items()
                if name in stages and self.stage_text(name) != name]
        acts = {act_letter(event) for each in self.times for event in each.acting()}
        key += [(self.lettered(letter, act_fill(letter)), name) for letter, name in ACT_NAMES.items() if letter in acts]
        struck = {strike.fault["kind"] for each in self.times for strike in each.struck()}
        key += [(self.lettered(letter, RED, WHITE), f"fault: {name}") for name, letter in STRIKES.items()
                if name in struck]
        if any(each.guarded() for each in self.times):
            key.append((self.lettered(GUARD, BLACK, WHITE), "stopped by a guard"))
        return key

    def flow(self, entries: list[tuple[Mark, str]]) -> None:
        """Draws entries of the legend next to each other, on as many lines as they need."""
        x = 12.0
        for mark, text in entries:
            wide = 38 + text_width(text, 11)
            if x + wide > self.width and x > 12:
                x, self.y = 12.0, self.y + 20
            mark(x + 9, self.y + 6, "")
            self.canvas.words(x + 22, self.y + 10, text)
            x += wide
        self.y += 20 if entries else 0

    def filled(self, fill: str) -> Mark:
        def mark(x: float, y: float, title: str) -> None:
            self.canvas.box(x - 9, y - 6, 18, 12, fill, title, stroke=GREY, stroke_width=0.5)

        return mark

    def lettered(self, letter: str, fill: str, ink: str = BLACK) -> Mark:
        """Returns a mark that is a letter in a box."""
        def mark(x: float, y: float, title: str) -> None:
            wide = min(self.step - 1, 13)
            self.canvas.box(x - wide / 2, y - 6.5, wide, 13, fill, title, stroke=GREY, stroke_width=0.6, rx=2)
            self.canvas.words(x, y + 3.2, letter, 9, ink, title, text_anchor="middle")

        return mark

    # Marks.

    def mark_driver(self, x: float, y: float, title: str) -> None:
        self.canvas.add("circle", title, cx=x, cy=y, r=5, fill=GREEN, stroke=WHITE)

    def mark_shadow(self, x: float, y: float, title: str) -> None:
        self.canvas.shape(diamond(x, y, 6.5), ORANGE, title, stroke=BLACK, stroke_width=0.8)

    def mark_once(self, x: float, y: float, title: str) -> None:
        self.canvas.box(x - 4, y - 4, 8, 8, WHITE, title, stroke=BLACK)

    def mark_enter(self, x: float, y: float, title: str) -> None:
        self.canvas.add("circle", title, cx=x, cy=y, r=4.5, fill=WHITE, stroke=BLACK)

    def mark_gone(self, x: float, y: float, title: str) -> None:
        self.canvas.box(x - 4, y - 4, 8, 8, BLACK, title, stroke=WHITE)

    def mark_interrupted(self, x: float, y: float, title: str) -> None:
        self.canvas.shape(cross(x, y, 5), "none", stroke=WHITE, stroke_width=5)
        self.canvas.shape(cross(x, y, 5), "none", title, stroke=RED, stroke_width=2.5)

    def mark_burst(self, x: float, y: float, title: str) -> None:
        self.canvas.box(x - 1.5, y - 5, 3, 10, WHITE, title, stroke=BLACK, stroke_width=0.5)

    def mark_delivered(self, x: float, y: float, title: str) -> None:
        self.canvas.shape(triangle(x, y, 5), BLUE, title)

    def mark_lost(self, x: float, y: float, title: str) -> None:
        self.canvas.shape(triangle(x, y, 5), WHITE, title, stroke=RED, stroke_width=1.5)

    def lane_name(self, name: str) -> None:
        self.canvas.words(self.margin - 8, self.y + BAR - 4, name, text_anchor="end")

    # Parts.

    def part(self, times: PartTimes) -> None:
        """Draws all of one part: its head, its rows, and what the lanes do not say."""
        part = times.part
        head = f"part {part.index} {part.name}, {part.kind}: {counted(part.failures, 'failure')}, limit {part.limit}"
        self.y += self.canvas.lines(12, self.y + 4, head, self.width - 2 * EDGE, 13, weight="bold") - 4
        for first in range(times.first, times.last + 1, self.per_row):
            self.first, self.last = first, min(first + self.per_row - 1, times.last)
            self.row(times)
        for note in times.notes():
            broken = note.startswith("CONTRACT")
            self.y += self.canvas.lines(16, self.y + 4, note, self.width - 28, 10, RED if broken else BLACK) + 1
        self.y += BETWEEN

    def row(self, times: PartTimes) -> None:
        """Draws all lanes, over as many events as a row has."""
        broken = times.broken()
        broken = broken if broken and self.shows(broken.number) else None
        self.y += 15 if broken else 0
        self.ruler()
        top = self.y
        self.modes(times)
        for thread in times.threads:
            self.thread(times, thread)
        low = self.y - 6
        if times.acting():
            self.device(times)
        if times.struck():
            self.faults(times)
        if times.guarded():
            self.guards(times)
        if times.events("arrive"):
            self.arrivals(times)
        for event in times.failures():
            if self.shows(event.number):
                x = self.middle(event.number)
                guarded = event.burst in times.part.guards
                title = failure_note(times.part, event) if guarded else f"event {event.number}: {event.cause}"
                self.canvas.line(x, top - 4, x, low, RED, title, stroke_width=1.5, stroke_dasharray="4 2")
        if broken:
            self.broken(times, broken, top, low)
        self.y += 8

    def broken(self, times: PartTimes, event: Event, top: float, low: float) -> None:
        """Draws a break of the contract: a line through all lanes, with a flag over it."""
        clause = times.part.broken[1] if times.part.broken else 0
        text = f"contract broken, clause {clause}"
        title = f"{text}\n{short_event(event)}"
        x, wide = self.middle(event.number), text_width(text, 9) + 8
        flag = min(max(x - wide / 2, 4), max(self.left(self.last + 1) - wide, 4))
        self.canvas.line(x, top - 16, x, low, PURPLE, title, stroke_width=2.5)
        self.canvas.box(flag, top - 29, wide, 13, BLACK, title, rx=2)
        self.canvas.words(flag + 4, top - 19, text, 9, WHITE, title)

    def ruler(self) -> None:
        """Draws the numbers of events."""
        every = next((each for each in (1, 2, 5, 10, 20, 50, 100, 200, 500) if each * self.step >= 28), 1000)
        for event in range(self.first, self.last + 1):
            if event % every == 0 or event == self.first:
                self.canvas.words(self.middle(event), self.y + 8, str(event), 9, GREY, text_anchor="middle")
        self.y += 14

    def stage_text(self, stage: str) -> str:
        """Returns a stage's name if that and the common names fit into an event, else its letter."""
        fits = all(text_width(name, STAGE_SIZE) <= self.step for name in ("collect", "resume", stage))
        return stage if fits else STAGES[stage]

    def modes(self, times: PartTimes) -> None:
        self.lane_name("part")
        for span in times.spans:
            if span.first <= self.last and span.last >= self.first:
                x, wide = self.bounds(span.first, span.last)
                title = f"{span.mode}: events {span.first} to {span.last}"
                self.canvas.box(x, self.y, wide, BAR, MODES[span.mode], title, stroke=GREY, stroke_width=0.5)
        for event in times.events("stage"):
            if self.shows(event.number):
                left = self.left(event.number)
                self.canvas.line(left, self.y, left, self.y + BAR, GREY, stroke_width=0.5)
                name = self.stage_text(event.text.split(" ")[0])
                size = 9 if len(name) == 1 else STAGE_SIZE
                x = self.middle(event.number)
                self.canvas.words(x, self.y + 11, name, size, title=event.line, text_anchor="middle")
        for event in times.events("burst"):
            if event.call == 0 and self.shows(event.number):
                self.mark_burst(self.middle(event.number), self.y + BAR / 2, short_event(event))
        self.y += LANE - 6

    def thread(self, times: PartTimes, thread: int) -> None:
        self.lane_name(times.names.get(thread, str(thread)))
        for call in times.lane(thread):
            if call.invoked <= self.last and (call.answered or times.last) >= self.first:
                self.call(times, call)
        self.y += LANE

    def call(self, times: PartTimes, call: Call) -> None:
        """Draws a call: striped while it is held, solid while it is inside, with marks for what happens to it."""
        last = call.answered or times.last
        asked = f"c{call.number} {short(call.text)}"
        title = f"{asked}: {short(call.answer) or 'no answer'} ({call.by})"
        x, wide = self.bounds(call.invoked, last)
        at_once = call.answered == call.invoked
        gap = self.step * 0.1 if self.shows(last) else 0
        self.canvas.box(x, self.y, wide - gap, BAR, WHITE if at_once else self.held, title, stroke=GREY, rx=2)
        for first, end in call.inside:
            if first <= self.last and end >= self.first:
                at, long = self.bounds(first, end)
                gap = self.step * 0.1 if self.shows(end) else 0
                self.canvas.box(at, self.y, long - gap, BAR, BLUE, f"{asked}: inside, events {first} to {end}")
        self.marks(times, call, asked)
        if call.by in self.answer_marks() and self.shows(call.answered):
            self.answer_marks()[call.by](self.middle(call.answered), self.y + BAR / 2, title)
        label = asked if text_width(asked, 8.5) <= wide else asked.split(" ")[0]
        if text_width(label, 8.5) <= min(wide + 4, self.left(self.first + self.per_row) - x - 1):
            self.canvas.words(x + 1, self.y + BAR + 9, label, 8.5, title=title)

    def marks(self, times: PartTimes, call: Call, asked: str) -> None:
        """Draws a call's bursts and interruptions."""
        for number in call.bursts:
            if self.shows(number) and number != call.answered and number not in call.interruptions:
                self.mark_burst(self.middle(number), self.y + BAR / 2, short_event(times.part.event(number)))
        for number in call.interruptions:
            if self.shows(number):
                title = f"{asked}: interrupted at event {number}: {times.part.event(number).cause}"
                self.mark_interrupted(self.middle(number), self.y + BAR / 2, title)

    def answer_marks(self) -> dict[str, Mark]:
        return {
            BY_DRIVER: self.mark_driver,
            BY_SHADOW: self.mark_shadow,
            AT_ENTER: self.mark_enter,
            REFUSED: self.mark_once,
            GONE: self.mark_gone,
        }

    def device(self, times: PartTimes) -> None:
        """Draws what each burst did to the device: a letter, and how often if more than once."""
        self.lane_name("device")
        for event in times.acting():
            if self.shows(event.number):
                letter = act_letter(event)
                title = f"event {event.number}, b{event.burst}: " + ", ".join(folded_lines(list(event.acts)))
                self.lettered(letter, act_fill(letter))(self.middle(event.number), self.y + BAR / 2, title)
                if len(event.acts) > 1:
                    at = self.middle(event.number)
                    self.canvas.words(at, self.y + BAR + 7, str(len(event.acts)), 7, GREY, text_anchor="middle")
        self.y += LOW_LANE

    def faults(self, times: PartTimes) -> None:
        """Draws the faults that struck, at the events of their bursts."""
        self.lane_name("faults")
        texts: dict[int, list[str]] = {}
        for strike in times.struck():
            texts.setdefault(strike.event, []).append(strike.text)
        kinds = {strike.event: STRIKES[strike.fault["kind"]] for strike in times.struck()}
        for number, lines in texts.items():
            if self.shows(number):
                letter = kinds[number] if len(lines) == 1 else SEVERAL
                self.lettered(letter, RED, WHITE)(self.middle(number), self.y + BAR / 2, "\n".join(lines))
        self.y += LOW_LANE

    def guards(self, times: PartTimes) -> None:
        """Draws where a guard stopped the driver."""
        self.lane_name("guard")
        for event, _ in times.guarded():
            if self.shows(event.number):
                x, note = self.middle(event.number), failure_note(times.part, event)
                self.lettered(GUARD, BLACK, WHITE)(x, self.y + BAR / 2, note)
        self.y += LOW_LANE

    def arrivals(self, times: PartTimes) -> None:
        self.lane_name("frames")
        for event in times.events("arrive"):
            if self.shows(event.number):
                mark = self.mark_delivered if event.answer == "kept" else self.mark_lost
                mark(self.middle(event.number), self.y + BAR / 2, short(event.line))
        self.y += LOW_LANE


def act_fill(letter: str) -> str:
    """Returns blue for acts that reach beyond the device, red for a failed command, and white for reading."""
    if letter == ACTS["failed"]:
        return "#f6c9b0"
    return "#cfe6f5" if letter in OUTWARD else WHITE


def drawing(
    times: list[PartTimes], width: float, wrap: int | None, notes: list[str], scale: float, is_filled: bool
) -> str:
    """Returns the SVG of some parts' timelines, with a caption. A short one is narrower than the width, unless it is
    filled up."""
    made = Drawing(times, width, wrap)
    made.canvas.reach(width - EDGE if is_filled else 0, 0)
    made.legend()
    for each in times:
        made.part(each)
    caption(made.canvas, notes, width)
    return made.canvas.text("Timeline of " + ", ".join(each.part.name for each in times), scale)
