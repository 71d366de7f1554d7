"""A map as an SVG. Each burst has a ruler that numbers its instructions, a strip that shows them, and its rows below.
With a guard there are two halves: on the left the faults without it, on the right the same faults with it."""

from __future__ import annotations

import math
from collections import Counter
from dataclasses import dataclass

from .facts import JUMP, KERNEL, MEMORY, MNEMONICS as BY_NAME, PORT
from .heatmap_rows import Cell, Cells, Group
from .outcomes import BROKEN, CHANGED, GIVEN_UP, LOSSES, MISSED, NO_TRACE, OUTCOMES, RECOVERED
from .picture import caption
from .strip import Step, Strip, Strips
from .svg import BLACK, BLUE, GREEN, GREY, ORANGE, PALE, PURPLE, SKY, WHITE, YELLOW, Canvas, text_width
from .times import ACTS
from .words import CLAUSES

ROW = 14
STRIP_LETTERS = 7.5
RULER = 12
ACT_ROW = 12
WIDEST_CELL, READABLE_CELL, NARROWEST_CELL = 12, 8, 3
# The most rows in which a burst continues before its cells get narrower.
MOST_ROWS = 4

# The space between the two halves, and the titles over them.
GAP = 24
HALVES = ("without a guard", "with a guard")

# Follows the label of a burst that continues in a further row.
CONTINUED = ", on"

# How much of an instruction a strip shows.
MNEMONICS, INSTRUCTIONS, COLOURS, NO_STRIP = "mnemonics", "instructions", "colours", "none"
STRIPS = (MNEMONICS, INSTRUCTIONS, COLOURS, NO_STRIP)

# What is worse is darker.
FILLS = {MISSED: WHITE, NO_TRACE: PALE, CHANGED: YELLOW, RECOVERED: SKY, LOSSES: ORANGE, GIVEN_UP: BLUE, BROKEN: BLACK}
# Losses from the least to the most, and the colour of a number on them.
SHADES = (("#fbe0a8", BLACK), ("#f3b942", BLACK), ("#cf8600", BLACK), ("#955b00", WHITE), ("#5f3900", WHITE))
# Hatches by which clauses differ if a number does not fit.
HATCHES = (BLACK, "#ffffff", "#f0e442", "#56b4e9", "#e69f00", "#cc79a7")

# The background of an instruction in the strip, by its group; the others are white.
GROUP_FILLS = {PORT: "#cfe6f5", KERNEL: "#f6d9c6", JUMP: "#e3e3e3", MEMORY: "#dff0e8"}
KINDS = {name: GROUP_FILLS.get(mnemonic.group, WHITE) for name, mnemonic in BY_NAME.items()}


@dataclass(frozen=True)
class Look:
    """How a map is drawn: its width in units, the instructions of a row if --wrap gives them, and the kind of strip."""

    width: float
    wrap: int | None
    strip: str


@dataclass(frozen=True)
class Entry:
    """An entry of the legend: boxes with the number in each, and what they mean."""

    boxes: tuple[tuple[str, str], ...]
    text: str


class Map:
    """Draws the groups of a map."""

    def __init__(self, groups: list[Group], strips: Strips, look: Look) -> None:
        self.groups = groups
        self.strips = strips if look.strip != NO_STRIP else {}
        self.look = look
        self.canvas = Canvas()
        self.y = 12.0
        self.labelled = len({line.strikes for group in groups for line in group.lines}) > 1
        self.left = 20 + max(self.label_width(group) for group in groups)
        self.halves = 2 if any(line.guarded for group in groups for line in group.lines) else 1
        self.fit, self.cell = self.sizes((look.width - self.left - 12 - GAP * (self.halves - 1)) / self.halves)
        self.shift = 0.0
        self.widest = max(self.per_row(group) for group in groups)
        cells = [cell for half in range(self.halves) for cell in self.cells(half)]
        amounts = [cell.lost for cell in cells if cell.outcome == LOSSES]
        self.amounts = sorted(set(amounts))
        self.shades = [self.shade_fill(index) for index in range(len(SHADES))]
        self.counts = [Counter(kind for cell in self.cells(half) for kind in cell.kinds) for half in range(self.halves)]
        self.clauses = sorted({clause for counts in self.counts for name, clause in counts if name == BROKEN})
        self.hatched = {clause: self.hatch(index) for index, clause in enumerate(self.clauses)}
        self.given_up = self.canvas.stripes("given_up", BLUE, PURPLE)

    def cells(self, half: int) -> list[Cell]:
        return [cell for group in self.groups for line in group.lines for cell in line.cells_of_half(half).values()]

    def label_width(self, group: Group) -> float:
        names = [text_width(line.strikes, 9) for line in group.lines] if self.labelled else []
        suffix = CONTINUED if self.look.wrap or group.turns > MOST_ROWS * WIDEST_CELL else ""
        return max([text_width(group.label + suffix, 10), *names])

    def sizes(self, room: float) -> tuple[int, float]:
        """How many instructions fit in a row, and how wide a cell is."""
        turns = max(group.turns for group in self.groups)
        if self.look.wrap:
            fit = min(self.look.wrap, turns)
            return fit, float(max(NARROWEST_CELL, min(WIDEST_CELL, room / fit)))
        rows = min(max(1, math.ceil(turns * WIDEST_CELL / room)), MOST_ROWS)
        rows = max(rows, math.ceil(turns * NARROWEST_CELL / room))
        cell = max(NARROWEST_CELL, min(WIDEST_CELL, room / math.ceil(turns / rows)))
        return max(int(room / cell), 1), float(cell)

    def per_row(self, group: Group) -> int:
        """How many instructions of a burst are in a row: all rows have the same length, except with --wrap."""
        if self.look.wrap:
            return self.fit
        return math.ceil(group.turns / math.ceil(group.turns / self.fit))

    @property
    def readable(self) -> bool:
        """Whether a number and a mnemonic fit into the width of a cell."""
        return self.cell >= READABLE_CELL

    # Fills.

    def shade_fill(self, index: int) -> str:
        """A shade of losses, striped if no number says how much."""
        return SHADES[index][0] if self.readable else self.canvas.stripes(f"losses{index}", SHADES[index][0], WHITE)

    def hatch(self, index: int) -> str:
        """The fill of a clause: black, with its own hatch if no number fits."""
        if self.readable or index == 0:
            return BLACK
        return self.canvas.stripes(f"clause{index}", BLACK, HATCHES[index % len(HATCHES)], 4 + 2 * (index % 3))

    def shade(self, lost: int) -> int:
        """The index of an amount's shade."""
        most = self.amounts[-1] if self.amounts else 0
        return 1 if most <= 0 or len(self.amounts) == 1 else round((len(SHADES) - 1) * max(lost, 0) / most)

    def fill(self, cell: Cell) -> str:
        if cell.outcome == LOSSES:
            return self.shades[self.shade(cell.lost)]
        if cell.outcome == BROKEN:
            return self.hatched.get(cell.clause, BLACK)
        return self.given_up if cell.outcome == GIVEN_UP else FILLS[cell.outcome]

    def number(self, cell: Cell) -> tuple[str, str]:
        """The text in a cell, and its colour: the clause, or how much was lost."""
        if cell.outcome == BROKEN and cell.clause:
            return str(cell.clause), WHITE
        if cell.outcome == LOSSES and cell.lost > 0:
            return str(cell.lost), SHADES[self.shade(cell.lost)][1]
        return "", BLACK

    # The legend.

    def legend(self, title: str) -> None:
        """The outcomes that there are, each with how many faults had it."""
        self.canvas.words(12, self.y + 8, title, 14, font_weight="bold")
        self.y += 20
        entries: list[Entry] = []
        for name in OUTCOMES:
            count = self.count(name, 0)
            if count and name == LOSSES:
                entries.append(self.loss_entry(count))
            elif name == BROKEN:
                entries += [self.clause_entry(clause) for clause in self.clauses]
            elif count:
                entries.append(Entry(((self.given_up if name == GIVEN_UP else FILLS[name], ""),), f"{name} {count}"))
        self.flow(entries)
        acts = {step.letter for strip in self.strips.values() for step in strip.values() if step.letter}
        if acts:
            named = ", ".join(f"{letter} {name}" for name, letter in ACTS.items() if letter in acts)
            self.act(21, self.y, sorted(acts)[0], "")
            self.text(35, f"the instruction that acts on the device: {named}", 11, BLACK)
        strip = "; over the cells the instruction that comes next" if self.strips else ""
        self.text(12, "across: the instructions of the burst before the fault" + strip, 9, GREY)
        self.y += 4

    def count(self, name: str, clause: int) -> str:
        """How many faults had an outcome, in brackets, in each half if there are two; empty if none had."""
        counts = [counts[name, clause] for counts in self.counts]
        if not any(counts):
            return ""
        return f"({counts[0]})" if len(counts) == 1 else f"({counts[0]}, with a guard {counts[1]})"

    def text(self, x: float, text: str, size: float, fill: str) -> None:
        """Words of the legend, in as many lines as they need."""
        self.y += self.canvas.lines(x, self.y + 9, text, self.look.width - x - 12, size, fill) + 4

    def loss_entry(self, count: str) -> Entry:
        """Losses, with the least and the most of them."""
        if not self.amounts or self.amounts[-1] <= 0:
            return Entry(((self.shades[1], ""),), f"{LOSSES} {count}")
        ends = sorted({self.amounts[0], self.amounts[-1]})
        boxes = tuple((self.shades[self.shade(amount)], str(amount)) for amount in ends)
        amounts = f"{ends[0]}" if len(ends) == 1 else f"from {ends[0]} to {ends[1]}"
        return Entry(boxes, f"{LOSSES}: {amounts} {count}")

    def clause_entry(self, clause: int) -> Entry:
        number = str(clause) if self.readable and clause else ""
        words = f", clause {clause}: {CLAUSES[clause]}" if clause else ""
        return Entry(((self.hatched[clause], number),), f"{BROKEN}{words} {self.count(BROKEN, clause)}")

    def flow(self, entries: list[Entry]) -> None:
        """Entries of the legend next to each other, on as many lines as they need."""
        x = 12.0
        for entry in entries:
            indent = 22.0 * len(entry.boxes)
            wide = indent + 20 + text_width(entry.text, 11)
            if x + wide > self.look.width and x > 12:
                x, self.y = 12.0, self.y + 18
            for index, (fill, number) in enumerate(entry.boxes):
                self.swatch(x + 22 * index, fill, number)
            high = self.canvas.lines(x + indent + 1, self.y + 10, entry.text, self.look.width - x - indent - 12)
            self.y += high - 14
            x += wide
        self.y += 20

    def swatch(self, x: float, fill: str, number: str) -> None:
        """A box of the legend, with the number that a cell of this look has."""
        self.canvas.box(x, self.y, 18, 12, fill, stroke=GREY, stroke_width=0.6)
        ink = WHITE if fill == BLACK else next((ink for shade, ink in SHADES if shade == fill), BLACK)
        if number and self.readable:
            self.canvas.words(x + 9, self.y + 9.5, number, 9, ink, text_anchor="middle")

    # Groups.

    def group(self, group: Group) -> None:
        """The rows of a burst, in pieces one below the other."""
        strip = self.strips.get((group.run, group.burst), {})
        step = self.per_row(group)
        for first in range(0, group.turns, step):
            last = min(first + step, group.turns) - 1
            self.piece(group, strip, first, last)
            self.y += 4
        self.y += 6

    def piece(self, group: Group, strip: Strip, first: int, last: int) -> None:
        """Some instructions of a burst, in one half or in two of the same height."""
        top = self.y
        for half in range(self.halves):
            self.y, self.shift = top, half * (self.widest * self.cell + GAP)
            if self.halves > 1 and first == 0:
                self.canvas.words(self.x(0, 0), self.y + 8, HALVES[half], 9, GREY)
                self.y += 12
            self.half(group, half, strip, first, last)
        self.shift = 0.0

    def half(self, group: Group, half: int, strip: Strip, first: int, last: int) -> None:
        """Some instructions of a burst, without a guard or with one: their numbers, the strip, and the rows."""
        steps = {turn: strip[turn] for turn in range(first, last + 1) if turn in strip}
        self.ruler(first, last)
        tops = {turn for turn, step in steps.items() if step.acts}
        top = self.y
        if tops:
            for turn in tops:
                self.act(self.x(turn, first) + self.cell / 2, self.y, steps[turn].letter, step_title(turn, steps[turn]))
            self.y += ACT_ROW
        self.strip(steps, first)
        label = group.label + (CONTINUED if first else "") if half == 0 else ""
        if self.labelled and label:
            self.canvas.words(10, self.y - 3, label, 10)
        for line in group.lines:
            if not self.labelled and label:
                self.canvas.words(10, self.y + ROW - 4, label, 10)
            if self.labelled and label:
                self.canvas.words(self.left - 6, self.y + ROW - 4, line.strikes, 9, GREY, text_anchor="end")
            self.line(line.cells_of_half(half), line.span(), first, last)
        for turn in tops:
            x = self.x(turn + 1, first)
            self.canvas.line(x, top + ACT_ROW, x, self.y, WHITE, stroke_width=2.2)
            self.canvas.line(x, top + ACT_ROW, x, self.y, GREEN, step_title(turn, steps[turn]), stroke_width=1.2)

    def x(self, turn: int, first: int) -> float:
        return self.left + self.shift + (turn - first) * self.cell

    def ruler(self, first: int, last: int) -> None:
        """The numbers of instructions before the fault."""
        every = next((each for each in (1, 2, 5, 10, 20, 50, 100, 200, 500) if each * self.cell >= 26), 1000)
        for turn in range(first, last + 1):
            if turn % every == 0:
                x = self.x(turn, first) + self.cell / 2
                self.canvas.words(x, self.y + 8, str(turn), 8.5, GREY, text_anchor="middle")
                self.canvas.line(x, self.y + 10, x, self.y + RULER, GREY, stroke_width=0.6)
        self.y += RULER

    def act(self, x: float, y: float, letter: str, title: str) -> None:
        """The letter of an act."""
        wide = max(min(self.cell, 11), 7)
        self.canvas.box(x - wide / 2, y, wide, 11, WHITE, title, stroke=GREEN, stroke_width=1, rx=2)
        self.canvas.words(x, y + 8.5, letter, 8.5, BLACK, title, text_anchor="middle")

    def strip_height(self) -> float:
        """How high a strip is, by the longest text in it."""
        texts = [self.strip_text(step) for strip in self.strips.values() for step in strip.values()]
        longest = max((len(text) for text in texts), default=0)
        return 6 + longest * STRIP_LETTERS * 0.62 if longest else 6

    def strip_text(self, step: Step) -> str:
        if not self.readable or self.look.strip == COLOURS:
            return ""
        return step.mnemonic if self.look.strip == MNEMONICS else step.words

    def strip(self, steps: Strip, first: int) -> None:
        """The instructions that come next after the fault."""
        if not steps:
            return
        high = self.strip_height()
        self.canvas.group(stroke=GREY, stroke_width=0.3)
        for turn, step in steps.items():
            fill = KINDS.get(step.mnemonic, WHITE)
            self.canvas.box(self.x(turn, first), self.y, self.cell, high, fill, step_title(turn, step))
        self.canvas.end_group()
        self.canvas.group(font_size=STRIP_LETTERS, fill=BLACK, pointer_events="none")
        for turn, step in steps.items():
            if text := self.strip_text(step):
                x, y = self.x(turn, first) + self.cell / 2 + STRIP_LETTERS / 3, self.y + high - 3
                self.canvas.grouped_words(0.0, 0.0, text, transform=f"translate({x:.1f},{y:.1f}) rotate(-90)")
        self.canvas.end_group()
        self.y += high

    def line(self, cells: Cells, wide: int, first: int, last: int) -> None:
        """The cells of one row, each `wide` instructions wide."""
        shown = [(turn, cell) for turn, cell in sorted(cells.items()) if turn + wide > first and turn <= last]
        self.canvas.group(stroke=GREY, stroke_width=0.3)
        for turn, cell in shown:
            begin, end = max(turn, first), min(turn + wide, last + 1)
            title = "\n\n".join(cell.texts)
            self.canvas.box(self.x(begin, first), self.y, (end - begin) * self.cell, ROW, self.fill(cell), title)
        self.canvas.end_group()
        if self.readable:
            self.numbers([(max(turn, first), min(turn + wide, last + 1), cell) for turn, cell in shown], first)
        self.y += ROW

    def numbers(self, shown: list[tuple[int, int, Cell]], first: int) -> None:
        """The numbers in some cells, each given with its first instruction and the one after its last."""
        for ink in (BLACK, WHITE):
            self.canvas.group(font_size=8, fill=ink, text_anchor="middle", pointer_events="none")
            for begin, end, cell in shown:
                text, own = self.number(cell)
                room = (end - begin) * self.cell
                if text and own == ink and text_width(text, 8) <= room + 1:
                    self.canvas.grouped_words(self.x(begin, first) + room / 2, self.y + 10.2, text)
            self.canvas.end_group()


def step_title(turn: int, step: Step) -> str:
    """The tooltip of a step."""
    acts = f"\n{step.acts[0]}" if step.acts else ""
    source = f"\n{step.source}" if step.source else ""
    return f"after {turn}: {step.instruction}{source}{acts}"


def drawing(groups: list[Group], strips: Strips, look: Look, title: str, notes: list[str], scale: float) -> str:
    """The SVG of some groups, with a caption."""
    made = Map(groups, strips, look)
    made.legend(title)
    for group in groups:
        made.group(group)
    caption(made.canvas, notes, look.width)
    return made.canvas.text(title, scale)
