"""A timeline as text: a column for each event, split into pieces that fit a terminal."""

from __future__ import annotations

from .calls import AT_ENTER, BY_DRIVER, BY_SHADOW, GONE, REFUSED, Call
from .times import BOOT, GIVEN_UP, GUARD, RECOVERS, SERVES, STAGES, STRIKES, PartTimes, act_letter
from .words import counted, short

MODES = {BOOT: "^", SERVES: "-", RECOVERS: "~", GIVEN_UP: "#"}
ANSWERED = {BY_DRIVER: "D", BY_SHADOW: "H", AT_ENTER: "E", REFUSED: "!", GONE: "G"}

LEGEND = [
    "modes    ^ starts  - serves  ~ recovers  # given up",
    "stages   S stop  C collect  R reset  L load  I init  P replay_set  O replay_open  U resume",
    "threads  i invoked  . held  ( enters  = inside  b burst  X interrupted",
    "         D answered by the driver  H by the shadow  E at its enter",
    "         ! at once, as a wrong operation  G gone, since the part is given up",
    "device   l load  s store  t sent  o popped  p played  r register  f failed  + several kinds",
]
CONTRACT = "contract * broken"
FRAMES = "frames   v kept  x lost"
GUARDS = "guard    G stopped the driver"
FAULTS = "faults   T trap  H hang  P poke  C code  R reg  + several"


class Lane:
    """A letter for each event that is shown."""

    def __init__(self, times: PartTimes) -> None:
        self.first = times.first
        self.letters = [" "] * (times.last - times.first + 1)

    def put(self, event: int, letter: str) -> None:
        if 0 <= event - self.first < len(self.letters):
            self.letters[event - self.first] = letter

    def fill(self, first: int, last: int, letter: str) -> None:
        for event in range(first, last + 1):
            self.put(event, letter)

    def text(self) -> str:
        return "".join(self.letters)


def call_onto(lane: Lane, call: Call, last: int) -> None:
    """Writes one call's letters onto a lane."""
    lane.fill(call.invoked, call.answered or last, ".")
    for first, end in call.inside:
        lane.fill(first, end, "=")
        lane.put(first, "(")
    for number in call.bursts:
        lane.put(number, "b")
    lane.put(call.invoked, "i")
    for number in call.interruptions:
        lane.put(number, "X")
    if call.answered:
        lane.put(call.answered, ANSWERED[call.by])


def part_lane(times: PartTimes) -> str:
    """Returns the lane of modes and stages."""
    lane = Lane(times)
    for span in times.spans:
        lane.fill(span.first, span.last, MODES[span.mode])
    for event in times.events("stage"):
        lane.put(event.number, STAGES[event.text.split(" ")[0]])
    return lane.text()


def thread_lane(times: PartTimes, thread: int) -> str:
    lane = Lane(times)
    for call in times.lane(thread):
        call_onto(lane, call, times.last)
    return lane.text()


def marks_of(times: PartTimes) -> list[tuple[str, dict[int, str]]]:
    """Returns the lanes of single marks: a name, and the letter at some events."""
    struck: dict[int, str] = {}
    for strike in times.struck():
        letter = STRIKES[strike.fault["kind"]]
        struck[strike.event] = letter if struck.get(strike.event, letter) == letter else "+"
    broken = times.broken()
    arrived = {event.number: "v" if event.answer == "kept" else "x" for event in times.events("arrive")}
    return [
        ("device", {event.number: act_letter(event) for event in times.acting()}),
        ("faults", struck),
        ("guard", {event.number: GUARD for event, _ in times.guarded()}),
        ("failures", {event.number: "X" for event in times.failures()}),
        ("contract", {broken.number: "*"} if broken else {}),
        ("frames", arrived),
    ]


def lanes_of(times: PartTimes) -> list[tuple[str, str]]:
    """Returns the lanes of a part: a name, and a letter for each event."""
    lanes = [("part", part_lane(times))]
    lanes += [(times.names.get(thread, str(thread)), thread_lane(times, thread)) for thread in times.threads]
    for name, marks in marks_of(times):
        if marks:
            lane = Lane(times)
            for number, letter in marks.items():
                lane.put(number, letter)
            lanes.append((name, lane.text()))
    return lanes


def ruler(first: int, last: int) -> str:
    """Returns the numbers of events, each tenth over its column."""
    line = [" "] * (last - first + 12)
    for event in range(first, last + 1):
        if event % 10 == 0 or event == first:
            text = str(event)
            if all(letter == " " for letter in line[event - first : event - first + len(text) + 1]):
                line[event - first : event - first + len(text)] = list(text)
    return "".join(line).rstrip()


def part_text(times: PartTimes, wide: int, wrap: int | None) -> list[str]:
    """Returns the lines of one part."""
    part = times.part
    lines = [f"part {part.index} {part.name}, {part.kind}: {counted(part.failures, 'failure')}, limit {part.limit}"]
    lanes = lanes_of(times)
    margin = max(len(name) for name, _ in lanes) + 2
    step = wrap or max(wide - margin, 10)
    for first in range(times.first, times.last + 1, step):
        last = min(first + step - 1, times.last)
        at = slice(first - times.first, last - times.first + 1)
        lines.append(" " * margin + ruler(first, last))
        lines.extend((f"{name:{margin}}" + lane[at]).rstrip() for name, lane in lanes)
    lines.extend("  " + note for note in times.notes())
    for call in times.shown_calls():
        name = times.names.get(call.thread, str(call.thread))
        lines.append(f"  c{call.number} {name} {short(call.text)}: {short(call.answer) or 'no answer'} ({call.by})")
    return lines


def text_lines(times: list[PartTimes], wide: int, wrap: int | None = None) -> list[str]:
    """Returns all parts, one below the other, and the legend of the lanes that they have."""
    lines: list[str] = []
    for each in times:
        lines += [*part_text(each, wide, wrap), ""]
    lines += LEGEND
    lines += [CONTRACT] if any(each.broken() for each in times) else []
    lines += [GUARDS] if any(each.guarded() for each in times) else []
    lines += [FRAMES] if any(each.events("arrive") for each in times) else []
    return lines + ([FAULTS] if any(each.struck() for each in times) else [])
