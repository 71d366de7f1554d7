"""trace: one burst, instruction by instruction, next to the driver's source."""

from __future__ import annotations

import argparse
import json
from typing import Callable

from .build import built
from .facts import CHANGES, MNEMONICS
from .folding import short_event
from .listing import Source, source_of
from .ports import LASTING, REGISTERS, command_name, port_name
from .program import Mistake, Program, Refusal, find_program
from .report import Event, Part, parse_report
from .scenario import Scenario
from .trace_text import Executed, Struck, Trace, parse_trace
from .unstruck import Strike, strikes_of
from .words import cause_words, service_name, short

ABOUT = """Shows burst B of part P instruction by instruction: the words that each reads and changes, what goes to
and comes from the device's ports, and next to it the line of the driver's text that made it. SCENARIO is exact JSON
or as `build` takes it. The instructions are those of the program's own `trace P B`."""

# How many bursts back the last word of a port is searched for.
MOST_BURSTS_BACK = 256
# What a fault changes, in the words of a line.
CHANGED = {"register": "r{}", "memory": "[{}]", "text": "the text at {}"}
COMPARED = {name: mnemonic.compares for name, mnemonic in MNEMONICS.items() if mnemonic.compares}
# The last column at which the source begins; an instruction with a longer text moves its own source.
MOST_WIDE = 72


def traced(program: Program, scenario: Scenario, part: int, burst: int) -> Trace:
    """Returns the trace of a burst. A burst that the run does not have is a mistake."""
    words = ["trace", str(part), str(burst)]
    try:
        return parse_trace(program.answer(words, json.dumps(scenario)).out)
    except Refusal as refusal:
        if "no_such_burst" in refusal.line:
            raise Mistake(f"the run has no burst {burst} of part {part}") from refusal
        raise


def since_reset(part: Part, event: Event) -> list[Event]:
    """Returns the bursts of a part before an event, back to the last reset of the device."""
    found: list[Event] = []
    for each in part.events[: event.number - 1]:
        if each.kind == "stage" and each.text == "reset":
            found = []
        if each.kind == "burst":
            found.append(each)
    return found


def register_lines(part: Part, before: list[Event]) -> list[str]:
    """Returns the registers of the device that differ from those after a reset, by the acts of the report."""
    known: dict[int, tuple[int, int]] = {}
    for event in before:
        for act in event.acts:
            if act.startswith("register "):
                _, number, word = act.split(" ")
                known[int(number)] = (int(word), event.burst)
    named = REGISTERS[part.kind]
    return [f"register {number}, {named[number][0]} = {word} (set in b{burst})"
            for number, (word, burst) in sorted(known.items()) if word != named[number][1]]


def port_line(part: Part, before: list[Event], trace_of: Callable[[int], Trace | None]) -> list[str]:
    """Returns the last word of a port that keeps its word, by the traces of the bursts before. `trace_of` returns None
    for a burst without a trace."""
    port = LASTING.get(part.kind)
    if port is None:
        return []
    name = port_name(part.kind, "OUT", port)
    for event in reversed(before[-MOST_BURSTS_BACK:]):
        trace = trace_of(event.burst)
        if trace is None:
            return [f"{name}: not known, since burst {event.burst} is not traced"]
        for executed in reversed(trace.executed()):
            if executed.mnemonic == "OUT" and executed.operands[1] == str(port):
                return [f"{name} = {executed.value(0)} (set in b{event.burst}, context {event.context})"]
    if len(before) > MOST_BURSTS_BACK:
        return [f"{name}: not set in the {MOST_BURSTS_BACK} bursts before"]
    return [f"{name} = 0 (not set since the reset)"]


def effect(executed: Executed, kind: str) -> str:
    """Describes what an instruction did, with the words that it read."""
    pieces: list[str] = []
    mnemonic, operands = executed.mnemonic, executed.operands
    if mnemonic == "OUT":
        pieces.append(out_text(executed, kind))
    elif mnemonic == "IN" and executed.register:
        name = port_name(kind, "IN", int(operands[1]))
        pieces.append(f"{operands[0]} = {executed.register[1]} from {name}")
    elif mnemonic == "KCALL":
        first, second = (executed.before.get(register, 0) for register in (1, 2))
        pieces.append(f"calls {service_name(int(operands[0]))}, r1 = {first}, r2 = {second}")
    elif mnemonic == "RET":
        pieces.append(f"replies {executed.value(0)}")
    elif mnemonic in COMPARED:
        compared = f"{executed.value(0)} {COMPARED[mnemonic]} {executed.value(1)}"
        pieces.append(compared if executed.goto is not None else f"not {compared}")
    elif mnemonic in ("LD", "ST") and not executed.register and not executed.stored:
        pieces.append(refused_text(executed))
    elif executed.register:
        pieces.append(f"r{executed.register[0]} = {executed.register[1]}")
    if executed.stored:
        pieces.append(f"[{executed.stored[0]}] = {executed.stored[1]}")
    if executed.goto is not None:
        pieces.append(f"goto {executed.goto}")
    return ", ".join(pieces) + "".join(f" | {short(act)}" for act in executed.acts)


def refused_text(executed: Executed) -> str:
    """Describes a load or a store that stopped the driver."""
    address = (executed.value(1) + int(executed.operands[2])) % 2**32
    if executed.mnemonic == "ST":
        return f"would store {executed.value(0)} at {address}"
    return f"would load from {address}"


def strike_text(text: str) -> str:
    """Describes a fault of a trace."""
    kind, *words = text.split(" ")
    if kind not in CHANGES:
        return text
    refused = ", refused: nothing is changed" if words[-1:] == ["refused"] else ""
    return f"{CHANGED[CHANGES[kind]].format(words[0])} = {words[1]}{refused}"


def out_text(executed: Executed, kind: str) -> str:
    """Describes the word that an OUT writes, and where to."""
    port, word = int(executed.operands[1]), executed.value(0)
    name = port_name(kind, "OUT", port)
    if not name:
        return f"{word} to port {port}, which the device does not have"
    means = command_name(kind, port, word)
    return f"{word} to {name}" + (f" ({means})" if means else "")


def source_text(executed: Executed, source: Source) -> str:
    """Returns the line that made an instruction's word, and the word itself if it was overwritten."""
    made = source.words.get(executed.address)
    number, line = source.lines.get(executed.address, (0, ""))
    text = f"{number:4}  {line}" if number else "      " + (source.words.get(executed.address, ""))
    if made is not None and made != executed.instruction:
        text += f"   <- overwritten: the text has {made} here"
    elif made is None and executed.instruction != "-":
        text += "outside the driver's text"
    return text


def rows_of(trace: Trace, source: Source, kind: str) -> list[tuple[str, str]]:
    """Returns the lines: the executed instruction on the left, and the source next to it."""
    rows: list[tuple[str, str]] = []
    for item in trace.items:
        if isinstance(item, Struck):
            rows.append((f"  -- fault strikes after {item.after}: {strike_text(item.text)}", ""))
            continue
        rows.extend(("", f"      {name}:") for name in source.shown_names(item.address))
        rows.append((f"{item.number:4}  {item.address:4}  {item.instruction:16}  {effect(item, kind)}".rstrip(),
                     source_text(item, source)))
    return rows


def end_lines(trace: Trace, event: Event, strikes: list[Strike]) -> list[str]:
    """Describes how the burst ended, and the faults of it that did not strike."""
    lines = [f"end   {short_event(event)}"]
    if event.cause:
        lines.append(f"      {event.cause}: {cause_words(event.cause)}")
    lines.extend(strike.line for strike in strikes if strike.why and strike.fault["burst"] == trace.burst)
    return lines


def head_lines(trace: Trace, part: Part, event: Event, source: Source) -> list[str]:
    """Describes the burst, and the registers at its beginning."""
    asked = next((each.text for each in part.events if each.kind == "invoke" and each.call == trace.call), "")
    whose = f"c{trace.call} {short(asked)}" if trace.call else "a stage of its start"
    registers = "".join(f", r{number} = {word}" for number, word in trace.registers.items())
    near = source.near(trace.counter)
    at = f"{trace.counter} ({near})" if near else str(trace.counter)
    return [
        f"part {trace.part} {trace.name}, {part.kind}, burst {trace.burst}, event {event.number}, "
        f"context {trace.context}: {whose}",
        f"start at {at}{registers}; all other registers 0",
    ]


def trace_lines(program: Program, scenario: Scenario, index: int, burst: int) -> list[str]:
    report = parse_report(program.report(scenario))
    if not 0 <= index < len(report.parts):
        raise Mistake(f"there is no part {index}")
    part = report.parts[index]
    event = next((each for each in part.bursts() if each.burst == burst), None)
    if event is None:
        raise Mistake(f"the run has no burst {burst} of part {index}: it has {len(part.bursts())}")
    trace = traced(program, scenario, index, burst)
    source = source_of(program, scenario["parts"][index]["driver"])
    before = since_reset(part, event)
    device = [*port_line(part, before, lambda number: traced(program, scenario, index, number)),
              *register_lines(part, before)]
    lines = head_lines(trace, part, event, source)
    lines += [f"device: {'; '.join(device)}"] if device else []
    rows = rows_of(trace, source, part.kind)
    wide = min(max((len(left) for left, _ in rows), default=0), MOST_WIDE)
    rows = [("   n    at  instruction       what it does", "line  source"), *rows]
    lines += ["", *(f"{left:{wide}}  {right}".rstrip() for left, right in rows), ""]
    return lines + end_lines(trace, event, strikes_of(part, scenario["parts"][index].get("faults", [])))


def run(args: argparse.Namespace) -> int:
    scenario = built(args.file).plain()
    print("\n".join(trace_lines(find_program(args.program), scenario, args.part, args.burst)))
    return 0


def add_to(commands: argparse._SubParsersAction[argparse.ArgumentParser]) -> None:
    about = "one burst, instruction by instruction, next to the driver's source"
    parser = commands.add_parser("trace", help=about, description=ABOUT)
    parser.add_argument("part", type=int, metavar="P", help="the index of the part in the scenario, from 0")
    parser.add_argument("burst", type=int, metavar="B", help="the number of the burst in the report (b3 is 3)")
    parser.add_argument("file", metavar="SCENARIO", help="a scenario; - is standard input")
    parser.set_defaults(run=run)
