"""What the page shows of a run, as JSON: for each part its events in words, its lanes, its state as rows, and its
traced bursts. The page's script displays this and computes nothing."""

from __future__ import annotations

from dataclasses import dataclass, field
from typing import Any

from .calls import Call
from .deeds import Deed, deed_of
from .event_words import Sentences
from .explain_report import STATUSES, answered_line, contract_lines, failure_lines, recovery_lines
from .folding import folded_lines, short_event
from .guards import would_have
from .held import resource_lines
from .listing import Source
from .page_bursts import burst_rows, source_rows
from .ports import REGISTERS
from .report import Event, Part, Report
from .state import PartState, states_of
from .state_rows import histories
from .times import ACTS, GUARD, SEVERAL, STAGES, STRIKES, PartTimes, act_letter
from .trace_text import Trace
from .unstruck import Strike
from .words import counted, short

# The letters of acts and of faults, with their meanings.
LETTERS = {
    "acts": {letter: name for name, letter in ACTS.items()} | {SEVERAL: "several kinds"},
    "faults": {letter: f"fault: {name}" for name, letter in STRIKES.items()} | {GUARD: "the guard stops the driver"},
}


@dataclass(frozen=True)
class PartRun:
    """A part of a run: its timeline, the source and the text of its driver, and the traces of some of its bursts."""

    times: PartTimes
    source: Source
    text: str
    traces: dict[int, Trace] = field(default_factory=dict)

    @property
    def part(self) -> Part:
        return self.times.part


def call_lane(call: Call) -> list[Any]:
    """Returns a call as a lane shows it."""
    title = f"c{call.number} {short(call.text)}: {short(call.answer) or 'no answer'} ({call.by})"
    return [call.number, call.invoked, call.answered, call.by, call.inside, call.interruptions, title]


def loaded_spans(part: Part) -> list[list[int]]:
    """Returns the spans of events in which the driver is loaded: from each load to a failure."""
    spans: list[list[int]] = []
    begun = 0
    for event in part.events:
        if event.kind == "stage" and event.text == "load":
            begun = event.number
        if event.failed and begun:
            spans.append([begun, event.number])
            begun = 0
    return spans + ([[begun, len(part.events)]] if begun else [])


def strike_marks(times: PartTimes) -> dict[str, list[str]]:
    """Returns the letters of the faults that struck, and of a guard that stopped the driver, by event."""
    stopped = [event.number for event in times.part.bursts() if event.burst in times.part.guards]
    marks: dict[str, list[str]] = {str(number): [GUARD] for number in stopped}
    for strike in times.struck():
        marks.setdefault(str(strike.event), []).append(STRIKES[strike.fault["kind"]])
    return marks


def lane_rows(times: PartTimes) -> dict[str, Any]:
    bursts = times.events("burst")
    acts = {event.number: [act_letter(event), len(event.acts), ", ".join(folded_lines(list(event.acts)))]
            for event in times.acting()}
    stages = {event.number: [STAGES[event.text.split(" ")[0]], event.text.split(" ")[0]]
              for event in times.events("stage")}
    return {
        "spans": [[span.mode, span.first, span.last] for span in times.spans],
        "stages": stages,
        "threads": [[thread, times.names.get(thread, str(thread)), [call_lane(call) for call in times.lane(thread)]]
                    for thread in times.threads],
        "loaded": loaded_spans(times.part),
        "bursts": {event.number: [event.context, event.burst, event.call] for event in bursts},
        "acts": acts,
        "faults": strike_marks(times),
        "failures": [event.number for event in times.failures()],
        "frames": {event.number: event.answer == "kept" for event in times.events("arrive")},
    }


def notes_of(part: Part, event: Event, deed: Deed | None, strikes: list[Strike]) -> list[list[str]]:
    """Returns the notes on an event, each with its kind: faults that struck, a deed that a guard stopped, and a broken
    contract."""
    notes = [["fault", f"A fault of the scenario struck here: {strike.text}."]
             for strike in strikes if strike.event == event.number]
    if trap := part.guards.get(event.burst):
        position = f"before instruction {trap.after + 1}"
        notes.append(["fault", f"The guard stopped the driver here, {position}: {would_have(trap)}."])
    if deed and deed.event == event.number:
        notes.append(["broken", f"CONTRACT BROKEN here, clause {deed.clause}: {deed.about}. The deed: {deed.text}"])
    return notes


def event_rows(run: PartRun, states: list[PartState], deed: Deed | None) -> list[list[Any]]:
    """Returns for each event its sentence, its line of the report, its burst or 0, and its notes."""
    sentences = Sentences(run.times.names, run.part.guards)
    struck = {strike.event for strike in run.times.struck()}
    rows: list[list[Any]] = []
    for event, before, after in zip(run.part.events, states, states[1:]):
        said = event.number in struck or event.burst in run.part.guards
        said = said or (deed is not None and deed.event == event.number)
        notes = notes_of(run.part, event, deed, run.times.struck()) if said else []
        rows.append([sentences.of(event, before, after), short_event(event), event.burst, notes])
    return rows


def summary_lines(times: PartTimes) -> list[str]:
    """Returns what `explain` prints of a part, without what the state after its last event shows."""
    part = times.part
    lines = [answered_line(times.calls), *(strike.line for strike in times.strikes)]
    lines += [*failure_lines(part), *recovery_lines(part)]
    if times.loss_text():
        lines.append(f"losses: {times.loss_text()}")
    return [*lines, *resource_lines(part), *contract_lines(part)]


def part_rows(run: PartRun) -> dict[str, Any]:
    part = run.part
    states = states_of(part)
    deed = deed_of(part, states)
    traced = [event for event in part.bursts() if event.burst in run.traces]
    return {
        "place": part.index,
        "name": part.name,
        "class": part.kind,
        "limit": part.limit,
        "head": f"{part.kind}, limit {part.limit}: {counted(len(part.events), 'event')}, "
                f"{counted(len(part.bursts()), 'burst')}, {counted(part.failures, 'failure')}",
        "summary": summary_lines(run.times),
        "events": event_rows(run, states, deed),
        "broken": deed.event if deed else 0,
        "lanes": lane_rows(run.times),
        "letters": LETTERS,
        "state": histories(states, part.kind),
        "registers": [name for name, _ in REGISTERS[part.kind]],
        "names": {str(thread): name for thread, name in run.times.names.items()},
        "source": {"lines": run.text.split("\n"), "words": source_rows(run.source)},
        "bursts": {str(event.burst): burst_rows(part, event, run.traces, run.source, deed) for event in traced},
    }


def page_data(title: str, report: Report, runs: list[PartRun], made: list[str]) -> dict[str, Any]:
    """Returns what the page shows of a report. `made` says how the run was made."""
    return {
        "title": title,
        "status": f"status {report.status}: {STATUSES.get(report.status, 'unknown')}",
        "made": made,
        "parts": [part_rows(run) for run in runs],
    }
