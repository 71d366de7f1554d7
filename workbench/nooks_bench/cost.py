"""cost: what protection costs in a run, in counts, and by a model in cycles."""

from __future__ import annotations

import argparse
import json
import re
import sys
from typing import Any

from .columns import Row, text_lines
from .cost_count import BOOT, Counts, PartCost, cost_of
from .cost_model import Model, Reckoned, model_of, reckon
from .program import Program, find_program
from .report import parse_report
from .scenario import Scenario
from .sweep import scenario_of
from .words import counted

ABOUT = """Runs the scenario FILE and counts what protects the kernel from its drivers: changes of domain, kernel calls,
words that are copied and cleared, pages whose rights change or that are loaded, for each operation, for the boot and
for recoveries. The counts are exact. With --model they are weighed with cycles from a TOML file, which nobody measured:
the time with protection and without, and when the one is twice the other."""

TRACED_INSTRUCTION = re.compile(r"^\d+ \d+ ", re.MULTILINE)

# The columns of the table of counts.
COLUMNS = ("calls", "entries", "crossings", "kernel_calls", "copied", "cleared", "rights", "pages", "instructions",
           "acts")
ALL = "all calls"


def hidden_instructions(program: Program, scenario: Scenario, index: int) -> dict[int, int]:
    """How many instructions were executed in each burst that a hang among the scenario's own faults ended, counted in
    its trace. The report shows the most that a burst may have instead."""
    part = scenario["parts"][index]
    hung = sorted({fault["burst"] for fault in part.get("faults", []) if fault["kind"] == "hang"})
    text = json.dumps(scenario)
    found: dict[int, int] = {}
    for burst in hung:
        ended = program.ask(["trace", str(index), str(burst)], text)
        if ended.status == 0:
            found[burst] = len(TRACED_INSTRUCTION.findall(ended.out))
    return found


def costs_of(program: Program, scenario: Scenario) -> list[PartCost]:
    """The counts of each part."""
    report = parse_report(program.report(scenario))
    return [cost_of(part, hidden_instructions(program, scenario, part.index)) for part in report.parts]


def named_counts(cost: PartCost) -> list[tuple[str, Counts]]:
    """The rows of a part's table."""
    rows = [*cost.operations.items(), (ALL, cost.all_calls), (BOOT, cost.boot)]
    if cost.recoveries:
        rows.append((counted(len(cost.recoveries), "recovery").replace("recoverys", "recoveries"), cost.all_recoveries))
    return rows


def count_lines(cost: PartCost) -> list[str]:
    """The table of counts of a part."""
    rows: list[Row] = [["", *(name.replace("_", " ") for name in COLUMNS)]]
    for name, counts in named_counts(cost):
        is_call = name in cost.operations or name == ALL
        rows.append([name, *(str(getattr(counts, each)) if is_call or each != "calls" else "" for each in COLUMNS)])
    return [f"  {line}" for line in text_lines(rows)]


def model_lines(reckoned: Reckoned, file: str) -> list[str]:
    """What a model says of a part."""
    lines = [f"  reckoned by {file}, not measured:",
             f"    calls: {reckoned.bare:,.0f} cycles without protection, {reckoned.guarded:,.0f} with it: "
             f"{reckoned.relative:.2f} of the speed",
             f"    boot: {reckoned.boot:,.0f} cycles"]
    if reckoned.number:
        lines.append(f"    a recovery: {reckoned.recoveries / reckoned.number:,.0f} cycles")
    if reckoned.twice is not None:
        lines.append(f"    twice the time at a change of domain of {reckoned.twice:,.0f} cycles")
    if reckoned.pays is not None:
        lines.append(f"    cheaper than a reboot for each failure from one failure in {reckoned.pays:,.0f} calls on")
    return lines


def part_lines(cost: PartCost, model: Model | None, file: str) -> list[str]:
    """The lines about a part: its counts, and what the model says of them."""
    part = cost.part
    lines = [f"part {part.index} {part.name}, {part.kind}: {counted(part.failures, 'failure')}"]
    lines += count_lines(cost)
    return lines + (model_lines(reckon(model, cost), file) if model else [])


def as_json(costs: list[PartCost], model: Model | None) -> list[dict[str, Any]]:
    """The counts of all parts as JSON values, for tools."""
    shown: list[dict[str, Any]] = []
    for cost in costs:
        found: dict[str, Any] = {
            "part": cost.part.index,
            "name": cost.part.name,
            "class": cost.part.kind,
            "operations": {name: vars(counts) for name, counts in cost.operations.items()},
            "all": vars(cost.all_calls),
            "boot": vars(cost.boot),
            "recoveries": [vars(each) for each in cost.recoveries],
        }
        if model:
            found["reckoned"] = {"measured": False, "model": vars(model), **reckon(model, cost).as_json()}
        shown.append(found)
    return shown


def run(args: argparse.Namespace) -> int:
    model = model_of(args.model) if args.model else None
    program = find_program(args.program)
    costs = costs_of(program, scenario_of(program, args.file))
    if args.json:
        json.dump(as_json(costs, model), sys.stdout)
        sys.stdout.write("\n")
        return 0
    print("\n\n".join("\n".join(part_lines(cost, model, args.model)) for cost in costs))
    return 0


def add_to(commands: argparse._SubParsersAction[argparse.ArgumentParser]) -> None:
    parser = commands.add_parser("cost", help="what protection costs", description=ABOUT)
    parser.add_argument("file", metavar="FILE", help="a scenario, as exact JSON or as `build` takes it")
    parser.add_argument("--model", metavar="FILE", help="the cycles of each thing, as a TOML file")
    parser.add_argument("--json", action="store_true", help="write JSON for tools")
    parser.set_defaults(run=run)
