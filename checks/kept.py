"""Compares programs with the files of examples/ and checks/runs, the tables of inputs.py and computed tables.
checks/golden calls it.

subcommands.py says which subcommand writes which files; runs/README.md says what those of checks/runs are. Each scenario
there has an output, each text all of its outputs, and each output its scenario or text. The audit of each report by its
scenario must be yes. Besides, truncated inputs are refused, the generated scenario is the one of bench/run, and campaigns
of up to 4,096 faults, of as many members and of every trap have their tables.
"""

import json
import os
from collections.abc import Iterator
from typing import Any

import inputs
import running
from running import EXAMPLES, Named, Results, run
from subcommands import MOST_INPUT, READING, STORED, UNKNOWN

RUNS = os.path.join(running.TOP, "checks/runs")


def stored(name: str, folder: str = RUNS) -> bytes:
    """The bytes of a file of a folder."""
    with open(os.path.join(folder, name), "rb") as file:
        return file.read()


def names(ending: str, folder: str = RUNS) -> list[str]:
    """The names of the files with an ending, without it."""
    return sorted(name[: -len(ending)] for name in os.listdir(folder) if name.endswith(ending))


def check_files(results: Results) -> None:
    """Each scenario has an output, each text all of its outputs, and each output its input."""
    of_scenarios = [names(output.ending) for _, output in STORED if output.of == ".json"]
    written = {name.split(".")[0] for found in of_scenarios for name in found}
    results.same("checks/runs: scenarios, and those with an output", names(".json"), sorted(written))
    of_texts = [names(output.ending) for _, output in STORED if output.of != ".json"]
    results.same("checks/runs: texts, and those with each output", [names(".asm")] * len(of_texts), of_texts)


def check_outputs(results: Results, whose: str, program: str, folder: str) -> None:
    """The stored outputs of a folder, and their statuses. A name has the arguments after a period."""
    is_plain = running.is_plain(program)
    for subcommand, output in STORED:
        for whole in names(output.ending, folder):
            name, *arguments = whole.split(".")
            ended = run(program, [*subcommand.name, *arguments], stored(name + output.of, folder))
            found, expected = ended.out, stored(whole + output.ending, folder)
            if is_plain:
                found, expected = output.plain(found), output.plain(expected)
            file = os.path.join(os.path.basename(folder), whole + output.ending)
            results.same(f"{file} of {whose}", found, expected)
            if output.status:
                results.same(f"{file}: the status of {whose}", ended.status, output.status(expected))


def check_audits(results: Results, whose: str, program: str) -> None:
    """The verdict on each report of a run."""
    for name in names(".report"):
        ended = run(program, ["audit"], running.handed(stored(name + ".json"), stored(name + ".report")))
        results.same(f"runs/{name}: the verdict of {whose}", (ended.status, ended.out), (0, b"audit yes\n"))


def check_inputs(results: Results, whose: str, program: str) -> None:
    """Each input of the tables, with the line of its error; one that is right ends otherwise."""
    for given, expected in inputs.scenarios():
        ended = run(program, ["run"], given)
        found = ended.out.decode() if ended.status == 3 else "right"
        results.same(f"run of {whose} over {shown(given)}", found, "right" if expected == "right" else f"fault {expected}\n")
    for given, expected in inputs.texts():
        for tried in [it for it, output in STORED if output.of == ".asm"]:
            ended = run(program, tried.words, given)
            name = f"{' '.join(tried.words)} of {whose} over {shown(given)}"
            results.same(name, (ended.status, ended.out), (3, f"fault {expected}\n".encode()))


def check_prefixes(results: Results, whose: str, program: str) -> None:
    """An example's scenario, truncated at each thirteenth byte and before its last bracket."""
    whole = running.example("write-and-read.json").rstrip()
    for length in [*range(0, len(whole), 13), len(whole) - 1]:
        for tried in READING:
            if tried.truncated:
                ended = run(program, tried.words, whole[:length])
                name = f"{' '.join(tried.words)} of {whose} over the first {length} bytes of write-and-read"
                results.same(name, (ended.status, ended.out), (3, f"fault {tried.truncated}\n".encode()))


# Arguments that are no subcommand, in addition to MISUSED, which checks/statuses tries.
NO_FORMS = [["list", "me"], ["gen", "257", "scenario"], ["gen", "1", "report"], ["--help", "me"], ["run", "run"], ["guard", "run"], ["explore", "1"]]


def check_usage(results: Results, whose: str, program: str) -> None:
    """Arguments that are no subcommand all give the same line."""
    line = run(program, UNKNOWN.words).out
    for words in NO_FORMS:
        ended = run(program, words)
        results.same(f"{' '.join(words)} of {whose}", (ended.status, ended.out), (2, line))


def check_generated(results: Results, whose: str, program: str) -> None:
    """The generated scenario of 12 runs as the one that bench/run makes of the same size."""
    given = run(program, ["gen", "12", "scenario"]).out
    found = run(program, ["run"], given)
    expected = run(program, ["run"], running.generated(12))
    results.same(f"the generated scenario of 12: the report of {whose}", found.out, expected.out)
    results.same(f"the generated scenario of 12: the statuses of {whose}", (found.status, expected.status), (0, 0))


# The rows of three faults of one write: in its burst, in the driver's start, and in a burst that never comes. Without a
# failure the events are the invocation, Load, Init, the two bursts of the start, Resume, the entry and the burst that
# replies. A failure ends this with its burst, and Stop and Collect come after it.
STRUCK = [(3, "status 1 events 10 failures 1 gone 1 lost 0"), (1, "status 1 events 6 failures 1 gone 1 lost 0")]
UNSTRUCK = (4_294_967_295, "status 0 events 8 failures 0 gone 0 lost 0")

# The rows of a trap at every instruction of it: of the two in each of the two bursts of the start, and of the 90 in the burst
# of the write, which sets three registers, asks for a block, moves its 16 words by five instructions each, stores
# it, ends the loop and replies. The row of the second burst has one event more than that of the first.
EVERY = [STRUCK[1][1]] * 2 + [STRUCK[1][1].replace("events 6", "events 7")] * 2 + [STRUCK[0][1]] * 90


def base_of_campaigns() -> dict[str, Any]:
    """One write to a disk that is given up at its first failure."""
    driver = {"image": json.loads(running.example("block.image"))}
    part = {"name": "d0", "class": "block", "blocks": 4, "driver": driver}
    write = {"part": 0, "op": "write", "first": 1, "data": [1] * 16}
    return {"version": 1, "parts": [part], "threads": [{"name": "t0", "ops": [write]}]}


def campaign(count: int) -> tuple[list[dict[str, Any]], str]:
    """The faults of `count` members, and the table of their campaign."""
    members = [(STRUCK + [UNSTRUCK])[number % 3] for number in range(count)]
    faults = [{"burst": burst, "after": 0, "kind": "trap"} for burst, _ in members]
    table = "".join(f"{number} {row}\n" for number, (_, row) in enumerate(members, 1))
    return faults, table + f"campaign {count} kept {count // 3} given_up {count - count // 3} broken 0\n"


def campaigns() -> Iterator[tuple[str, dict[str, Any], str]]:
    """Campaigns by their names, what strikes in them, and their tables."""
    for count in (1, 1024, 1025, 4096):
        faults, table = campaign(count)
        yield f"{count} faults", {"faults": faults}, table
        yield f"{count} members", {"members": [[fault] for fault in faults]}, table
        yield f"{count} faults with a guard", {"faults": faults, "guard": True}, table.replace("\n", " traps 0\n")
    rows = "".join(f"{number} {row}\n" for number, row in enumerate([UNSTRUCK[1], *EVERY]))
    yield "every trap", {"every": [{"kind": "trap"}]}, rows + f"campaign {len(EVERY)} kept 0 given_up {len(EVERY)} broken 0\n"


def check_campaigns(results: Results, whose: str, program: str) -> None:
    """Tables of one row, of as many as run at a time and one more, and of the most; and that of every trap."""
    for name, strikes, expected in campaigns():
        given = json.dumps({"base": base_of_campaigns(), "part": 0, **strikes}).encode()
        ended = run(program, ["campaign"], given)
        results.same(f"a campaign of {name} of {whose}", (ended.status, ended.out), (0, expected.encode()))


# The instruction FAULT as assembler text and as a word of an image, and the most words of text.
FAULT = ("FAULT\n", "18000000")
MOST_TEXT = 2048


def long_parts() -> tuple[list[dict[str, Any]], list[dict[str, Any]]]:
    """Eight disks whose driver traps at once, as people write them and as the program does, which takes more bytes."""
    entries = ["get", "init", "read", "set", "write"]
    asm = ".class block\n" + "".join(f".entry {entry} f\n" for entry in entries) + "f: " + FAULT[0] * MOST_TEXT
    image = {"class": "block", "data": [], "entries": dict.fromkeys(entries, 0), "text": [FAULT[1]] * MOST_TEXT}
    given, written = [], []
    for index in range(8):
        part = {"name": f"d{index}", "class": "block", "blocks": 16}
        given.append({**part, "driver": {"asm": asm}})
        written.append({**part, "limit": 0, "driver": {"image": image}, "faults": []})
    return given, written


def writes_of(words: list[int]) -> list[dict[str, Any]]:
    """Sixteen threads that write these words, 256 at a time, in turn."""
    ops = [{"part": 0, "op": "write", "first": 0, "data": words[at : at + 256]} for at in range(0, len(words), 256)]
    return [{"name": f"t{index}", "ops": ops[index::16]} for index in range(16)]


def long_threads(size: int) -> list[dict[str, Any]]:
    """Sixteen threads of `size` bytes, which write words of one to ten digits."""
    whole = len(compact(writes_of([10**9] * 512))) - len(compact(writes_of([10**9] * 256)))
    count = 256 * (size // whole + 1)
    more = size - len(compact(writes_of([1] * count)))
    return writes_of([10 ** min(max(more - 9 * index, 0), 9) for index in range(count)])


def compact(value: object) -> str:
    return json.dumps(value, separators=(",", ":"))


def check_long_guarded(results: Results, whose: str, program: str) -> None:
    """A guarded scenario is written up to the bytes that `run` reads, and refused with one more."""
    given, written = long_parts()
    around = {"version": 1, "schedule": {"kind": "round_robin"}, "parts": written, "threads": []}
    for more in (0, 1):
        threads = long_threads(MOST_INPUT + more - len(compact(around)) - len("\n") + len("[]"))
        text = compact({**around, "threads": threads}) + "\n"
        results.same(f"the bytes of a guarded scenario, {more} more than are read", len(text), MOST_INPUT + more)
        ended = run(program, ["guard", "scenario"], compact({"version": 1, "parts": given, "threads": threads}).encode())
        found = "written" if (ended.status, ended.out) == (0, text.encode()) else (ended.status, shown(ended.out))
        expected = (3, repr(b"fault 6 too_many /\n")) if more else "written"
        results.same(f"a guarded scenario of {len(text)} bytes of {whose}", found, expected)


def shown(given: bytes) -> str:
    """An input in short: its end, where the tables differ."""
    return repr(given if len(given) < 120 else b".." + given[-120:])


CHECKS = [
    check_audits,
    check_inputs,
    check_prefixes,
    check_usage,
    check_generated,
    check_campaigns,
    check_long_guarded,
]


def check_stored(results: Results, programs: list[Named]) -> None:
    """All of it, by each of the programs."""
    check_files(results)
    for whose, program in programs:
        for folder in (EXAMPLES, RUNS):
            check_outputs(results, whose, program, folder)
        for check in CHECKS:
            check(results, whose, program)
