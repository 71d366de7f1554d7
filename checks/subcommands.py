"""The subcommands of the program, and how checks/statuses, checks/golden (with kept.py), checks/sweep and
checks/allocations try each. A new one gets a row here, and if the sweep draws inputs for it alone, a function and a row
of SORTS.
"""

from __future__ import annotations

import json
import re
from collections.abc import Callable, Sequence
from dataclasses import dataclass
from random import Random
from typing import Any, Literal, NamedTuple, Protocol

import drawing
import running
from running import Ended, difference, example, generated, handed, run

Words = Sequence[str | bytes]

# The most bytes of input that are read.
MOST_INPUT = 1_048_576
MOST_AUDIT = 16_777_216


class Case(NamedTuple):
    """A run to try: its name, its arguments, its input or what makes that by the program, and whether it always writes
    the same."""

    name: str
    words: Words
    given: bytes | Callable[[str], bytes]
    is_same: bool = True

    def input(self, program: str) -> bytes:
        return self.given if isinstance(self.given, bytes) else self.given(program)


class DrawnCase(Protocol):
    """One case of checks/sweep: the program, the number that the case is drawn from, and what differed."""

    program: str
    number: int
    faults: list[str]

    def run_both(self, words: Sequence[str], text: bytes) -> Ended:
        """Runs the program and the plain one, compares how they end, and returns how the program ended."""

    def count_as(self, sort: str, ended: Ended) -> None:
        """Names the sort of the case, by its first run."""


class Refused(NamedTuple):
    """Arguments, an input that is refused, and the line that says why and where, without the word `fault`."""

    words: Words
    given: bytes
    line: str


@dataclass(frozen=True)
class Stored:
    """The outputs of a subcommand that examples/ and checks/runs have, as NAME.ARGUMENTS.ending of the input NAME.of.

    `status` is that of a run with such an output; without it the status is not compared. `plain` is what the plain
    program writes too.
    """

    ending: str
    of: str = ".json"
    status: Callable[[bytes], int] | None = None
    plain: Callable[[bytes], bytes] = bytes


@dataclass(frozen=True)
class Subcommand:
    """A subcommand: its word or words, its arguments after these, and how it is tried.

    - `most`: the most bytes that it reads of standard input, if it reads it;
    - `truncated`: the line over a truncated scenario or image, if it reads one;
    - `stored`: its outputs that are kept;
    - `misused`: arguments that are nearly a subcommand, and none;
    - `refused`: inputs that it refuses;
    - `to_full`: runs whose output is not taken;
    - `long_runs`: runs that take some memory, which is limited;
    - `allocating`: runs each allocation of which is refused;
    - `sweeps`: whether the sweep tries it over each drawn scenario;
    - `sweeps_changed`: whether it does over one with a few changes, and if so over each or over a refused one alone;
    - `drawn`: its arguments for a drawn scenario, by what `run` writes for that, if they vary;
    - `around`: its input that has a scenario, if it is not the scenario.
    """

    name: Sequence[str]
    arguments: Sequence[str] = ()
    most: int = MOST_INPUT
    truncated: str = ""
    stored: Stored | None = None
    misused: Sequence[Words] = ()
    refused: Sequence[Refused] = ()
    to_full: Sequence[Case] = ()
    long_runs: Sequence[Case] = ()
    allocating: Sequence[Case] = ()
    sweeps: bool = False
    sweeps_changed: Literal["never", "each", "refused"] = "never"
    drawn: Callable[[Random, bytes], Sequence[str]] | None = None
    around: Callable[[bytes], bytes] = bytes

    @property
    def words(self) -> list[str]:
        """One choice of all its arguments."""
        return [*self.name, *self.arguments]

    def drawn_words(self, random: Random, report: bytes) -> list[str]:
        """Its arguments for a drawn scenario."""
        return [*self.name, *(self.drawn(random, report) if self.drawn else self.arguments)]


# ---- inputs of the table


def status_of(report: bytes) -> int:
    """The status in the last line of a report; -1 if it has none."""
    found = re.search(rb"(?:^|\n)status (\d+)\n$", report)
    return int(found[1]) if found else -1


def is_done(_: bytes) -> int:
    return 0


def status_of_trace(trace: bytes) -> int:
    """A trace that is an input error has the status of a refused input."""
    return 3 if trace.startswith(b"fault ") else 0


def twelve(_: str) -> bytes:
    return generated(12)


def twice_named() -> bytes:
    """A scenario but for its threads, which have one name."""
    given = json.loads(example("write-and-read.json"))
    return json.dumps({**given, "threads": [{"name": "t", "ops": []}] * 2}).encode()


def many_reads() -> bytes:
    """A scenario that takes some memory: four threads read eight blocks of the examples' disk, sixty times each."""
    given = json.loads(example("block.json"))
    ops = [{"part": 0, "op": "read", "first": 0, "count": 8}] * 60
    return json.dumps({**given, "threads": [{"name": f"t{t}", "ops": ops} for t in range(4)]}).encode()


def audited(program: str) -> bytes:
    """The scenario of many reads with its report."""
    return handed(many_reads(), run(program, ["run"], many_reads()).out)


def long_text() -> bytes:
    """A driver's text with nearly as many words as there is room for."""
    return example("block.asm") + b"FAULT\n" * 1900


def long_image(program: str) -> bytes:
    return run(program, ["asm"], long_text()).out


def two_members() -> bytes:
    """A campaign of two members: the first's driver is stopped in its write, the second's is not."""
    base = json.loads(example("write-and-read.json"))
    faults = [{"burst": 3, "after": after, "kind": "trap"} for after in (0, 90)]
    return json.dumps({"base": base, "part": 0, "faults": faults}).encode()


def guarded(*parts: tuple[int, int]) -> bytes:
    """The scenario of contract-broken with a part for each pair of a limit and a number of faults that never strike."""
    given = json.loads(example("contract-broken.json"))
    never = {"burst": 4_294_967_295, "after": 0, "kind": "hang"}
    disk = given["parts"][0]
    given["parts"] = [
        {**disk, "name": f"d{k}", "limit": limit, "faults": [never] * count} for k, (limit, count) in enumerate(parts)
    ]
    return json.dumps(given).encode()


def some_burst(random: Random, report: bytes) -> tuple[str, str]:
    """The arguments for a part and a burst, mostly of a burst that a report has."""
    part, found = 0, []
    for line in report.decode(errors="replace").split("\n"):
        if line.startswith("part "):
            part = int(line.split()[1])
        burst = re.match(r"\d+ burst x\d+ (?:c\d+ )?b(\d+) ", line)
        if burst:
            found.append((str(part), burst[1]))
    if found and random.random() < 0.9:
        return random.choice(found)
    return str(random.randrange(4)), str(random.choice([1, 2, 40, 4294967295]))


# ---- the table

NOT_JSON = "1 not_json /"
NO_PARTS = b'{"version":1,"parts":[],"threads":[]}'

RUN = Subcommand(
    ["run"],
    truncated=NOT_JSON,
    stored=Stored(".report", status=status_of),
    misused=[["Run"], [b"run\x80"]],
    refused=[
        Refused(["run"], b"", NOT_JSON),
        Refused(["run"], b"{", NOT_JSON),
        Refused(["run"], NO_PARTS, "5 number_range /parts"),
        Refused(["run"], b'{"version":3,"parts":[],"threads":[]}', "5 number_range /version"),
        Refused(["run"], b'{"version":1.0,"parts":[],"threads":[]}', "4 wrong_kind /version"),
        Refused(["run"], b'{"version":1,"parts":[{"class":"disk"}],"threads":[]}', "9 bad_class /parts/0/class"),
        Refused(["run"], b'{"version":1,"pars":[]}', "2 unknown_key /"),
        Refused(["run"], b'{"version":1}', "3 missing_key /parts"),
        Refused(["run"], twice_named(), "10 double_name /threads/1/name"),
    ],
    to_full=[
        Case("a report", ["run"], example("write-and-read.json")),
        Case("a report of a part given up", ["run"], example("given-up.json")),
        Case("a refused scenario", ["run"], b"{"),
    ],
    long_runs=[Case("a long report", ["run"], many_reads())],
    allocating=[
        Case("a write cut by a trap and resubmitted", ["run"], example("write-cut.json")),
        Case("a stream with replays", ["run"], example("sound-skips.json")),
        Case("a part given up", ["run"], example("given-up.json")),
        Case("the generated scenario of 12", ["run"], twelve),
        Case("a refused scenario", ["run"], b'{"version":1,"parts":[]}'),
    ],
)

RUN_THREADS = Subcommand(
    ["run", "threads"],
    truncated=NOT_JSON,
    misused=[["run", "thread"], ["run", "threads", "run"], ["run", b"threads\xc3"]],
    refused=[Refused(["run", "threads"], b"[]", "4 wrong_kind /"), Refused(["run", "threads"], b"null true", NOT_JSON)],
    to_full=[Case("a report by threads", ["run", "threads"], example("write-and-read.json"))],
    long_runs=[Case("a long report by threads", ["run", "threads"], many_reads(), is_same=False)],
    allocating=[
        Case("the generated scenario of 12 by threads", ["run", "threads"], twelve, is_same=False),
        Case("a scenario of one thread, by threads", ["run", "threads"], example("write-and-read.json")),
    ],
    sweeps_changed="refused",
)

ASM = Subcommand(
    ["asm"],
    stored=Stored(".image", of=".asm"),
    misused=[["asm", "dis"]],
    refused=[
        Refused(["asm"], b".class block\n???\n", "8 bad_asm 1 line 2 /"),
        Refused(["asm"], b".class tape\n", "8 bad_asm 2 line 1 /"),
        Refused(["asm"], b".entry init 0\n", "8 bad_asm 3 line 1 /"),
        Refused(["asm"], b"LI r1 65536\n", "8 bad_asm 4 line 1 /"),
        Refused(["asm"], b"a: FAULT\na: FAULT\n", "8 bad_asm 5 line 2 /"),
        Refused(["asm"], b"\nJMP nowhere\n", "8 bad_asm 6 line 2 /"),
        Refused(["asm"], b"FAULT\n" * 2049, "8 bad_asm 7 line 2049 /"),
        Refused(["asm"], b".data\n" + b".word 1\n" * 2049, "8 bad_asm 8 line 2050 /"),
        Refused(["asm"], b"", "8 bad_asm 9 line 1 /"),
    ],
    to_full=[Case("an image", ["asm"], example("net.asm")), Case("a refused text", ["asm"], b"?")],
    long_runs=[Case("an image", ["asm"], long_text())],
    allocating=[
        Case("an image", ["asm"], example("block.asm")),
        Case("a refused text", ["asm"], b".class block\n???\n"),
    ],
)

DIS = Subcommand(
    ["dis"],
    truncated=NOT_JSON,
    stored=Stored(".text", of=".image"),
    refused=[
        Refused(["dis"], b"\xff", NOT_JSON),
        Refused(["dis"], b"{}", "3 missing_key /class"),
        Refused(["dis"], b'{"class":"net","data":["0000000g"]}', "7 bad_image /data/0"),
    ],
    to_full=[Case("a text", ["dis"], example("net.image"))],
    long_runs=[Case("a text", ["dis"], long_image)],
    allocating=[Case("a text", ["dis"], example("block.image"))],
)

LIST = Subcommand(["list"], stored=Stored(".list", of=".asm"))

GEN = Subcommand(
    ["gen"],
    ["12"],
    most=0,
    misused=[
        ["gen"],
        ["gen", "0"],
        ["gen", "257"],
        ["gen", "012"],
        ["gen", "+1"],
        ["gen", " 1"],
        ["gen", "1", "1"],
        ["gen", b"\xf0\x9f\x92"],
    ],
    to_full=[Case("a summary", ["gen", "12"], b"")],
    allocating=[Case("the summary of 12", ["gen", "12"], b"")],
)

GEN_SCENARIO = Subcommand(["gen"], ["12", "scenario"], most=0)

CAMPAIGN = Subcommand(
    ["campaign"],
    truncated=NOT_JSON,
    stored=Stored(".table", status=is_done),
    refused=[Refused(["campaign"], b"{}", "3 missing_key /base")],
    to_full=[Case("a table", ["campaign"], example("campaign-block.json"))],
    allocating=[Case("a campaign of two members", ["campaign"], two_members())],
)

MIRROR = Subcommand(
    ["mirror"],
    truncated=NOT_JSON,
    stored=Stored(".mirror", status=status_of),
    refused=[Refused(["mirror"], b"{", NOT_JSON), Refused(["mirror"], NO_PARTS, "5 number_range /parts")],
    to_full=[
        Case("a report of a mirror", ["mirror"], example("mirror-outlives.json")),
        Case("a scenario that no mirror serves", ["mirror"], example("block.json")),
    ],
    allocating=[
        Case("a mirror that outlives a disk", ["mirror"], example("mirror-outlives.json")),
        Case("a mirror with bad blocks", ["mirror"], example("mirror-bad-blocks.json")),
    ],
    sweeps_changed="each",
)

TRACE = Subcommand(
    ["trace"],
    ["0", "1"],
    truncated=NOT_JSON,
    stored=Stored(".trace", status=status_of_trace),
    misused=[
        ["trace"],
        ["trace", "0"],
        ["trace", "8", "1"],
        ["trace", "01", "1"],
        ["trace", "+0", "1"],
        ["trace", "0", "0"],
        ["trace", "0", "01"],
        ["trace", "0", "4294967296"],
        ["trace", "0", "1", "1"],
        ["trace", "0", b"1\xff"],
    ],
    refused=[
        Refused(["trace", "0", "1"], b"{", NOT_JSON),
        Refused(["trace", "7", "1"], b'{"version":1}', "3 missing_key /parts"),
    ],
    sweeps=True,
    sweeps_changed="each",
    drawn=some_burst,
)

GUARD = Subcommand(
    ["guard"],
    truncated=NOT_JSON,
    stored=Stored(".guard", status=status_of),
    misused=[["guard", "guard"], ["guard", "Scenario"], ["guard", "threads"]],
    refused=[Refused(["guard"], b"{", NOT_JSON), Refused(["guard"], NO_PARTS, "5 number_range /parts")],
    to_full=[
        Case("a report of a guard", ["guard"], example("contract-broken.json")),
        Case("a scenario without room", ["guard"], guarded((0, 64))),
    ],
    allocating=[Case("a guard's trap, and a part given up", ["guard"], example("contract-broken.json"))],
    sweeps=True,
    sweeps_changed="each",
)

GUARD_SCENARIO = Subcommand(
    ["guard", "scenario"],
    truncated=NOT_JSON,
    misused=[["guard", "scenario", "1"], ["scenario"]],
    refused=[Refused(["guard", "scenario"], b'{"version":1}', "3 missing_key /parts")],
    to_full=[Case("a guarded scenario", ["guard", "scenario"], example("contract-broken.json"))],
    allocating=[Case("a guarded scenario", ["guard", "scenario"], example("contract-broken.json"))],
    sweeps=True,
    sweeps_changed="each",
)

EXPLORE = Subcommand(
    ["explore"],
    truncated=NOT_JSON,
    stored=Stored(".explore", plain=running.without_states),
    misused=[["Explore"], ["explore", "threads"]],
    refused=[Refused(["explore"], b"{", NOT_JSON), Refused(["explore"], b'{"version":1}', "3 missing_key /parts")],
    to_full=[Case("an exploration", ["explore"], example("two-sends.json"))],
    long_runs=[Case("an exploration", ["explore"], example("read-ahead-fixed.json"))],
    allocating=[Case("an exploration", ["explore"], example("contract-broken.json"))],
    sweeps_changed="refused",
)

AUDIT = Subcommand(
    ["audit"],
    most=MOST_AUDIT,
    truncated="12 bad_header /",
    refused=[
        Refused(["audit"], b"", "12 bad_header /"),
        Refused(["audit"], b"2", "12 bad_header /"),
        Refused(["audit"], b"\n{}", "12 bad_header /"),
        Refused(["audit"], b"02\n{}", "12 bad_header /"),
        Refused(["audit"], b"+2\n{}", "12 bad_header /"),
        Refused(["audit"], b"2 \n{}", "12 bad_header /"),
        Refused(["audit"], b"3\n{}", "12 bad_header /"),
        Refused(["audit"], b"100000000\n{}", "12 bad_header /"),
        Refused(["audit"], b"0\nstatus 0\n", NOT_JSON),
        Refused(["audit"], b"2\n{}status 0\n", "3 missing_key /version"),
        Refused(["audit"], b"1048577\n" + b" " * 1048577, "6 too_many /"),
    ],
    to_full=[
        Case("a verdict", ["audit"], handed(example("write-and-read.json"), example("write-and-read.report"))),
        Case("a line that does not fit", ["audit"], handed(example("write-and-read.json"), b"part 0\n")),
    ],
    long_runs=[Case("an audit", ["audit"], audited)],
    allocating=[
        Case("an audit", ["audit"], handed(example("write-cut.json"), example("write-cut.report"))),
        Case("an audit of a line that does not fit", ["audit"], handed(example("write-cut.json"), b"part 0\n")),
    ],
    sweeps_changed="refused",
    around=lambda scenario: handed(scenario, b""),
)

HELP = Subcommand(
    ["--help"],
    most=0,
    misused=[["help"], ["-h"], ["--help", "--version"]],
    to_full=[Case("help", ["--help"], b"")],
    allocating=[Case("help", ["--help"], b"")],
)

VERSION = Subcommand(
    ["--version"],
    most=0,
    misused=[["--Version"]],
    to_full=[Case("the version", ["--version"], b"")],
)

# Arguments that are like no subcommand.
UNKNOWN = Subcommand(
    ["walk"],
    most=0,
    misused=[[], [""], ["walk"], [b"\xff"], [b"\xed\xa0\x80", "run"]],
    to_full=[Case("the usage line", ["walk"], b"")],
    allocating=[Case("the usage line", ["walk", "on"], b"")],
)

# In this order the sweep draws from those that it tries.
SUBCOMMANDS = [RUN, RUN_THREADS, ASM, DIS, LIST, GEN, GEN_SCENARIO, CAMPAIGN, MIRROR, TRACE]
SUBCOMMANDS += [GUARD, GUARD_SCENARIO, EXPLORE, AUDIT, HELP, VERSION]

# Those that read standard input, and those with outputs that are kept.
READING = [it for it in SUBCOMMANDS if it.most > 0]
STORED = [(it, it.stored) for it in SUBCOMMANDS if it.stored]

# The cases of all.
MISUSED = [words for it in [*SUBCOMMANDS, UNKNOWN] for words in it.misused]
REFUSED = [refused for it in SUBCOMMANDS for refused in it.refused]
TO_FULL = [case for it in [*SUBCOMMANDS, UNKNOWN] for case in it.to_full]
LONG_RUNS = [case for it in SUBCOMMANDS for case in it.long_runs]
ALLOCATING = [case for it in [*SUBCOMMANDS, UNKNOWN] for case in it.allocating]


# ---- what the sweep draws: each function runs one drawn case of it, by both programs


def drawn_scenario(case: DrawnCase, random: Random) -> None:
    """A scenario that keeps the format, with all classes, schedules, faults, limits and bad blocks, and with drivers that
    do what they should and others: `run`, what the sweep tries over each scenario, and `audit`."""
    text = drawing.json_text(random, drawing.scenario(random))
    ended = case.run_both(RUN.words, text)
    case.count_as("scenarios", ended)
    for tried in SUBCOMMANDS:
        if tried.sweeps:
            case.run_both(tried.drawn_words(random, ended.out), tried.around(text))
    if ended.status != 3:
        drawn_audits(case, random, text, ended.out)


def drawn_audits(case: DrawnCase, random: Random, text: bytes, report: bytes) -> None:
    """The verdicts on reports: that of `run` and that of `run threads` are the scenario's, and the first with a byte
    changed is not, by the line of that byte. Then that on one with events exchanged."""
    expect_verdict(case, text, report, b"audit yes\n")
    expect_verdict(case, text, run(case.program, RUN_THREADS.words, text).out, b"audit yes\n")
    offset = random.randrange(len(report))
    changed = report[:offset] + bytes([report[offset] ^ 1]) + report[offset + 1 :]
    if names_thread(report, offset):
        case.run_both(AUDIT.words, handed(text, changed))
    else:
        expect_verdict(case, text, changed, b"audit no line %d\n" % (1 + report[:offset].count(b"\n")))
    case.run_both(AUDIT.words, handed(text, exchanged(random, report)))


def expect_verdict(case: DrawnCase, text: bytes, report: bytes, expected: bytes) -> None:
    """The audit of a report gives a verdict."""
    ended = case.run_both(AUDIT.words, handed(text, report))
    if (ended.status, ended.out) != (0 if expected == b"audit yes\n" else 8, expected):
        case.faults.append(f"the audit says {ended.out!r} with status {ended.status}, and not {expected!r}")


def names_thread(report: bytes, offset: int) -> bool:
    """Whether a byte is of the thread of an invocation: another thread may ask for the same, and only a later line
    differs."""
    begin = report.rfind(b"\n", 0, offset) + 1
    prefix = report[begin : offset + 1]
    return re.fullmatch(rb"\d+ invoke c\d+ t\d+", prefix) is not None


def exchanged(random: Random, report: bytes) -> bytes:
    """The report with two events that follow each other in the other order, or without an event."""
    lines = report.split(b"\n")
    pairs = [at for at in range(len(lines) - 1) if lines[at][:1].isdigit() and lines[at + 1][:1].isdigit()]
    if not pairs:
        return report + report
    at = random.choice(pairs)
    (first, one), (second, other) = lines[at].split(b" ", 1), lines[at + 1].split(b" ", 1)
    is_exchanged = random.random() < 0.7
    lines[at : at + 2] = [first + b" " + other, second + b" " + one] if is_exchanged else [first + b" " + other]
    return b"\n".join(lines)


def drawn_mirror(case: DrawnCase, random: Random) -> None:
    """A scenario of two disks, most of which a mirror serves: `mirror`."""
    case.count_as("mirrors", case.run_both(MIRROR.words, drawing.json_text(random, drawing.pair(random))))


def drawn_campaign(case: DrawnCase, random: Random) -> None:
    """A campaign of faults, members or every fault, with and without a guard and detail, half of them with a few
    changes: `campaign`."""
    given = drawing.nearly_valid_campaign(random)
    text = drawing.json_text(random, given) if random.random() < 0.5 else drawing.changed(random, given)
    case.count_as("campaigns", case.run_both(CAMPAIGN.words, text))


def drawn_size(case: DrawnCase, random: Random) -> None:
    """A generated scenario: both subcommands `gen`."""
    size = str(random.randint(1, 256))
    case.count_as("generated scenarios", case.run_both(["gen", size], b""))
    case.run_both(["gen", size, "scenario"], b"")


def nearly_valid(case: DrawnCase, random: Random) -> None:
    """A scenario with a few changes, most of them refused: `run`, and another of those that read scenarios."""
    text = drawing.nearly_valid(random)
    ended = case.run_both(RUN.words, text)
    case.count_as("nearly valid scenarios", ended)
    tried = [it for it in SUBCOMMANDS if it.sweeps_changed == "each"]
    if ended.status == 3:
        tried += [it for it in SUBCOMMANDS if it.sweeps_changed == "refused"]
    words, chosen = random.choice([(it.drawn_words(random, ended.out), it) for it in tried])
    case.run_both(words, chosen.around(text))


def drawn_image(case: DrawnCase, random: Random) -> None:
    """An image with a few changes, most of them refused: `dis`."""
    image = drawing.drawn_image(random, random.choice(drawing.CLASSES))["image"]
    case.count_as("nearly valid images", case.run_both(DIS.words, drawing.changed(random, image)))


def drawn_text(case: DrawnCase, random: Random) -> None:
    """An assembler text: `asm`, `list`, and `run` of a scenario with it, which is refused by the same fault as the text,
    or runs as with its image; the text of the image by `dis` assembles to it again."""
    text, kind = drawing.assembler_text(random)
    made = case.run_both(ASM.words, text.encode())
    listed = case.run_both(LIST.words, text.encode())
    case.count_as("texts", made)
    ended = case.run_both(RUN.words, driven(case, kind, {"asm": text}))
    if made.status != 3:
        expect_image(case, made, kind, ended)
        return
    if listed.out != made.out:
        case.faults.append(f"asm refuses by {made.out!r}, and list by {listed.out!r}")
    if ended.out != made.out.replace(b" /", b" /parts/0/driver/asm"):
        case.faults.append(f"asm refuses by {made.out!r}, and run by {ended.out!r}")


def driven(case: DrawnCase, kind: str, driver: dict[str, Any]) -> bytes:
    """A scenario of one part of a class with this driver, else the same for the same case."""
    random = Random(case.number)
    part = {"name": "p", "class": kind, "driver": driver, "limit": 1}
    if kind == "block":
        part["blocks"] = 8
    ops = [drawing.operation(random, [part]) for _ in range(6)]
    given = {"version": 2, "parts": [part], "threads": [{"name": "t", "ops": ops}]}
    return json.dumps(given).encode()


def expect_image(case: DrawnCase, made: Ended, kind: str, with_text: Ended) -> None:
    """The image that was made is in a scenario what the text is, and its own text gives it again."""
    ended = run(case.program, RUN.words, driven(case, kind, {"image": json.loads(made.out)}))
    # A scenario with the text of another class is refused at the text, one with the image at the image.
    if (ended.status, with_text.status) != (3, 3) and ended != with_text:
        case.faults.append("with the image the run is another: " + difference(ended.out, with_text.out))
    again = case.run_both(ASM.words, case.run_both(DIS.words, made.out).out)
    if again.out != made.out:
        case.faults.append("the text by dis gives another image: " + difference(again.out, made.out))


# How many of a hundred drawn cases are of each sort.
SORTS: list[tuple[int, Callable[[DrawnCase, Random], None]]] = [
    (45, drawn_scenario),
    (6, drawn_mirror),
    (12, drawn_campaign),
    (2, drawn_size),
    (16, nearly_valid),
    (4, drawn_image),
    (15, drawn_text),
]
