"""docs/DEFINITIONS.md: the definitions that the promises speak of, in reading order, as one document.

Each file of specs/ is there as a whole, without the lines that name what it uses. The comments at its top introduce it.
"""

from __future__ import annotations

from dataclasses import dataclass

from shapes import TOP, UnknownShape, text_of


@dataclass(frozen=True)
class Chapter:
    """A chapter by its title, a sentence about it, and its files as CRATE/NAME."""

    title: str
    about: str
    files: tuple[str, ...]


CHAPTERS = (
    Chapter(
        "Plain data",
        "The types are Rust's own, in `crates/nook_data/src/`, `crates/asm_defs/src/` and `crates/input_defs/src/`. A list of the code "
        "is a list of its items to a definition.",
        ("nook_data/Types", "nook_data/Numbered", "nook_data/Layout", "nook_data/Frames", "nook_data/Names", "nook_data/Valid"),
    ),
    Chapter(
        "The driver machine",
        "What an instruction does, what devices give and take, and what a burst is.",
        ("machine_defs/Mnemonics", "machine_defs/Machine", "machine_defs/Pages", "machine_defs/Devices", "machine_defs/Execution",
         "machine_defs/BurstFaults", "machine_defs/Burst"),
    ),
    Chapter(
        "A driver's domain and the kernel's side",
        "What a driver holds, which services it may call, and what the kernel keeps of a part.",
        ("machine_defs/Entries", "machine_defs/Services", "nook_data/ClassNames", "nook_data/Classes", "nook_data/Answers",
         "part_defs/State", "part_defs/Log", "part_defs/Domain"),
    ),
    Chapter(
        "The one step of a part",
        "Which steps may be taken, and what each makes of a part.",
        ("part_defs/Calls", "part_defs/Crossing", "part_defs/Stages", "part_defs/Steps", "part_defs/Runs"),
    ),
    Chapter(
        "The run of a scenario",
        "Schedules, the simulation that they drive, and generated scenarios.",
        ("run_defs/Schedules", "run_defs/Simulation", "nook_data/Members", "run_defs/References", "run_defs/Generated"),
    ),
    Chapter(
        "What it means",
        "What a user is promised, in the subject's own words.",
        ("promise_defs/Blocks", "promise_defs/Trace", "promise_defs/Ideal", "nook_data/Clauses", "promise_defs/Contract",
         "promise_defs/Losses", "promise_defs/Licence", "promise_defs/Isolation", "headline_laws/Headline",
         "headline_laws/Durable", "headline_laws/GivenUp", "headline_laws/Recoveries"),
    ),
    Chapter(
        "Restarts",
        "What a driver begins with after a recovery, and what a restart does not renew.",
        ("headline_laws/Restart",),
    ),
    Chapter(
        "The guard",
        "Where a driver is stopped before a deed that would break its contract.",
        ("guard_defs/Deeds", "guard_defs/Turns", "guard_defs/Guard", "guard_defs/GuardedRuns", "guard_defs/FirstBreaks", "guard_defs/GuardText",
         "guard_defs/Every", "guarded_run/Guarded"),
    ),
    Chapter(
        "Texts that are read",
        "Assembler texts, images, scenarios and campaigns from their bytes, or their first fault.",
        ("asm_defs/Types", "asm_defs/Results", "asm_defs/Keys", "asm_defs/AsmTokens", "asm_defs/AsmLines", "asm_defs/Assembler",
         "asm_defs/Disassembler", "asm_defs/ImageText", "input_defs/Types", "input_defs/Reading", "input_defs/ImageReading",
         "nook_data/FaultNames", "nook_data/OpNames", "input_defs/PartReading", "input_defs/ScheduleNames", "input_defs/ScenarioReading",
         "input_defs/CampaignReading", "input_defs/PlanReading", "input_defs/Faults"),
    ),
    Chapter(
        "Texts that are written",
        "The report line by line, the rows of a campaign, and what listeners count.",
        ("nook_io/Listening", "report_defs/ReportLines", "report_defs/ReportText", "report_defs/Campaigns"),
    ),
    Chapter(
        "Campaigns with every fault",
        "What campaigns with several faults a member, every fault, a guard and detail come to.",
        ("plan_defs/Types", "plan_defs/Plans", "campaign_defs/Types", "campaign_defs/Members", "campaign_defs/Rows",
         "campaign_defs/TableText", "campaign_laws/Certificates"),
    ),
    Chapter(
        "Every order of steps",
        "Runs by some order, their outcomes, and the row of each outcome.",
        ("explore_defs/Orders", "explore_defs/Outcomes", "explore_defs/Explored", "explore_laws/Closing"),
    ),
    Chapter(
        "Containment",
        "What of a run can be seen from outside of one part.",
        ("containment_laws/Containment",),
    ),
    Chapter(
        "Threads",
        "The lock, the desk of a part, and the workers.",
        ("shares/Shares", "turn_lock/Views", "turn_lock/Seats", "turn_lock/Turns", "clocks/Clocks", "desk_like/Desks",
         "desk_like/Stamps", "app_threads/Works", "app_threads/Ends", "app_threads/Order", "order_defs/OneClock", "order_defs/Taking"),
    ),
    Chapter(
        "Other runs and texts",
        "Runs by threads, mirrors, audits, traces and listings.",
        ("run_laws/Fitting", "run_laws/Audit", "order_defs/OutOfOrder", "threaded_run/Threaded", "mirrored_run/Mirrors", "report_text/Mirrored",
         "audit_input/Handed", "sim_run/Published", "burst_trace/Retold", "burst_trace/Text", "image_list/ListText",
         "scenario_write/ScenarioText"),
    ),
    Chapter(
        "The program",
        "What a source and a sink are, which words ask for what, and what the program answers.",
        ("nook_io/Causes", "nook_io/Changes", "command_forms/Forms", "nooks/Texts", "nooks/Streams", "nooks/Guardable",
         "nooks/Answers", "nooks/Endings"),
    ),
)

# Files of these crates that hold no definition of the promises: lists of modules, and names that contracts and laws of the
# crates give to pieces of the definitions.
APART = {"Lib", "Views", "Making", "Registers", "ServiceNames"}

# The crates whose files must each have a chapter.
CRATES = ("nook_data", "nook_io", "machine_defs", "part_defs", "run_defs", "promise_defs", "headline_laws", "guard_defs", "asm_defs",
          "input_defs", "report_defs", "plan_defs", "campaign_defs", "explore_defs", "command_forms", "nooks")

HEAD = """# The definitions

This page is made by `checks/documents` of the files in `crates/*/specs/`; edit those. It is what has to be believed: all contracts
speak of these definitions, and each compiles and computes. docs/PROOFS.md says what is proved of them.

A definition is `abbrev` where every proof may see through it, and `unfoldable` where proofs name it as one word. A `record` is a list
of claims that all hold. `◌∷◌` puts an item before a list, `◌++◌` joins two lists, `≡` is equality, `×` is "and", `⊎` is "or", `⊥` never
holds, and `elim x [ .. ]` takes cases.

"""


def files_of(crate: str) -> set[str]:
    """The definitions of a crate, as CRATE/NAME."""
    folder = TOP / "crates" / crate / "specs"
    return {f"{crate}/{file.stem}" for file in folder.glob("*.antt") if file.stem not in APART}


def check_whole() -> None:
    """Refuses a definition without a chapter, or with two."""
    named = [file for chapter in CHAPTERS for file in chapter.files]
    missing = set().union(*map(files_of, CRATES)) - set(named)
    twice = {file for file in named if named.count(file) > 1}
    for about, files in (("in no chapter", missing), ("in two chapters", twice)):
        if files:
            raise UnknownShape(f"checks/definitions_page.py: {about}: {', '.join(sorted(files))}")


def path_of(file: str) -> str:
    crate, name = file.split("/")
    return f"crates/{crate}/specs/{name}.antt"


def is_use(line: str) -> bool:
    return line.startswith(("use ", "pub use "))


def halves(file: str) -> tuple[list[str], list[str]]:
    """The comments at the top of a file, without their marks, and the lines after them, without what the file uses."""
    lines = [line for line in text_of(path_of(file)).split("\n") if not line.startswith("use ")]
    while lines and not lines[0]:
        lines.pop(0)
    top = 0
    while top < len(lines) and lines[top].startswith("-- "):
        top += 1
    if top < len(lines) and lines[top]:
        return [], lines
    return [line.removeprefix("-- ") for line in lines[:top]], lines[top:]


def section(file: str) -> str:
    """A file as a section of the page."""
    about, lines = halves(file)
    parts = [f"### `{file}`\n"]
    if about:
        parts.append("\n".join(about) + "\n")
    parts.append("```text\n" + "\n".join(lines).strip("\n") + "\n```\n")
    return "\n".join(parts)


def anchor(title: str) -> str:
    return "".join(letter for letter in title.lower().replace(" ", "-") if letter.isalnum() or letter == "-")


def contents() -> str:
    """A line for each chapter, with its files."""
    rows = [f"| [{it.title}](#{anchor(it.title)}) | {it.about} |" for it in CHAPTERS]
    return "\n".join(["| Chapter | What it says |", "|---|---|", *rows]) + "\n"


def page() -> str:
    """The whole page."""
    check_whole()
    chapters = [f"## {it.title}\n\n{it.about}\n\n" + "\n".join(map(section, it.files)) for it in CHAPTERS]
    return HEAD + contents() + "\n" + "\n".join(chapters)
