"""The tables of the simulator, each read from the source that has it: names, numbers, keys, limits, the memory map, and
what each instruction and each kind of fault does.

checks/tables writes them as JSON for the workbench. Only the pages of docs/ have the sentence of a clause and the
name of a register; what a page has as a number is compared with the definitions.
"""

from __future__ import annotations

import re
from collections.abc import Callable
from dataclasses import dataclass
from typing import Any

from shapes import UnknownShape, body_of, by_variant, constants, equations, last_name, matched, rows, snake, text_of, texts
from shapes import value_of, variants

LIMITS = "crates/nook_data/src/limits.rt"
MAP = "crates/nook_data/src/memory_map.rt"
PROGRAM = "crates/nooks/src/program.rt"
MNEMONICS = "crates/machine_defs/specs/Mnemonics.antt"
EXECUTION = "crates/machine_defs/specs/Execution.antt"
MACHINE = "crates/nook_data/src/machine.rt"
BURST = "crates/machine_defs/specs/Burst.antt"
SERVICES = "crates/machine_defs/specs/Services.antt"
DEVICES = "crates/machine_defs/specs/Devices.antt"
CLASSES = "crates/nook_data/specs/Classes.antt"
CLASS_NAMES = "crates/nook_data/specs/ClassNames.antt"
CLAUSES = "crates/nook_data/specs/Clauses.antt"
FAULT_NAMES = "crates/nook_data/specs/FaultNames.antt"
OP_NAMES = "crates/nook_data/specs/OpNames.antt"
SCHEDULE_NAMES = "crates/input_defs/specs/ScheduleNames.antt"
KEYS = "crates/asm_defs/specs/Keys.antt"
SCENARIO = "crates/input_defs/specs/ScenarioReading.antt"
PART = "crates/input_defs/specs/PartReading.antt"
IMAGE = "crates/input_defs/specs/ImageReading.antt"
CAMPAIGN = "crates/input_defs/specs/CampaignReading.antt"
PLAN = "crates/input_defs/specs/PlanReading.antt"
PLAN_LIMITS = "crates/plan_defs/src/plan.rt"
FAULTS = "crates/input_defs/specs/Faults.antt"
LINES = "crates/report_defs/specs/ReportLines.antt"
REPORT = "crates/report_defs/specs/ReportText.antt"
FORMS = "crates/command_forms/specs/Forms.antt"
TEXTS = "crates/nooks/specs/Texts.antt"
ENDINGS = "crates/nooks/specs/Endings.antt"
REPORT_PAGE = "docs/REPORT.md"
DEVICES_PAGE = "docs/DEVICES.md"

# Which operands a form has, in the words of the assembler's page.
OPERANDS = {"Bare": "", "A": "a", "Imm": "imm", "AB": "a b", "AImm": "a imm", "ABImm": "a b imm"}

# The groups of instructions by the definition with which the right side of `executed` begins. Of those that it does not
# name `puts` computes, and what sets the counter jumps.
GROUPS = {"loads": "memory", "stores": "memory", "jumps": "jump", "past_input": "port", "past_output": "port"}
GROUPS |= {"crosses": "kernel", "trapped": "kernel"}

# The signs of the tests of registers a and b by which an instruction jumps.
SIGNS = {"(r m a == r m b)": "=", "(not (r m a == r m b))": "!="}
SIGNS |= {"(nat_lt (r m a) (r m b))": "<", "(not (nat_lt (r m a) (r m b)))": ">="}

# What a definition has between spaces: a word, or something in brackets.
INNER = r"\((?:[^()]|\([^()]*\))*\)"
ATOM = rf"(?:\w+|\((?:[^()]|{INNER})*\))"

# What a device gives and takes at its ports, by class: the definitions for IN and OUT, if it has such ports.
PORTS = {"block": ("disk_input", "disk_output"), "net": ("link_input", "link_output"), "sound": ("", "speaker_output")}

# How many configuration registers a device has.
REGISTERS = 4

Row = dict[str, Any]


@dataclass(frozen=True)
class Table:
    """A table by its name, the files that it is read from, and how."""

    name: str
    sources: tuple[str, ...]
    read: Callable[[], Any]


def limits() -> dict[str, int]:
    """The limits of a system, and how much of an input is read."""
    return {**constants(LIMITS), "INPUT_BYTES": constants(PROGRAM)["LIMIT"], "AUDIT_BYTES": constants(PROGRAM)["AUDIT_LIMIT"]}


def memory_map() -> dict[str, int]:
    """The regions of a domain and their sizes."""
    return constants(MAP, constants(LIMITS))


def numbers() -> dict[str, int]:
    """The constants that a definition may name; the index of a part or a block is below the most that there may be."""
    known = {**limits(), **constants(PLAN_LIMITS), **memory_map()}
    return {**known, "parts": known["MOST_PARTS"], "blocks": known["MOST_DISK_BLOCKS"]}


def key_texts() -> dict[str, str]:
    """The text of each key by the name of its variant."""
    return {name: texts(body)[0] for name, body in by_variant(KEYS, "key_text").items()}


def keys_of(body: str) -> list[str]:
    """The texts of the keys that a right side lists."""
    known = key_texts()
    return [known[name] for name in re.findall(r"key\.(\w+)", body)]


# ---- the value at a key


def number(least: str, most: str, file: str) -> Row:
    """A whole number within bounds."""
    known = numbers()
    return {"least": value_of(least, known, file), "most": value_of(most, known, file)}


def listed(body: str, file: str) -> Row | None:
    """A list, as `numbers_of` and `list_of` read one: how many items it may have, and what each may be if it is a number or
    a list again."""
    if found := re.match(rf"numbers_of ({ATOM}) ({ATOM}) ({ATOM})", body):
        return {"items": list(number(found[1], found[2], file).values()), "each": number("0", found[3], file)}
    if found := re.match(rf"list_of ({ATOM}) ({ATOM}) ({ATOM})", body):
        inner = found[1].strip("()").partition(". ")[2]
        each = listed(read_by(inner, file) if inner.isidentifier() else inner, file)
        return {"items": list(number(found[2], found[3], file).values()), **({"each": each} if each else {})}
    return None


def ranges(file: str, *names: str) -> dict[str, Row]:
    """The value at each key that some definitions of a file read, in their order; nothing if it is an object or a name."""
    body = "; ".join(equation.body for name in names for equation in equations(file, name))
    return ranges_of(body, file)


def ranges_of(body: str, file: str) -> dict[str, Row]:
    """The value at each key that a right side reads."""
    known = key_texts()
    found: dict[str, Row] = {}
    for way, key, rest in re.findall(rf"(word_at|number_at|required|optional) key\.(\w+)((?: {ATOM})*)", body):
        words = re.findall(ATOM, rest)
        made: Row = {}
        if way == "word_at":
            made = number("0", "4294967295", file)
        elif way == "number_at":
            made = number(words[0], words[1], file)
        elif bounds := re.fullmatch(rf"\(whole_number ({ATOM}) ({ATOM})\)", words[0]):
            made = number(bounds[1], bounds[2], file)
        else:
            made = read_as(read_by(words[0], file), file)
        found[known[key]] = {**made, **({"optional": True} if way == "optional" else {})}
    return found


def read_as(body: str, file: str) -> Row:
    """What a right side reads: a list, or true or false; nothing if it is an object or a name."""
    return {"truth": True} if "as_bool d" in body else listed(body, file) or {}


def read_by(reader: str, file: str) -> str:
    """What a reader reads by: itself if it is in brackets, else the right side of its definition in the same file."""
    if reader.startswith("("):
        return reader[1:-1]
    is_here = re.search(rf"(?m)^(?:abbrev|unfoldable) pub {reader} :", text_of(file))
    found = equations(file, reader) if is_here else ()
    return found[0].body if len(found) == 1 else ""


def campaign() -> dict[str, Row]:
    """The values at the keys of a campaign. Of those that `strikes_of` reads just one is there."""
    found = ranges(PLAN, "plan_of")
    known = key_texts()
    for equation in equations(PLAN, "strikes_of"):
        key, reader = matched(r"key\.(\w+)\)? \(?(\w+)", equation.body, PLAN, "a key of what strikes").groups()
        found[known[key]] = read_as(read_by(reader, PLAN) or read_by(reader, CAMPAIGN), PLAN)
    order = keys_of(matched(r"object_with \((.*?)\)", body_of(PLAN, "plan_of"), PLAN, "the keys of a campaign")[1])
    if set(order) != set(found):
        raise UnknownShape(f"{PLAN}: a campaign has the keys {order}, and {list(found)} are read")
    return {key: found[key] for key in order}


def inputs() -> dict[str, dict[str, Row]]:
    """For each kind of object of an input the values at the keys that all of its kind have, or that one class has."""
    entry = matched(rf"number_at entry ({ATOM}) ({ATOM}) d", equations(IMAGE, "addresses_from")[-1].body, IMAGE, "an entry's address")
    return {
        "scenario": ranges(SCENARIO, "scenario_of"),
        "part": ranges(PART, "part_of", "part_blocks", "part_bad", "part_arrivals"),
        "bad": ranges(PART, "bad_block_of"),
        "fault": ranges(PART, "fault_of"),
        "thread": ranges(SCENARIO, "thread_of"),
        "operation": ranges(SCENARIO, "op_of"),
        "image": {**ranges(IMAGE, "image_of"), "entry": number(entry[1], entry[2], IMAGE)},
        "campaign": campaign(),
    }


def kinds(words: tuple[str, str], file: str, keys: str, read: str) -> list[Row]:
    """The names of a kind of thing with the keys that only each has: `words` has the names, in another file, `keys` the
    keys, and `read` their values."""
    named = by_variant(*words)
    own, bodies = by_variant(file, keys), by_variant(file, read)
    if list(named) != list(own) or list(own) != list(bodies):
        raise UnknownShape(f"{words[1]} of {words[0]}, {keys} and {read} of {file} do not have the same names in the same order")
    pairs = [(texts(body)[0], name) for name, body in named.items()]
    found = []
    for text, name in pairs:
        at = ranges_of(bodies[name], file)
        listed_keys = [key for key in keys_of(own[name]) if key != "kind"]
        if list(at) != listed_keys:
            raise UnknownShape(f"{file}: {read} reads {list(at)} of {text}, and {keys} lists {listed_keys}")
        found.append({"name": text, "keys": at})
    return found


def fault_kinds() -> list[Row]:
    """The kinds of fault that a scenario may name: the cause with which one stops the driver or what it changes, and its keys."""
    causes = {name: texts(body)[0] for name, body in by_variant(LINES, "trap_text").items()}
    stops = {kind: f"trap {causes[cause]}" for kind, cause in re.findall(r"fault\.(\w+) ↦ Some trap\.(\w+)", body_of(BURST, "trap_of"))}
    changes = dict.fromkeys(by_variant(BURST, "struck_registers"), "register")
    changes |= {kind: "text" if "TEXT_WORDS" in body else "memory" for kind, body in by_variant(BURST, "struck_memory").items()}
    names = list(by_variant(PART, "fault_keys"))
    rows_read = kinds((FAULT_NAMES, "fault_word"), PART, "fault_keys", "fault_kind")
    return [{"name": row["name"], "stops": stops.get(name), "changes": changes.get(name), "keys": row["keys"]}
            for name, row in zip(names, rows_read, strict=True)]


def schedules() -> list[Row]:
    """The kinds of schedule."""
    return kinds((SCHEDULE_NAMES, "schedule_word"), SCENARIO, "schedule_keys", "schedule_by")


def operations() -> list[Row]:
    """What an application may ask for, each with the class whose parts serve it; none if each class does."""
    classes = {last_name(equation.arguments.partition(" ")[2]): equation.body for equation in equations(CLASSES, "is_of_class")}
    names = by_variant(CLASS_NAMES, "class_text")
    found = []
    for row in kinds((OP_NAMES, "op_word"), SCENARIO, "op_keys", "op_by"):
        body = next((body for name, body in classes.items() if snake(name) == row["name"]), "true")
        own = re.fullmatch(r"same_class class (\w+)", body)
        if not own and body != "true":
            raise UnknownShape(f"{CLASSES}: is_of_class of {row['name']} is {body!r}")
        found.append({"name": row["name"], "class": texts(names[own[1]])[0] if own else None, "keys": row["keys"]})
    return found


# ---- classes, instructions, services


def elim_numbers(file: str, name: str) -> dict[str, int]:
    """The numbers that a definition has by variant: `elim c [ Block ↦ 0 | Net ↦ 1 ]`."""
    return {variant: int(each) for variant, each in re.findall(r"(\w+) ↦ (\d+)", body_of(file, name))}


def by_key(body: str) -> list[int]:
    """What a right side gives for the keys 0 to 3: `if key == 0 then 100 else 0`, or one number for all."""
    cases = dict(re.findall(r"if key == (\d+) then (\d+) else", body))
    last = matched(r"(\d+)$", body, CLASSES, "a number by key")[1]
    return [int(cases.get(str(key), last)) for key in range(REGISTERS)]


def register_names() -> dict[str, list[tuple[str, int, int | None]]]:
    """The registers as the page of the devices has them: a name, the default, and the maximum if it names one."""
    found = {}
    for kind, *cells in rows(DEVICES_PAGE, "| Class | Register 0 | Register 1 | Register 2 | Register 3 |"):
        named = [matched(r"^(\w+): (\d+)(?:, at most (\d+))?$", cell, DEVICES_PAGE, f"a register of {kind}") for cell in cells]
        found[kind] = [(each[1], int(each[2]), int(each[3]) if each[3] else None) for each in named]
    return found


def registers(kind: str, defaults: str, maxima: str) -> list[Row]:
    """The registers of a class by the definitions, with their names from the page, which has to have the same numbers."""
    found = []
    pairs = zip(by_key(defaults), by_key(maxima), strict=True)
    for key, ((default, most), (name, page_default, page_most)) in enumerate(zip(pairs, register_names()[kind], strict=True)):
        if (page_default, page_most if page_most is not None else 2**32 - 1) != (default, most):
            raise UnknownShape(f"{DEVICES_PAGE}: register {key} of {kind} is by default {default} and at most {most} in {CLASSES}")
        found.append({"name": name, "default": default, "most": most})
    return found


def classes() -> list[Row]:
    """The classes: the number by which a driver registers, its entries, the keys of a part, and the device's registers."""
    codes = elim_numbers(CLASSES, "class_code")
    entries, keys = by_variant(KEYS, "entry_keys"), by_variant(PART, "part_keys")
    defaults, maxima = by_variant(CLASSES, "default_of"), by_variant(CLASSES, "maximum_of")
    found = []
    for variant, body in by_variant(CLASS_NAMES, "class_text").items():
        name = texts(body)[0]
        later = re.search(r"\(if version == 2 then (.*?) else \[\]\)", keys[variant])
        found.append({
            "name": name,
            "code": codes[variant],
            "entries": keys_of(entries[variant]),
            "keys": keys_of(keys[variant]),
            "keys_of_version_2": keys_of(later[1]) if later else [],
            "registers": registers(name, defaults[variant], maxima[variant]),
        })
    return found


def ports() -> dict[str, dict[str, list[int]]]:
    """The ports of each class's device by direction, without those of its registers, which each device has."""
    bounds = matched(r"^nat_le (\d+) port && nat_le port (\d+)$", body_of(DEVICES, "is_register_port"), DEVICES, "is_register_port")
    found = {name: {"IN": ports_of(given), "OUT": ports_of(taken)} for name, (given, taken) in PORTS.items()}
    both = list(range(int(bounds[1]), int(bounds[2]) + 1))
    return {**found, "registers": {"IN": both, "OUT": both}}


def ports_of(name: str) -> list[int]:
    """The ports that a definition has a case for."""
    return [int(port) for port in re.findall(r"port == (\d+)", body_of(DEVICES, name))] if name else []


def instructions() -> list[Row]:
    """The instructions of the driver machine in the order of their numbers, each with its operands and what it does."""
    found = []
    for equation in equations(MNEMONICS, "instruction_row"):
        shape = r'^(sets|changes|reads|row) \(codes "(\w+)"\) (0x[0-9a-f]+) form\.(\w+) '
        row = matched(shape, equation.body, MNEMONICS, "a row of instruction_row")
        sets, name, number, operands = row[1] in ("sets", "changes"), row[2], int(row[3], 16), OPERANDS[row[4]]
        doing = doings()[last_name(equation.arguments)]
        found.append({"name": name, "number": number, "operands": operands, "sets": sets, **does(doing, operands)})
    order = [last_name(name) for name in re.findall(r"mnemonic\.\w+", body_of(MNEMONICS, "mnemonics"))]
    if order != [last_name(equation.arguments) for equation in equations(MNEMONICS, "instruction_row")]:
        raise UnknownShape(f"{MNEMONICS}: mnemonics and instruction_row have another order")
    return found


def doings() -> dict[str, str]:
    """What each instruction does, by its variant: the right sides of `executed`."""
    return {last_name(matched(r"\(?instr\.\w+", equation.arguments, EXECUTION, "an equation of executed")[0]): equation.body
            for equation in equations(EXECUTION, "executed")}


def does(body: str, operands: str) -> Row:
    """What an instruction does by its right side of `executed`: its group, the registers that it reads, whether the next word
    may be executed after it, and how it compares registers a and b, if it does."""
    first = body.split(" ")[0]
    to_counter = "counter = " in body
    reads = [each for each in operands.split() if f"r m {each}" in body or (first, each) == ("stores", "a")]
    ends = first == "trapped" or "ends.Reply" in body or to_counter and "next_counter" not in body
    signs = [sign for test, sign in SIGNS.items() if body == f"jumps m {test} imm"]
    compared = {"compares": signs[0]} if signs else {}
    return {"group": group_of(first, body, to_counter), "reads": " ".join(reads), "next": not ends, **compared}


def group_of(first: str, body: str, to_counter: bool) -> str:
    """The group of an instruction: a move puts a constant or another register, as it is, and a sum computes."""
    if first == "puts":
        return "move" if body == "puts m a (r m b)" or "imm" in body and "r m b" not in body else "sum"
    group = "jump" if to_counter else GROUPS.get(first)
    if group is None:
        raise UnknownShape(f"{EXECUTION}: checks/tables knows no group of instructions that begin with {first!r}")
    return group


def services() -> list[Row]:
    """The kernel's services: the enum has them in the order of their numbers, which the check of a call names."""
    names = [variant.name for variant in variants(MACHINE, "Service")]
    pieces = re.split(r"number == (\d+) then", body_of(SERVICES, "checked"))
    checked = {int(each): re.search(r"service\.(\w+)", piece) for each, piece in zip(pieces[1::2], pieces[2::2])}
    wrong = [each for each, name in checked.items() if name and names[each - 1 : each] != [name[1]]]
    if sorted(checked) != list(range(1, len(names) + 1)) or wrong:
        raise UnknownShape(f"{SERVICES}: the numbers of `checked` are not those of the enum Service in {MACHINE}")
    return [{"number": each, "name": snake(name)} for each, name in enumerate(names, 1)]


# ---- a report, and how the program ends


def clauses() -> list[Row]:
    """The clauses of the contracts by number, with what a driver did that breaks each."""
    sentences = {int(each): words for each, words in rows(REPORT_PAGE, "| Clause | The driver |")}
    numbered = {name: int(body) for name, body in by_variant(CLAUSES, "clause_number").items()}
    if list(numbered.values()) != list(sentences):
        raise UnknownShape(f"{REPORT_PAGE}: the table of clauses has not the numbers of clause_number in {CLAUSES}")
    return [{"number": each, "name": name, "broken": sentences[each]} for name, each in numbered.items()]


def words_of(name: str) -> list[str]:
    """The first words of the texts that a definition has by variant, each once, in their order."""
    firsts = [texts(body)[0].split(" ")[0] for body in by_variant(LINES, name).values() if texts(body)]
    return list(dict.fromkeys(firsts))


def line_words(name: str) -> list[str]:
    """The first words of the lines that a definition writes, itself or by others of its file, each once, in their order."""
    bodies = " ".join(equation.body for equation in equations(REPORT, name))
    found: list[str] = []
    for word, other in re.findall(r'codes "([a-z]+)|\b(\w+_(?:lines?|text))\b', bodies):
        is_here = other and other != name and re.search(rf"(?m)^(?:abbrev|unfoldable) pub {other} :", text_of(REPORT))
        found += line_words(other) if is_here else [word]
    return list(filter(None, dict.fromkeys(found)))


def report() -> dict[str, list[str]]:
    """The words of a report's events, and the first words of lines: those after a part's events, those of them that count
    losses, and those after the threads, of which the last is the status."""
    before = {*line_words("parts_text"), *line_words("threads_text")}
    return {
        "stages": words_of("stage_text"),
        "acts": words_of("act_text"),
        "ends": words_of("end_text"),
        "answers": words_of("answer_text"),
        "causes": words_of("cause_text"),
        "traps": words_of("trap_text"),
        "wrong": [snake(name) for name in wrong_answers()],
        "closing": line_words("final_lines"),
        "losses": line_words("losses_lines"),
        "ending": [word for word in line_words("report_text") if word not in before],
    }


def wrong_answers() -> list[str]:
    """The answers of an operation that is wrong by itself."""
    checks = ("static_check", "check_op", "check_range", "check_length")
    bodies = " ".join(equation.body for name in checks for equation in equations(CLASSES, name))
    named = set(re.findall(r"answer\.(\w+)", bodies))
    return [name for name in by_variant(LINES, "answer_text") if name in named]


def fault_lines() -> list[Row]:
    """The input errors by number, those of a scenario first."""
    lines = [texts(body)[0] for body in by_variant(FAULTS, "fault_text").values()]
    lines += [line for name in ("bad_header_text", "not_mirror_text", "no_such_burst_text") for line in texts(body_of(TEXTS, name))]
    named = [matched(r"^(?:fault )?(\d+) (\w+)", line, FAULTS, "the line of a fault") for line in lines]
    return [{"number": int(each[1]), "name": each[2]} for each in named]


def asm_faults() -> list[Row]:
    """The errors of an assembler text by number."""
    return [{"number": int(body), "name": snake(name)} for name, body in by_variant(FAULTS, "asm_number").items()]


def help_lines() -> list[tuple[str, str]]:
    """The lines of `--help`: the words, and what is said of them."""
    found = [re.split("  +", line, maxsplit=1) for line in texts(body_of(TEXTS, "help_text"))]
    return [(words, about) for words, about in found]


def statuses() -> list[Row]:
    """How the program ends, by number."""
    meanings = dict(help_lines())
    numbered = by_variant(ENDINGS, "code_of")
    if [f"status {each}" for each in numbered.values()] != [words for words in meanings if words.startswith("status ")]:
        raise UnknownShape(f"{TEXTS}: the statuses of help_text are not those of code_of in {ENDINGS}")
    return [{"number": int(each), "name": snake(name), "means": meanings[f"status {each}"]} for name, each in numbered.items()]


def forms() -> list[Row]:
    """The subcommands, as `--help` has them, each with whether it reads an input. A word in capitals is a number."""
    found = []
    abouts = {words.removeprefix("nooks "): about for words, about in help_lines() if words.startswith("nooks ")}
    reading = by_variant(FORMS, "is_reading")
    for equation in equations(FORMS, "IsForm"):
        name = re.findall(r"\b[A-Z]\w*", equation.arguments)[-1]
        words = form_words(equation.body)
        known = [each for each in abouts if same_form(each.split(" "), words)]
        if len(known) != 1:
            raise UnknownShape(f"{TEXTS}: help_text has {len(known)} lines of the form {name} of {FORMS}")
        found.append({"words": known[0], "name": snake(name), "reads": reading[name] == "true", "about": abouts[known[0]]})
    if len(found) != len(abouts):
        raise UnknownShape(f"{TEXTS}: help_text has {len(abouts)} subcommands, and IsForm in {FORMS} has {len(found)}")
    return sorted(found, key=lambda row: list(abouts).index(row["words"]))


def form_words(body: str) -> list[str | None]:
    """The arguments of a subcommand, None for a number."""
    literal = matched(r"words ≡ (.*?) ∷ \[\]", body, FORMS, "a form of words")[1]
    return [texts(word)[0] if word.startswith("codes") else None for word in literal.split(" ∷ ")]


def same_form(named: list[str], words: list[str | None]) -> bool:
    """Whether words of `--help` are those of a subcommand, with a word in capitals for each number."""
    return len(named) == len(words) and all(each == word or (word is None and each.isupper()) for each, word in zip(named, words))


TABLES = (
    Table("instructions", (MNEMONICS, EXECUTION), instructions),
    Table("services", (MACHINE, SERVICES), services),
    Table("classes", (CLASSES, CLASS_NAMES, KEYS, PART, DEVICES_PAGE), classes),
    Table("ports", (DEVICES,), ports),
    Table("operations", (OP_NAMES, SCENARIO, CLASSES), operations),
    Table("fault_kinds", (FAULT_NAMES, PART, BURST, LINES), fault_kinds),
    Table("schedules", (SCHEDULE_NAMES, SCENARIO), schedules),
    Table("inputs", (SCENARIO, PART, IMAGE, CAMPAIGN, PLAN), inputs),
    Table("clauses", (CLAUSES, REPORT_PAGE), clauses),
    Table("report", (LINES, REPORT, CLASSES), report),
    Table("fault_lines", (FAULTS, TEXTS), fault_lines),
    Table("asm_faults", (FAULTS,), asm_faults),
    Table("statuses", (ENDINGS, TEXTS), statuses),
    Table("forms", (FORMS, TEXTS), forms),
    Table("limits", (LIMITS, PROGRAM), limits),
    Table("memory_map", (MAP,), memory_map),
)

ABOUT = "Made by checks/tables from the sources that it names here; no other file of the workbench has these facts."


def tables() -> dict[str, Any]:
    """All tables, and for each the files that it is read from."""
    sources = {table.name: list(table.sources) for table in TABLES}
    return {"about": ABOUT, "sources": sources, **{table.name: table.read() for table in TABLES}}
