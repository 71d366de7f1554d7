"""Draws inputs for the sweep: scenarios, nearly valid JSON and assembler texts. All of them depend on the generator alone."""

import functools
import json
import re

import tabling
from running import example

CLASSES = ["block", "net", "sound"]

ENTRIES = {
    "block": ["init", "read", "write", "get", "set"],
    "net": ["init", "send", "poll", "get", "set"],
    "sound": ["init", "open", "play", "close", "get", "set"],
}

# The drivers that do what their classes ask.
SOUND_DRIVERS = {"block": ["block", "block-media"], "net": ["net"], "sound": ["sound"]}

# Drivers of examples/ that race with themselves, or are wrong in another way.
WRONG_DRIVERS = {
    "block": ["read-ahead", "shared-word", "spins", "stale-read"],
    "net": ["two-sends", "sends-twice"],
    "sound": ["plays-on"],
}

# Changes of the sound drivers, each of which breaks its class's contract once, or is wrong in another way.
HABITS = {
    "block": [
        ("LI r11 256", "LI r11 257"),
        ("BNE r10 r0 bad", "BEQ r10 r0 bad"),
        ("BNE r10 r0 bad", "BEQ r0 r0 bad"),
        ("OUT r9 0", "OUT r9 0\nOUT r9 0"),
        ("OUT r9 0", "OUT r9 8"),
        ("ST r8 r3 0", "ST r6 r3 0"),
        ("OUT r8 2", "OUT r6 2"),
        ("OUT r1 1", "OUT r6 1"),
    ],
    "net": [
        ("OUT r6 0\nRET r0", "OUT r6 0\nOUT r6 0\nRET r0"),
        ("OUT r6 0\nRET r0", "RET r0"),
        ("OUT r8 2", "OUT r6 2"),
        ("KCALL 6", "KCALL 8"),
        ("KCALL 6", "KCALL 6\nKCALL 6"),
        ("IN r8 4", "IN r8 3"),
    ],
    "sound": [
        ("OUT r8 0", "OUT r6 0"),
        ("OUT r8 0", "OUT r8 0\nOUT r8 0"),
        ("OUT r8 0", "OUT r8 10"),
        ("LI r6 1", "LI r6 2"),
    ],
}
HABITS_OF_ALL = [("OUT r2 8", "OUT r5 8"), ("OUT r2 9", "RET r0"), ("OUT r2 8", "OUT r2 11"), ("IN r6 8", "LI r6 3")]

# Lines of assembler at the edges of what is allowed.
EDGE_LINES = [f"{'n' * length}:" for length in [31, 32, 33]] + ["r15:", "r16:", "LI:", "li:", "_9:", "9_:", "one:", "a:b:"]
EDGE_LINES += ["LI r1 65535", "LI r1 65536", "LI r1 0xFfFf", "LI r1 0X1", "LI r15 000", "LI r16 0"]
EDGE_LINES += ["JMP one", "JMP n9", "FAULT 0", ".word 4294967295", ".word 4294967296", ".word 0x100000000", ".word one", ".word", ".entry init 2047"]
EDGE_LINES += [".entry init 2048", ".entry x 0", ".class block", ".data", ".text", ".Text", "", "; a comment", "two: FAULT"]

# The instructions in the order of their numbers, the last number, and the kinds of fault.
INSTRUCTIONS = tabling.instructions()
MNEMONICS = [row["name"] for row in INSTRUCTIONS]
LAST = INSTRUCTIONS[-1]["number"]
FAULT_KINDS = tabling.fault_kinds()

# Numbers at the edges of the ranges that the format and the machine have.
EDGES = [0, 1, 2, 3, 4, 7, 8, 11, 12, 13, 15, 16, 17, 31, 63, 64, 65, 127, 255, 256, 257, 2047, 2048, 2049, 4095, 4096]
EDGES += [4160, 5183, 5184, 5248, 7359, 7360, 7424, 8191, 8192, 65535, 65536, 4294967295]

# The most faults of a part and operations of a base, and the keys of a campaign that give it members.
MOST_FAULTS = 64
MOST_OPERATIONS = 64
STRIKES = ["faults", "members", "every"]

# Values that are wrong nearly everywhere. A text that begins with `raw:` is written without its quotes.
ODD_VALUES = [None, True, False, "", "block", "x" * 17, [], {}, [0], {"a": 1}, -1, 2**32, 2**64 - 1, 2**64]
ODD_VALUES += ["raw:-0", "raw:1.0", "raw:1e2", "raw:01", "raw:18446744073709551616", "raw:NaN", "raw:tru", "raw:"]


class Twin(str):
    """A key of which an object may have two."""

    __hash__ = object.__hash__

    def __eq__(self, other):
        return self is other


def text_of(name):
    """A driver's text of examples/, with no comments."""
    lines = (" ".join(line.split(";")[0].split()) for line in example(name + ".asm").decode().split("\n"))
    return "\n".join(line for line in lines if line) + "\n"


def edge(random, most):
    """A number from 0 to `most`, more often one near an edge."""
    near = [number for number in EDGES if number <= most]
    return random.choice(near) if random.random() < 0.7 else random.randint(0, most)


# ---- drivers


def number_in(random, line):
    """A line with one of its numbers replaced."""
    found = list(re.finditer(r"\b\d+\b", line))
    if not found:
        return line
    match = random.choice(found)
    return line[: match.start()] + str(edge(random, 65535)) + line[match.end() :]


def damaged_text(random, text):
    """A driver's text with one to three changes, each of which leaves it an assembler text more often than not."""
    lines = text.split("\n")
    code = next(k for k, line in enumerate(lines) if not line.startswith("."))
    for _ in range(random.randint(1, 3)):
        at = random.randrange(code, len(lines))
        change = random.randrange(6)
        if change == 0:
            lines[at] = number_in(random, lines[at])
        elif change == 5 and ":" not in lines[at]:
            lines.insert(at, lines[at])
        elif change == 1 and ":" not in lines[at]:
            lines[at] = drawn_statement(random)
        elif change == 2:
            lines.insert(at, drawn_statement(random))
        elif change == 3:
            other = random.randrange(code, len(lines))
            lines[at], lines[other] = lines[other], lines[at]
        elif ":" not in lines[at]:
            lines[at] = ""
    return "\n".join(lines)


@functools.cache
def named(operands, only=None, but=()):
    """The instructions with these operands, of one group, or of all groups but some."""
    rows = [row for row in INSTRUCTIONS if row["operands"] == operands and row["group"] not in but]
    return [row["name"] for row in rows if only in (None, row["group"])]


def drawn_statement(random):
    """A statement that an assembler takes."""
    a, b = (f"r{random.choice([0, 1, 2, 3, 5, 8, 14, 15])}" for _ in range(2))
    address = random.choice([0, 1, 8, 9, 64, 2048, 2112, 4096, 5184, 5248, 7360, 7424, 8191, 8192])
    first, *others = named("a imm", only="move")
    return random.choice(
        [
            f"{first} {a} {edge(random, 65535)}",
            f"LI r0 {random.choice([1, 255, 256, 257, 263, 264])}",
            f"OUT r6 {random.choice([0, 0, 1, 8])}",
            *(f"{other} {a} {edge(random, 65535)}" for other in others),
            f"{random.choice(named('a b'))} {a} {b}",
            *(f"{name} {a} {b} {edge(random, 65535)}" for name in named("a b imm", but=("memory", "jump"))),
            f"{random.choice(named('a b imm', only='memory'))} {a} {b} {address}",
            f"{random.choice(named('a b imm', only='jump'))} {a} {b} {random.randint(0, 60)}",
            f"{random.choice(named('a imm', but=('move',)))} {a} {random.choice([0, 1, 2, 3, 4, 5, 8, 9, 10, 11, 12])}",
            *(f"{name} {random.randint(0, 10)}" for name in named("imm", but=("jump",))),
            *(f"{name} {a}" for name in reversed(named("a"))),
            *(f"{name} {random.randint(0, 60)}" for name in named("imm", only="jump")),
            *named(""),
            f".word {random.choice([0, random.getrandbits(32), (LAST << 24) + 1, (LAST + 1) << 24])}",
        ]
    )


def registered(kind):
    """The first lines of a driver that registers itself; the label `work` of all its other entries comes next."""
    lines = [f".class {kind}"] + [f".entry {entry} {'init' if entry == 'init' else 'work'}" for entry in ENTRIES[kind]]
    return lines + [f"init: LI r1 {CLASSES.index(kind)}", "KCALL 3", "LI r1 0", "RET r1"]


def repeater(random, kind):
    """A driver that asks for the same again and again: memory, objects, frames that are handed up, or nothing."""
    hand_up = ["LI r1 2048", "LI r2 1", "KCALL 6"]
    call = random.choice([["LI r1 1", "KCALL 1"], ["KCALL 8"], hand_up, ["MOV r1 r7", "KCALL 4"]])
    times = random.choice([3, 12, 13, 22, 31, 32, 40])
    lines = registered(kind) + [f"work: LI r7 {times}", "LI r6 1", "more: LI r5 0"] + call
    return "\n".join(lines + ["SUB r7 r6", "BNE r7 r0 more", "RET r0", ""])


def kernel_caller(random, kind):
    """A driver that registers itself and then mostly calls the kernel and its device."""
    lines = registered(kind) + ["work: LI r6 1"]
    for _ in range(random.randint(1, 12)):
        first = random.choice([0, 1, 2, 7, 12, 13, 64, 100, 2048, 2112, 4096, 5184])
        service = random.choice([1, 1, 2, 2, 4, 4, 5, 5, 6, 7, 8])
        lines += random.choice(
            [
                [f"LI r1 {first}", f"LI r2 {random.choice([0, 1, 2, 64, 65])}", f"KCALL {service}"],
                ["LI r1 7", "KCALL 4", "LI r8 9", "ST r8 r1 1", "LI r1 7", "KCALL 5"],
                ["LI r1 5", "KCALL 1", "KCALL 2"],
                [drawn_statement(random)],
            ]
        )
    return "\n".join(lines + ["RET r0", ".data", f".word {edge(random, 4294967295)}", ""])


def drawn_image(random, kind):
    """An image of drawn words, most of them instructions."""
    def word():
        if random.random() < 0.1:
            return random.getrandbits(32)
        fields = random.getrandbits(8) << 16 | edge(random, 65535)
        return random.randint(1, LAST) << 24 | (fields if random.random() < 0.6 else fields & 0xF0FFFF)
    text = [0x01100000 + CLASSES.index(kind), 0x16000003, 0x01100000, 0x17100000]
    text += [word() for _ in range(random.randint(0, 40))]
    entries = {entry: 0 if entry == "init" else random.choice([4, 5, 8, 20, 2047]) for entry in ENTRIES[kind]}
    data = [random.getrandbits(32) for _ in range(random.choice([0, 0, 1, 5, 2048]))]
    as_digits = random.choice(["%08x", "%08X"])
    image = {"class": kind, "data": [as_digits % w for w in data], "entries": entries, "text": [as_digits % w for w in text]}
    return {"image": image}


def driver(random, kind):
    """A driver of a class: a sound one, a damaged one, or one of drawn words."""
    name = random.choice(SOUND_DRIVERS[kind])
    draw = random.random()
    if draw < 0.5:
        return {"asm": text_of(name)}
    if draw < 0.6:
        return {"image": json.loads(example(name + ".image"))}
    if draw < 0.7:
        return {"asm": damaged_text(random, text_of(name))}
    if draw < 0.82:
        return {"asm": text_of(name).replace(*random.choice(HABITS[kind] + HABITS_OF_ALL))}
    if draw < 0.9:
        return {"asm": kernel_caller(random, kind)}
    if draw < 0.95:
        return {"asm": repeater(random, kind)}
    return drawn_image(random, kind)


# ---- scenarios


def fault(random):
    """A fault of a part."""
    kind = random.choice(FAULT_KINDS[:1] + FAULT_KINDS)
    after = random.choice([0, 1, 2, random.randint(0, 30), random.randint(0, 200), edge(random, 4095)])
    given = {"burst": random.choice([random.randint(1, 12), random.randint(1, 40), 4294967295]), "after": after, "kind": kind["name"]}
    return given | {key: fault_number(random, kind["changes"], key, allowed["most"]) for key, allowed in kind["keys"].items()}


def fault_number(random, changes, key, most):
    """The number at a key that only some kinds of fault have, by what the kind changes."""
    if key == "value":
        return random.choice([edge(random, most), random.getrandbits(32), 0x18000000, 0x17000000])
    if key == "address":
        return random.choice([random.randint(0, 60), edge(random, most)]) if changes == "text" else edge(random, 8192)
    return random.randint(0, most)


def part(random, index, version):
    """A part with its driver, its faults and what its class has."""
    kind = random.choice(CLASSES)
    given = {"name": f"{random.choice(['d', 'part', '_0'])}{index}", "class": kind, "driver": driver(random, kind)}
    if random.random() < 0.8:
        given["limit"] = random.choice([0, 1, 1, 2, 2, 3, 5, 16])
    if random.random() < 0.7:
        given["faults"] = [fault(random) for _ in range(random.choice([0, 1, 1, 2, 3, 6, 12]))]
    if kind == "block":
        given["blocks"] = random.choice([1, 2, 8, 8, 16, 255, 256])
    if kind == "block" and version == 2 and random.random() < 0.7:
        most = random.choice([given["blocks"], min(given["blocks"], 8)])
        bad = random.randint(0, 6)
        given["bad"] = [{"block": random.randrange(most), "after": random.choice([0, 0, 1, 2, 5])} for _ in range(bad)]
    if kind == "net" and random.random() < 0.8:
        given["arrivals"] = [words(random, 1, 4) for _ in range(random.choice([0, 1, 2, 5, 18, 30, 90]))]
    return given


def words(random, least, most):
    """A list of words of a length in a range."""
    return [random.choice([random.randint(0, 99), edge(random, 4294967295)]) for _ in range(random.randint(least, most))]


def operation(random, parts):
    """An operation of one of the parts, now and then of another class or out of a range."""
    index = random.randrange(len(parts))
    kind = parts[index]["class"] if random.random() < 0.95 else random.choice(CLASSES)
    names = {"block": ["read", "write"] * 3, "net": ["send", "recv"] * 3, "sound": ["play"] * 5 + ["open", "close"]}
    name = random.choice(names[kind] + ["get", "set"])
    given = {"part": index, "op": name}
    first = random.choice([0, 1, 2, 5, 7, edge(random, 260)])
    if name == "read":
        given.update(first=first, count=random.choice([1, 1, 2, 3, 8, 9, 0]))
    if name == "write":
        size = random.choice([16, 16, 32, 48, 128, 0, 15, 144])
        given.update(first=first, data=words(random, size, size))
    if name == "send":
        given["frame"] = words(random, *random.choice([(1, 5), (1, 5), (64, 64), (0, 66)]))
    if name == "play":
        given["samples"] = words(random, *random.choice([(1, 5), (1, 9), (63, 64), (0, 66)]))
    if name in ["get", "set"]:
        given["key"] = random.choice([0, 1, 2, 3, 3, 4])
    if name == "set":
        given["value"] = random.choice([0, 1, 4, 8, 10, 11, 250, 1000, 48000, 4294967295])
    return given


def schedule(random, threads, parts):
    """A schedule of this number of threads and parts."""
    kind = random.choice(["round_robin", "drawn", "listed"])
    if kind == "drawn":
        return {"kind": kind, "start": random.choice([random.getrandbits(64), random.randint(0, 99), 2**64 - 1])}
    if kind == "listed":
        length = random.choice([0, 5, 40, 300])
        return {"kind": kind, "picks": [random.randint(0, threads + 2 * parts) for _ in range(length)]}
    return {"kind": kind}


def operations(random, parts, longest):
    """A thread's operations; more often than not it opens the streams before it comes to the rest."""
    opens = [{"part": index, "op": "open"} for index, given in enumerate(parts) if given["class"] == "sound"]
    rest = [operation(random, parts) for _ in range(random.randint(0, longest))]
    return opens + rest if random.random() < 0.6 else rest


def scenario(random):
    """A scenario that keeps the format."""
    version = random.choice([1, 2])
    parts = [part(random, index, version) for index in range(random.choice([1, 1, 1, 2, 2, 3, 4]))]
    count = random.choice([0, 1, 1, 2, 2, 3, 4, 16])
    longest = 4 if count == 16 else random.choice([3, 8, 20])
    threads = [{"name": f"t{t}", "ops": operations(random, parts, longest)} for t in range(count)]
    given = {"version": version, "parts": parts, "threads": threads}
    if random.random() < 0.7:
        given["schedule"] = schedule(random, count, len(parts))
    return given


def unreliable(random):
    """A scenario half of whose drivers have a habit that their class does not allow, and of which a part has now and then as
    many faults as it may have, or nearly."""
    given = scenario(random)
    for each in given["parts"]:
        if random.random() < 0.5:
            text = text_of(random.choice(SOUND_DRIVERS[each["class"]]))
            each["driver"] = {"asm": text.replace(*random.choice(HABITS[each["class"]] + HABITS_OF_ALL))}
        if random.random() < 0.06:
            fewer = random.choice([0, 1, 2, 3, 4, random.randint(0, 24)])
            each["faults"] = [fault(random) for _ in range(MOST_FAULTS - fewer)]
    return given


def base(random, given, is_long):
    """The scenario as the base of a campaign. Nearly always it gets no more operations than a base may have. If there
    are many runs, each part recovers at most once: a driver that hangs takes 4,096 instructions each time."""
    left = MOST_OPERATIONS if random.random() < 0.95 else 10**6
    for thread in given["threads"]:
        del thread["ops"][left:]
        left -= len(thread["ops"])
    for each in given["parts"] if is_long else []:
        each["limit"] = min(each.get("limit", 0), 1)
    return given


def strikes(random, key, count):
    """What strikes in a campaign with one of the three keys: faults, lists of faults, or faults at no instruction."""
    if key == "members":
        return [[fault(random) for _ in range(random.randint(1, 4))] for _ in range(count)]
    faults = [fault(random) for _ in range(count)]
    if key == "every":
        return [{name: value for name, value in each.items() if name not in ["burst", "after"]} for each in faults[:2]]
    return faults


def campaign(random, given, count):
    """A campaign over a scenario: what strikes one of its parts, and whether there is a guard and detail."""
    key = random.choice(STRIKES)
    asked = {"base": base(random, given, key == "every"), "part": random.randrange(len(given["parts"]))}
    asked[key] = strikes(random, key, count)
    return {**asked, **{key: random.random() < 0.7 for key in ["guard", "detail"] if random.random() < 0.7}}


def nearly_valid_campaign(random):
    """A campaign of few faults; now and then of none, with two keys that strike, with odd options, or of a part that is not
    there."""
    asked = campaign(random, random.choice([scenario, unreliable])(random), random.choice([1, 3, 3, 3, 10, 10, 40, 0]))
    if random.random() < 0.05:
        key = random.choice(STRIKES)
        asked[key] = strikes(random, key, 1)
    if random.random() < 0.05:
        asked["part"] += 1
    if random.random() < 0.05:
        asked["guard"], asked["detail"] = (random.choice([True, False, 0, 1, "true", None]) for _ in range(2))
    return asked


def disk(random, index, version):
    """A part that is a disk."""
    while True:
        given = part(random, index, version)
        if given["class"] == "block":
            return given


def pair(random):
    """A scenario of two disks with a thread that reads and writes the first; now and then one that no mirror serves."""
    parts = [disk(random, index, 2) for index in range(2)]
    if random.random() < 0.95:
        parts[1]["blocks"] = parts[0]["blocks"]
    for given in parts:
        blocks = [bad for bad in given.get("bad", []) if bad["block"] < given["blocks"]]
        given["bad"] = blocks
    ops = [op for op in (operation(random, parts[:1]) for _ in range(random.choice([3, 9, 24]))) if op["op"] in ["read", "write"]]
    if random.random() < 0.05:
        ops.append({"part": random.randrange(2), "op": "get", "key": 1})
    return {"version": 2, "parts": parts, "threads": [{"name": "t", "ops": ops}]}


def json_text(random, value):
    """A value as JSON, in one of several layouts."""
    layout = random.choice([{"separators": (",", ":")}, {}, {"indent": 1}])
    text = json.dumps(value, ensure_ascii=random.random() < 0.5, **layout)
    return re.sub(r'"raw:([^"]*)"', r"\1", text).encode("utf-8", "surrogatepass")


# ---- nearly valid JSON


def containers(value):
    """The lists and objects within a value, itself among them."""
    found = [value] if isinstance(value, (dict, list)) else []
    inner = value.values() if isinstance(value, dict) else value if isinstance(value, list) else []
    return found + [container for item in inner for container in containers(item)]


def nudged(random, value):
    """A value that is near another, or one that is odd."""
    if isinstance(value, int) and random.random() < 0.5:
        return random.choice([value + 1, value - 1, str(value), float(value), [value], edge(random, 4294967295)])
    if isinstance(value, str) and random.random() < 0.5:
        return random.choice([value.upper(), value[:-1], value + "\n", value + "\u00e9", value.encode().hex(), [value]])
    if isinstance(value, list) and value and random.random() < 0.5:
        return random.choice([value[:-1], value + value[-1:], value * 260, [value], value[0]])
    return random.choice(ODD_VALUES)


def change_object(random, thing):
    """Changes an object: a key less, a key more, a key twice, or another value."""
    key = random.choice(list(thing))
    change = random.randrange(5)
    if change == 0:
        del thing[key]
    elif change == 1:
        thing[random.choice(["x", "", "bad", "blocks", "arrivals", "limit", key + " "])] = random.choice(ODD_VALUES)
    elif change == 2:
        thing[Twin(key)] = random.choice([thing[key], nudged(random, thing[key])])
    elif change == 3:
        moved = thing.pop(key)
        thing[key] = moved
    else:
        thing[key] = nudged(random, thing[key])


def change_list(random, thing):
    """Changes a list: an item less, an item twice, or another value."""
    at = random.randrange(len(thing))
    change = random.randrange(3)
    if change == 0:
        del thing[at]
    elif change == 1:
        thing.insert(at, thing[at])
    else:
        thing[at] = nudged(random, thing[at])


def change_bytes(random, text):
    """A text with one or two changes of bytes."""
    for _ in range(random.randint(1, 2)):
        at = random.randrange(len(text) + 1)
        piece = random.choice([b"", b",", b'"', b"}", b"[", b"\\", b"\\u00e9", b"\xff", b"\x00", b"0", b"-", b" ", b"//"])
        gone = random.choice([0, 0, 1, 1, 2, 30])
        text = text[:at] + piece + text[at + gone :]
    front = text[: random.randrange(len(text) + 1)]
    return random.choice([text, text, text, front, text + b" ", text + b"0", b"\xef\xbb\xbf" + text])


def deep(random):
    """Lists or objects in each other, near the deepest that is read."""
    levels = random.choice([126, 127, 128, 129, 1000])
    front, back = random.choice([(b"[", b"]"), (b'{"a":', b"}")])
    return front * levels + b"0" + back * levels


def nearly_valid(random):
    """JSON that is a scenario but for a few changes, which may leave it one."""
    if random.random() < 0.02:
        return deep(random)
    return changed(random, scenario(random))


def changed(random, given):
    """A value as JSON, with a few changes."""
    for _ in range(random.choice([0, 1, 1, 1, 2])):
        thing = random.choice([thing for thing in containers(given) if thing])
        (change_object if isinstance(thing, dict) else change_list)(random, thing)
    text = json_text(random, given)
    return change_bytes(random, text) if random.random() < 0.3 else text


# ---- assembler texts


def odd_token(random):
    """A token that an assembler may accept, or not, at this position."""
    return random.choice(
        ["r0", "r15", "r16", "r01", "R1", "x", "_", "init", "a" * 32, "a" * 33, "0", "0x10", "0xFFFF", "0x10000", "0x", "007"]
        + ["65535", "65536", "4294967295", "4294967296", "2047", "2048", "-1", "1.5"]
        + [".word", ".text", ".data", ".class", "x:", ":", "x :", "init:", "li", "LI", "+", "\u00e9", "99999999999999999999999", ";", "'"]
    )


def change_line(random, line):
    """A line with one token more, less or changed, or with other blanks."""
    tokens = re.findall(r"[^ ,\t\r]+", line)
    at = random.randrange(len(tokens) + 1)
    change = random.randrange(5)
    if change == 0:
        tokens.insert(at, odd_token(random))
    elif change == 1 and tokens:
        tokens[at - 1] = odd_token(random)
    elif change == 2 and tokens:
        del tokens[at - 1]
    elif change == 3:
        tokens = [random.choice(MNEMONICS + [".word", ".entry"])] + tokens[1:]
    between = random.choice([" ", " ", ", ", "\t", "  ,", "\r"])
    return between.join(tokens) + random.choice(["", "", " ", "\r", " ; \u00e9", ";;"])


def assembler_text(random):
    """An assembler text with up to four changes of its lines, and now and then with as many words as there is room for."""
    kind = random.choice(CLASSES)
    text = random.choice([text_of(random.choice(SOUND_DRIVERS[kind])), kernel_caller(random, kind)])
    lines = text.split("\n")
    for _ in range(random.choice([0, 1, 1, 1, 2, 3])):
        at = random.randrange(len(lines))
        change = random.choice([0, 1, 1, 1, 2, 3, 3])
        if change == 0:
            lines.insert(at, drawn_statement(random))
        elif change == 1:
            lines.insert(at, random.choice(EDGE_LINES + [lines[at]]))
        elif change == 2:
            del lines[at:at + 1]
        else:
            lines[at] = change_line(random, lines[at])
    if random.random() < 0.03:
        lines += random.choice([["FAULT"], [".data"]]) + [".word 7"] * random.choice([2000, 2040, 2048, 2049])
    return "\n".join(lines), kind
