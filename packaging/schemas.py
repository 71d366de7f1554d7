"""The schemas of scenarios and campaigns, made from the tables of the sources. Their descriptions are written here."""

from __future__ import annotations

from typing import Any

import described  # noqa: F401  (it puts the workbench on the path)

from nooks_bench.facts import CLASSES, FAULT_KINDS, INPUTS, LIMITS, MOST_WORD, OPERATIONS, SCHEDULES
from nooks_bench.facts import Allowed, DriverClass, Keys
from nooks_bench.jsontext import json_text

Schema = dict[str, Any]

DRAFT = "https://json-schema.org/draft/2020-12/schema"
GENERATED = "This file is generated: checks/tables"
ABOUT_SCENARIO = "What a schema cannot say docs/SCENARIO.md does: that names differ, the class of an assembler text, " \
    f"indices below the number of parts. Numbers are digits alone. {GENERATED}"
ABOUT_CAMPAIGN = "What a schema cannot say docs/CAMPAIGN.md does: that the part is one of the base, which has at " \
    f"most {LIMITS['MOST_FAULTS']} faults with those of a member and the guard's traps, and that the base has at " \
    f"most {LIMITS['MOST_CAMPAIGN_OPS']} operations. {GENERATED}"

# The descriptions of values, by the kind of object and the key. Ranges come from the tables.
NOTES = {
    ("part", "limit"): "the failures after which the part is not recovered any more; 0 if it is left out",
    ("part", "blocks"): f"the blocks of the disk, {LIMITS['BLOCK_WORDS']} words each",
    ("part", "bad"): "version 2 only: the bad blocks",
    ("part", "arrivals"): "the frames that come from the wire, in order",
    ("bad", "block"): "below the part's blocks",
    ("bad", "after"): "the commands on that block that still succeed",
    ("image", "data"): "the initial words of the data area",
    ("fault", "burst"): "the burst that it strikes, counted from 1 over the whole run of the part",
    ("fault", "after"): "the instructions of that burst that come before it",
    ("operation", "part"): "an index below the number of parts",
    ("campaign", "part"): "the part that is struck: an index below the number of the base's parts",
    ("campaign", "faults"): "one for each member",
    ("campaign", "members"): "the faults of each member",
    ("campaign", "every"): "a member for each, before each instruction of the struck part",
    ("campaign", "guard"): "whether each run is the guarded one; false if it is left out",
    ("campaign", "detail"): "whether rows have more words; false if it is left out",
}

# The schemas of the items of lists.
ITEMS = {
    ("scenario", "parts"): "part",
    ("scenario", "threads"): "thread",
    ("part", "bad"): "bad",
    ("part", "faults"): "fault",
    ("thread", "ops"): "operation",
    ("image", "data"): "image_word",
    ("image", "text"): "image_word",
    ("campaign", "faults"): "scenario.schema.json#/$defs/fault",
    ("campaign", "members"): "scenario.schema.json#/$defs/fault",
    ("campaign", "every"): "scenario.schema.json#/$defs/everywhere",
}

# The keys of a campaign of which exactly one is present. If none is, the last is reported as missing.
STRIKING = ("every", "members", "faults")

# The keys of parts whose schemas are definitions, since all classes share them.
SHARED = ("limit", "faults")


def ref(name: str) -> Schema:
    """A reference to a definition of the same file, or of another file if the name has a `#`."""
    return {"$ref": name if "#" in name else f"#/$defs/{name}"}


def whole(least: int, most: int) -> Schema:
    return {"type": "integer", "minimum": least, "maximum": most}


def many(ends: tuple[int, int], items: Schema) -> Schema:
    """A list whose number of items is in a range."""
    least, most = ends
    return {"type": "array", **({"minItems": least} if least else {}), "maxItems": most, "items": items}


def of_value(allowed: Allowed, items: str = "") -> Schema:
    """The schema of a value: a number, true or false, or a list."""
    if allowed == OPERATIONS["write"]["data"]:
        return ref("words")
    if allowed.items is not None:
        inner = of_value(allowed.each, items) if allowed.each else ref(items)
        return many(allowed.items, inner)
    if allowed.truth:
        return {"type": "boolean"}
    return ref("word") if allowed.ends == (0, MOST_WORD) else whole(*allowed.ends)


def noted(kind: str, key: str) -> Schema:
    """The schema of the value at a key of a kind of object, with its description."""
    made = of_value(INPUTS[kind][key], ITEMS.get((kind, key), ""))
    about = NOTES.get((kind, key))
    if about and "$ref" in made:
        made = whole(*INPUTS[kind][key].ends)
    return {**made, **({"description": about} if about else {})}


def closed(properties: Schema, optional: tuple[str, ...] = ()) -> Schema:
    """An object with only these keys, of which some may be left out."""
    required = [key for key in properties if key not in optional]
    return {"properties": properties, "required": required, "additionalProperties": False}


def only_one(keys: tuple[str, ...]) -> Schema:
    """An object with exactly one of some keys. For `oneOf`, an editor would only report that no schema matches."""
    first, *others = keys
    if not others:
        return {"required": [first]}
    other = {"properties": {key: False for key in others}}
    return {"if": {"required": [first]}, "then": other, "else": only_one(tuple(others))}


def chosen(key: str, names: list[str], schemas: list[str]) -> Schema:
    """An object whose schema depends on the name at one of its keys."""
    cases = [
        {"if": {"properties": {key: {"const": name}}, "required": [key]}, "then": ref(schema)}
        for name, schema in zip(names, schemas, strict=True)
    ]
    return {"type": "object", "properties": {key: {"enum": names}}, "required": [key], "allOf": cases}


def by_name(key: str, table: dict[str, Keys], before: Schema, ending: str = "") -> dict[str, Schema]:
    """A schema for each name of a table: the common keys, and those of this name."""
    return {
        f"{name}{ending}": closed({**before, key: True, **{each: of_value(keys[each]) for each in keys}})
        for name, keys in table.items()
    }


def part_schema(kind: DriverClass) -> Schema:
    """A part of a class: the common keys, and between them the keys that not every class has."""
    of_all = [key for key in kind.keys if all(key in each.keys for each in CLASSES.values())]
    own = {key: noted("part", key) for key in kind.keys if key not in of_all}
    driver = {**ref("driver"), "properties": {"image": {"properties": {"class": {"const": kind.name}}}}}
    after = {"limit": ref("limit"), "driver": driver, "faults": ref("faults")}
    properties = {"name": ref("name"), "class": True, **own, **after}
    if set(properties) != set(kind.keys):
        raise ValueError(f"a part of class {kind.name} has keys that this schema does not know: {kind.keys}")
    return closed(properties, tuple(key for key, allowed in INPUTS["part"].items() if allowed.optional))


def entries_schema(kind: DriverClass) -> Schema:
    return closed({name: ref("entry") for name in kind.entries})


def image_schema() -> Schema:
    """An image, whose entries depend on its class."""
    names = list(CLASSES)
    cases = chosen("class", names, [f"{name}_entries" for name in names])["allOf"]
    for case in cases:
        case["then"] = {"properties": {"entries": case["then"]}}
    properties = {"class": {"enum": names}, "data": noted("image", "data"), "entries": {"type": "object"},
                  "text": noted("image", "text")}
    return {"type": "object", **closed(properties), "allOf": cases}


def driver_schema() -> Schema:
    """A driver: its text or its image."""
    text = {"type": "string", "description": "an assembler text of the part's class"}
    return {
        "type": "object",
        "description": "either the text of a driver or its image",
        "properties": {"asm": text, "image": ref("image")},
        "minProperties": 1,
        "maxProperties": 1,
        "additionalProperties": False,
    }


def simple_schemas() -> dict[str, Schema]:
    """Words, and names."""
    longest = LIMITS["MOST_NAME_BYTES"]
    return {
        "word": whole(0, MOST_WORD),
        "words": many(OPERATIONS["write"]["data"].length, ref("word")),
        "name": {
            "type": "string",
            "pattern": f"^[a-z0-9_]{{1,{longest}}}$",
            "description": f"1 to {longest} of a to z, 0 to 9 and _; no earlier one has it",
        },
        "image_word": {
            "type": "string",
            "pattern": "^[0-9a-fA-F]{8}$",
            "description": "exactly eight hexadecimal digits",
        },
    }


def part_schemas() -> dict[str, Schema]:
    """Parts, drivers and images."""
    names = list(CLASSES)
    bad = {"type": "object", **closed({key: noted("bad", key) for key in INPUTS["bad"]})}
    return {
        "part": chosen("class", names, [f"{name}_part" for name in names]),
        **{key: noted("part", key) for key in SHARED},
        **{f"{name}_part": part_schema(kind) for name, kind in CLASSES.items()},
        "bad": bad,
        "driver": driver_schema(),
        "image": image_schema(),
        "entry": whole(*INPUTS["image"]["entry"].ends),
        **{f"{name}_entries": entries_schema(kind) for name, kind in CLASSES.items()},
    }


def fault_schemas() -> dict[str, Schema]:
    """Faults, and those that strike everywhere."""
    times = ("burst", "after")
    return {
        "fault": chosen("kind", list(FAULT_KINDS), [f"{name}_fault" for name in FAULT_KINDS]),
        **{key: noted("fault", key) for key in times},
        **by_name("kind", FAULT_KINDS, {key: ref(key) for key in times}, "_fault"),
        "everywhere": chosen("kind", list(FAULT_KINDS), [f"{name}_everywhere" for name in FAULT_KINDS]),
        **by_name("kind", FAULT_KINDS, {}, "_everywhere"),
    }


def work_schemas() -> dict[str, Schema]:
    """Schedules, threads and operations."""
    names = list(OPERATIONS)
    thread = closed({"name": ref("name"), "ops": noted("thread", "ops")})
    return {
        "schedule": chosen("kind", list(SCHEDULES), list(SCHEDULES)),
        **by_name("kind", SCHEDULES, {}),
        "thread": {"type": "object", **thread},
        "operation": chosen("op", names, names),
        "place": noted("operation", "part"),
        **by_name("op", OPERATIONS, {"part": ref("place")}),
    }


def scenario_schema() -> Schema:
    """The schema of a scenario as the program reads it."""
    least, most = INPUTS["scenario"]["version"].ends
    later = {key for kind in CLASSES.values() for key in kind.keys_of_version_2}
    properties = {"version": {"enum": list(range(least, most + 1))}, "schedule": ref("schedule"),
                  "parts": noted("scenario", "parts"), "threads": noted("scenario", "threads")}
    return {
        "$schema": DRAFT,
        "title": "A scenario of nooks",
        "$comment": ABOUT_SCENARIO,
        "type": "object",
        **closed(properties, ("schedule",)),
        "if": {"properties": {"version": {"const": least}}, "required": ["version"]},
        "then": {"properties": {"parts": {"items": {"properties": {key: False for key in sorted(later)}}}}},
        "$defs": {**simple_schemas(), **part_schemas(), **fault_schemas(), **work_schemas()},
    }


def campaign_schema() -> Schema:
    """The schema of a campaign."""
    keys = INPUTS["campaign"]
    base = {"$ref": "scenario.schema.json"}
    properties = {key: base if key == "base" else noted("campaign", key) for key in keys}
    optional = tuple(key for key, allowed in keys.items() if allowed.optional or key in STRIKING)
    head = {"$schema": DRAFT, "title": "A campaign of nooks", "$comment": ABOUT_CAMPAIGN, "type": "object"}
    return {**head, **closed(properties, optional), **only_one(STRIKING)}


def scenario_text() -> str:
    return json_text(scenario_schema()) + "\n"


def campaign_text() -> str:
    return json_text(campaign_schema()) + "\n"
