"""The schema of scenarios as people write them, made from that of the scenarios that the program reads."""

from __future__ import annotations

import json
import os
from typing import Any

from described import TOP

from nooks_bench.build import MOST_REPEATED
from nooks_bench.jsontext import json_text

SCHEMAS = os.path.join(TOP, "workbench/nooks_bench/schemas")

ABOUT = """What a schema cannot say docs/WORKBENCH.md and docs/SCENARIO.md do; `nooks-bench build` checks it. This file
is generated: packaging/generate written.schema.json"""


def repeated(item: Any) -> dict[str, Any]:
    """An item of a list, or a repetition of one."""
    times = {"type": "integer", "minimum": 0, "maximum": MOST_REPEATED}
    return {
        "if": {"type": "object", "required": ["repeat"]},
        "then": {
            "properties": {"repeat": times, "of": item},
            "required": ["repeat", "of"],
            "additionalProperties": False,
        },
        "else": item,
    }


def written(schema: Any) -> Any:
    """A schema that also allows what `build` removes: notes in objects, and repetitions in lists."""
    if isinstance(schema, list):
        return [written(each) for each in schema]
    if not isinstance(schema, dict):
        return schema
    made = {key: written(each) for key, each in schema.items()}
    if made.get("additionalProperties") is False:
        made["properties"] = {"notes": True, **made["properties"]}
    if "items" in made:
        made["items"] = repeated(made["items"])
    return made


def driver_of(driver: dict[str, Any]) -> dict[str, Any]:
    """A driver: its name in the table, or an object, whose text may be in a file."""
    asm_file = {"type": "string", "description": "the path of an assembler text, from this file's folder on"}
    inner = {key: each for key, each in driver.items() if key not in ("type", "minProperties", "maxProperties")}
    inner["properties"] = {**inner["properties"], "asm_file": asm_file}
    about = "the text of a driver, its file, its image, or its name in the table of drivers"
    return {"if": {"type": "object"}, "then": inner, "else": {"type": "string"}, "description": about}


def written_schema() -> str:
    with open(os.path.join(SCHEMAS, "scenario.schema.json"), encoding="utf-8") as file:
        read = json.load(file)
    made = written(read)
    made["title"] = "A scenario of nooks as people write it"
    made["$comment"] = " ".join(ABOUT.split())
    table = {"type": "object", "additionalProperties": {"$ref": "#/$defs/driver"}, "description": "drivers by name"}
    made["properties"]["drivers"] = table
    made["$defs"]["driver"] = driver_of(made["$defs"]["driver"])
    return json_text(made) + "\n"
