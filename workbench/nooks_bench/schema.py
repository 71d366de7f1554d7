"""What a scenario or a campaign may have at a path, according to the schemas.

Of JSON Schema this supports what the two schemas use: references, `allOf`, and if/then/else over keys that are present
or have one value."""

from __future__ import annotations

import functools
import json
from importlib import resources
from typing import Any, Sequence, Union

from .source import steps_of

Schema = dict[str, Any]
# A schema, or false: nothing is allowed there.
AnySchema = Union[Schema, bool]

SCENARIO = "scenario.schema.json"
CAMPAIGN = "campaign.schema.json"


@functools.cache
def schema_file(name: str) -> Schema:
    """Reads a schema of the package, once."""
    text = resources.files(__package__).joinpath("schemas", name).read_text(encoding="utf-8")
    read: Schema = json.loads(text)
    return read


def scenario_schema() -> Schema:
    return schema_file(SCENARIO)


def campaign_schema() -> Schema:
    return schema_file(CAMPAIGN)


def referred(reference: str) -> Schema:
    """Returns the schema that a reference names: `#/$defs/NAME` of the scenario's schema, or a file and such a fragment
    of it."""
    file, _, fragment = reference.partition("#")
    found: Schema = schema_file(file or SCENARIO)
    for step in steps_of(fragment):
        found = found[step]
    return found


def holds(condition: Schema, value: Any) -> bool:
    """Returns whether the condition of an if/then holds for a value: keys are present, or have one value each."""
    if not isinstance(value, dict):
        return False
    has_keys = all(key in value for key in condition.get("required", []))
    constants = condition.get("properties", {}).items()
    return has_keys and all(key in value and value[key] == each["const"] for key, each in constants)


def applying(schema: AnySchema, value: Any) -> list[AnySchema]:
    """Returns the schemas that a value must all meet: this one, what it refers to, and each `then` whose `if` holds, or
    its `else`."""
    if isinstance(schema, bool):
        return [schema]
    found: list[AnySchema] = [schema]
    if "$ref" in schema:
        found += applying(referred(schema["$ref"]), value)
    for each in schema.get("allOf", []):
        found += applying(each, value)
    if "if" in schema:
        found += applying(schema.get("then" if holds(schema["if"], value) else "else", True), value)
    return found


def inner(value: Any, step: str) -> Any:
    """Returns the value at a step of a path, None if there is none."""
    if isinstance(value, dict):
        return value.get(step)
    if isinstance(value, list) and step.isdigit() and int(step) < len(value):
        return value[int(step)]
    return None


def below(schema: AnySchema, value: Any, step: str) -> AnySchema | None:
    """Returns the schema of the value at a step, None if this schema has none."""
    if isinstance(schema, bool):
        return None
    found: AnySchema | None = schema.get("items") if isinstance(value, list) else schema.get("properties", {}).get(step)
    return found


def root_schema(value: Any) -> Schema:
    """Returns the schema of a whole input: a campaign has a base, an image has entries."""
    if isinstance(value, dict) and "base" in value:
        return campaign_schema()
    return referred("#/$defs/image") if isinstance(value, dict) and "entries" in value else scenario_schema()


def schemas_at(path: str, value: Any) -> list[AnySchema]:
    """Returns the schemas that the value at a path must all meet, none if the path leaves the schema."""
    found = applying(root_schema(value), value)
    for step in steps_of(path):
        lower = [below(each, value, step) for each in found]
        value = inner(value, step)
        found = [kind for each in lower if each is not None for kind in applying(each, value)]
    return found


def of_key(schemas: Sequence[AnySchema], key: str) -> Any:
    """Returns the first value that the schemas give to a keyword."""
    return next((each[key] for each in schemas if isinstance(each, dict) and key in each), None)


def known_keys(schemas: Sequence[AnySchema]) -> list[str]:
    """Returns the keys that an object may have if it must meet all of the schemas."""
    tables = [each["properties"] for each in schemas if isinstance(each, dict) and "properties" in each]
    closed = [
        each["properties"] for each in schemas if isinstance(each, dict) and each.get("additionalProperties") is False
    ]
    names = dict.fromkeys(key for table in closed or tables for key in table)
    return [key for key in names if not any(table.get(key) is False for table in tables)]


def needed_keys(schemas: Sequence[AnySchema]) -> list[str]:
    """Returns the keys that an object needs to meet all of the schemas."""
    lists = [each["required"] for each in schemas if isinstance(each, dict) and "required" in each]
    return list(dict.fromkeys(key for each in lists for key in each))


def counted(least: int, most: int | None) -> str:
    """Describes how many items a list may have."""
    return f"{least} to {most}" if least else f"up to {most}"


def allowed_keys(schemas: Sequence[AnySchema]) -> str:
    """Describes the keys of an object."""
    known = known_keys(schemas)
    if of_key(schemas, "maxProperties") == 1:
        return "an object with either " + " or ".join(known)
    needed = [key for key in known if key in needed_keys(schemas)]
    free = [key for key in known if key not in needed]
    return f"an object with {', '.join(needed)}" + (f" and optionally {', '.join(free)}" if free else "")


def allowed(schemas: Sequence[AnySchema]) -> str:
    """Describes what all of the schemas allow, empty if they say nothing about it."""
    about = of_key(schemas, "description")
    note = f": {about}" if about else ""
    constant, names, kind = (of_key(schemas, key) for key in ("const", "enum", "type"))
    if constant is not None:
        return json.dumps(constant)
    if names is not None:
        return " or ".join(json.dumps(each) for each in names)
    if kind == "integer":
        least, most = of_key(schemas, "minimum"), of_key(schemas, "maximum")
        return f"a whole number from {least} to {most}, in digits alone{note}"
    if kind == "array":
        return f"a list of {counted(of_key(schemas, 'minItems') or 0, of_key(schemas, 'maxItems'))} items{note}"
    if kind == "object":
        return allowed_keys(schemas)
    if kind == "boolean":
        return f"true or false{note}"
    return f"a text{note}" if kind == "string" else ""


def allowed_at(path: str, value: Any) -> str:
    """Describes what is allowed at a path of a scenario or a campaign, empty if the schema does not say."""
    return allowed(schemas_at(path, value))


def unknown_keys(path: str, value: Any) -> list[str]:
    """Returns the keys of the object at a path that its schema does not have."""
    known = known_keys(schemas_at(path, value))
    for step in steps_of(path):
        value = inner(value, step)
    return [key for key in value if key not in known] if isinstance(value, dict) else []
