"""A validator for the part of JSON Schema 2020-12 that the schemas of the package use."""

from __future__ import annotations

import re
from typing import Any

from common import schema_file

KNOWN = {
    "$schema", "$id", "$defs", "$ref", "$comment", "title", "description", "type", "const", "enum", "minimum", "maximum",
    "minItems", "maxItems", "items", "properties", "required", "additionalProperties", "minProperties", "maxProperties",
    "allOf", "pattern", "if", "then", "else",
}
TYPES = {"object": dict, "array": list, "string": str, "boolean": bool}


def is_type(value: Any, name: str) -> bool:
    if name == "integer":
        return isinstance(value, int) and not isinstance(value, bool)
    return isinstance(value, TYPES[name])


def of_object(schema: dict[str, Any], value: dict[str, Any], file: str) -> bool:
    properties = schema.get("properties", {})
    if any(key not in value for key in schema.get("required", [])):
        return False
    if not schema.get("minProperties", 0) <= len(value) <= schema.get("maxProperties", len(value)):
        return False
    others = schema.get("additionalProperties", True)
    return all(valid(properties.get(key, others), each, file) for key, each in value.items())


def of_list(schema: dict[str, Any], value: list[Any], file: str) -> bool:
    if not schema.get("minItems", 0) <= len(value) <= schema.get("maxItems", len(value)):
        return False
    return all(valid(schema.get("items", True), each, file) for each in value)


def same(value: Any, other: Any) -> bool:
    """Whether two values are equal as JSON, in which true is not 1."""
    return value == other and isinstance(value, bool) == isinstance(other, bool)


def plain(schema: dict[str, Any], value: Any) -> bool:
    """Whether a value satisfies the keywords that need only the value itself."""
    if "type" in schema and not is_type(value, schema["type"]):
        return False
    if "const" in schema and not same(value, schema["const"]):
        return False
    if "enum" in schema and not any(same(value, each) for each in schema["enum"]):
        return False
    if "pattern" in schema and isinstance(value, str) and not re.search(schema["pattern"], value):
        return False
    if isinstance(value, int) and not schema.get("minimum", value) <= value <= schema.get("maximum", value):
        return False
    return True


def referred(reference: str, file: str) -> tuple[dict[str, Any], str]:
    """The schema that a reference in a file names, and the file of that schema."""
    named, _, pointer = reference.partition("#")
    found = schema_file(named or file)
    for step in pointer.split("/")[1:]:
        found = found[step]
    return found, named or file


def valid(schema: Any, value: Any, file: str) -> bool:
    """Whether a value satisfies a schema, which is in a file of the package."""
    if isinstance(schema, bool):
        return schema
    assert set(schema) <= KNOWN, set(schema) - KNOWN
    if "$ref" in schema and not valid(referred(schema["$ref"], file)[0], value, referred(schema["$ref"], file)[1]):
        return False
    if not all(valid(each, value, file) for each in schema.get("allOf", [])):
        return False
    if "if" in schema and not valid(schema.get("then" if valid(schema["if"], value, file) else "else", True), value, file):
        return False
    if isinstance(value, dict) and not of_object(schema, value, file):
        return False
    if isinstance(value, list) and not of_list(schema, value, file):
        return False
    return plain(schema, value)
