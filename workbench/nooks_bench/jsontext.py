"""JSON as the workbench writes it: lists of plain values on one line, the rest indented."""

from __future__ import annotations

import json
from typing import Any

WIDE = 100


def json_text(value: Any, indent: int = 0) -> str:
    """Formats a value as JSON. It is on one line if it fits there, or if it is a list of plain values."""
    flat = json.dumps(value, ensure_ascii=False)
    is_plain = not isinstance(value, (dict, list)) or (
        isinstance(value, list) and not any(isinstance(item, (dict, list)) for item in value)
    )
    if is_plain or not value or len(flat) + indent <= WIDE:
        return flat
    pad = " " * (indent + 2)
    if isinstance(value, dict):
        named = [(json.dumps(key, ensure_ascii=False), item) for key, item in value.items()]
        lines = [f"{pad}{key}: {json_text(item, indent + 2)}" for key, item in named]
        return "{\n" + ",\n".join(lines) + "\n" + " " * indent + "}"
    lines = [pad + json_text(item, indent + 2) for item in value]
    return "[\n" + ",\n".join(lines) + "\n" + " " * indent + "]"
