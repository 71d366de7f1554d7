"""Finds functions with more than six parameters, and clauses with a line of more than 100 columns, in the code of crates.

checks/pages uses this module. `python3 -B checks/clauses.py` prints what it finds.
"""

from __future__ import annotations

import re
import sys
from collections.abc import Iterator

from layers import CRATES, marks

MOST_PARAMETERS = 6
MOST_COLUMNS = 100

# Functions that have more parameters, with the reason.
FIXED = {
    "nooks/src/program.rt: run": "the program's one call, which has all that it may use",
    "app_threads/src/workers.rt: run_workers": "a public call whose parameters are what it needs of each kind",
}

COMMENT = re.compile(r"//[^\n]*")
FUNCTION = re.compile(r"\bfn (\w+)")
CLAUSE = re.compile(r"\s*(?:requires|ensures|ghost)\b")


def parameters(text: str, start: int) -> int:
    """The number of parameters of the function whose name ends at an index of a text without comments."""
    angles = depth = count = 0
    is_open = has_more = False
    for index in range(start, len(text)):
        sign = text[index]
        if not is_open:
            angles += (sign == "<") - (sign == ">" and text[index - 1] != "-")
            is_open = sign == "(" and angles == 0
        elif sign == ")" and depth == 0:
            return count + has_more
        else:
            depth += (sign in "([{<") - (sign in ")]}" or sign == ">" and text[index - 1] not in "-=")
            if sign == "," and depth == 0:
                count, has_more = count + 1, False
            elif not sign.isspace():
                has_more = True
    return count


def long_lists(name: str, text: str) -> Iterator[str]:
    """The functions of a file with too many parameters."""
    plain = COMMENT.sub("", text)
    for match in FUNCTION.finditer(plain):
        count = parameters(plain, match.end())
        if count > MOST_PARAMETERS and f"{name}: {match[1]}" not in FIXED:
            yield f"{name}: {match[1]} has {count} parameters"


def long_lines(name: str, text: str) -> Iterator[str]:
    """The lines of a file's clauses with too many columns."""
    depth = 0
    for number, line in enumerate(text.splitlines(), 1):
        if depth or CLAUSE.match(line) and not line.lstrip().startswith("ghost use"):
            depth += line.count("{") - line.count("}")
            if len(line) > MOST_COLUMNS:
                yield f"{name}:{number}: a clause's line has {len(line)} columns"


def findings() -> list[str]:
    """All that is found; the lines of worked cases are not looked at."""
    found: list[str] = []
    for crate, mark in marks().items():
        for path in sorted((CRATES / crate / "src").rglob("*.rt")):
            name, text = str(path.relative_to(CRATES)), path.read_text(encoding="utf-8")
            found += long_lists(name, text)
            found += long_lines(name, text) if mark != "cases" else []
    return found


if __name__ == "__main__":
    lines = findings()
    print("\n".join([*lines, f"{len(lines)} found"]))
    sys.exit(bool(lines))
