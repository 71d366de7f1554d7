"""Explains a refused input: what is wrong, at which position in a file, and what is allowed there."""

from __future__ import annotations

import difflib
import json
import re
from dataclasses import dataclass
from typing import Any, Sequence

from .asm_faults import asm_fault, named_class
from .facts import LIMITS
from .program import Mistake
from .schema import AnySchema, allowed, allowed_at, known_keys, of_key, schemas_at, unknown_keys
from .source import Node, Position, deepest

LINE = re.compile(r"fault (\d+) (\w+)(?: (\d+) line (\d+))? (/\S*)")

# The most bytes of an input that the program reads, and the most operations of a campaign's base.
MOST_BYTES = LIMITS["INPUT_BYTES"]
MOST_MEMBER_OPS = LIMITS["MOST_CAMPAIGN_OPS"]
MOST_THREADS = LIMITS["MOST_THREADS"]
MOST_FAULTS = LIMITS["MOST_FAULTS"]


@dataclass(frozen=True)
class FaultLine:
    """`fault NUMBER NAME PATH`; for an assembler text also the number of its error and the line in it."""

    number: int
    name: str
    path: str
    asm_kind: int | None = None
    asm_line: int | None = None


def parse_fault(line: str) -> FaultLine:
    """Parses a line that begins with `fault`."""
    found = LINE.fullmatch(line.strip())
    if not found:
        raise Mistake(f"no line of a refused input: {line.strip()!r}")
    number, name, kind, at, path = found.groups()
    return FaultLine(int(number), name, path, int(kind) if kind else None, int(at) if at else None)


@dataclass(frozen=True)
class Explained:
    """An input error at its position: what is wrong there, and what is allowed."""

    position: Position
    wrong: str
    allowed: str

    @property
    def about(self) -> str:
        """The message without the position."""
        return self.wrong + (f"; expected {self.allowed}" if self.allowed else "")

    def __str__(self) -> str:
        return f"{self.position}: {self.about}"


@dataclass(frozen=True)
class Refused:
    """An input error, with the input that has it."""

    fault: FaultLine
    whole: Node

    @property
    def path(self) -> str:
        return self.fault.path

    @property
    def value(self) -> Any:
        """The whole input as a plain value."""
        return self.whole.plain()

    @property
    def scenario(self) -> dict[str, Any]:
        """The scenario, or the base of a campaign; empty if there is none."""
        value = self.value
        found = value.get("base", value) if isinstance(value, dict) else {}
        return found if isinstance(found, dict) else {}

    @property
    def is_campaign(self) -> bool:
        return isinstance(self.whole.value, dict) and "base" in self.whole.value

    @property
    def node(self) -> Node:
        """The deepest value on the path that exists."""
        return deepest(self.whole, self.path)[0]

    @property
    def schemas(self) -> list[AnySchema]:
        """The schemas of the value at the path."""
        return schemas_at(self.path, self.value)

    def above(self, steps: int) -> Any:
        """Returns the plain value some steps above the end of the path."""
        outer = self.path.split("/")[:-steps]
        return deepest(self.whole, "/".join(outer) or "/")[0].plain()

    def explained(self, wrong: str, about: str | None = None, position: Position | None = None) -> Explained:
        """Returns the explanation: what is wrong, after the path, with what is allowed there."""
        name = f"{self.path}: " if self.path != "/" else ""
        allows = allowed(self.schemas) if about is None else about
        return Explained(position or self.node.position, name + wrong, allows)

    @property
    def shown(self) -> str:
        """The value at the path, shortened if it is long."""
        found = json.dumps(self.node.plain(), ensure_ascii=False)
        return found if len(found) <= 40 else found[:37] + "..."


def explain_asm(fault: FaultLine, node: Node) -> Explained:
    """Explains an error in an assembler text, at its line of the file if the text comes from one."""
    text = str(node.value)
    at = fault.asm_line or 1
    said = asm_fault(fault.asm_kind, at, text)
    lines = text.split("\n")
    quoted = f": {lines[at - 1].strip()!r}" if at <= len(lines) and lines[at - 1].strip() else ""
    if node.origin:
        return Explained(Position(node.origin, at, said.column), said.wrong + quoted, "")
    where = f"line {at}, column {said.column} of this assembler text"
    return Explained(node.position, f"{where}: {said.wrong}{quoted}", "")


def close_to(name: str, known: list[str]) -> str:
    """Returns a hint if a known name is spelled almost like this one."""
    close = difflib.get_close_matches(name, known, 1, 0.6)
    return f" (did you mean {json.dumps(close[0])}?)" if close else ""


def kind_of_object(path: str, value: Any) -> str:
    """Names what an object is, from the key that decides which keys it has."""
    of_kind = "a schedule of kind {}" if path.endswith("/schedule") else "a fault of kind {}"
    for key, text in (("class", "a part of class {}"), ("kind", of_kind), ("op", "the operation {}")):
        if isinstance(value, dict) and isinstance(value.get(key), str):
            return text.format(value[key])
    return "this object"


# The keys of a campaign of which it has exactly one, and those that the first programs with campaigns did not have.
STRIKING = ("faults", "members", "every")
NEWER_KEYS = ("members", "every", "guard", "detail")


def quoted_keys(keys: Sequence[str]) -> str:
    return ", ".join(map(json.dumps, keys))


def campaign_key(refused: Refused) -> Explained:
    """Explains a key that the schema has: a second one that says what strikes, or one that the program is too old
    for."""
    named = refused.path[1:]
    if named in STRIKING:
        about = f"a campaign has one of {quoted_keys(STRIKING)}, and this one has more"
        return Explained(refused.whole.keys.get(named, refused.whole.position), about, "")
    newer = [key for key in NEWER_KEYS if refused.path == "/" and key in refused.node.value]
    if not newer:
        return refused.explained("unknown key")
    about = f"the program is too old for {quoted_keys(newer)} in a campaign"
    wrong = f"{about}; the program that ./nooks-plain builds has it"
    return refused.explained(wrong, "", refused.node.keys.get(newer[0]))


def unknown_key(refused: Refused) -> Explained:
    """Explains a key that is not allowed there: because of the version, the class or the kind, or because nothing has
    it."""
    node = refused.node
    if isinstance(node.value, dict) and {"asm", "image"} <= set(node.value):
        positions = (node.keys.get(key, node.position) for key in ("asm", "image"))
        second = max(positions, key=lambda at: (at.line, at.column))
        return refused.explained('a driver has either "asm" or "image", and this one has both', "", second)
    unknown = unknown_keys(refused.path, refused.value)
    if refused.is_campaign and refused.path.count("/") == 1:
        unknown = [key for key in unknown if key not in STRIKING]
    if not unknown and refused.is_campaign:
        return campaign_key(refused)
    if not unknown:
        return refused.explained("unknown key")
    position = node.keys.get(unknown[0], node.position)
    if unknown == ["bad"] and refused.scenario.get("version") == 1:
        about = '"bad" needs version 2, and this scenario has version 1: write "version": 2'
        return refused.explained(about, "", position)
    hint = close_to(unknown[0], known_keys(refused.schemas))
    keys = "unknown key" if len(unknown) == 1 else "unknown keys"
    of_object = kind_of_object(refused.path, node.plain())
    return refused.explained(f"{keys} {quoted_keys(unknown)} of {of_object}{hint}", None, position)


def missing_key(refused: Refused) -> Explained:
    """Explains a required key that is missing."""
    node, missing = deepest(refused.whole, refused.path)
    above = refused.path.split("/")[:-1]
    if missing == ["image"] and above[-1:] == ["driver"]:
        return Explained(node.position, 'a driver has either "asm" or "image", and this one has neither', "")
    if refused.is_campaign and refused.path == "/faults":
        return Explained(node.position, f"a campaign has one of {quoted_keys(STRIKING)}, and this one has none", "")
    about = allowed_at(refused.path, refused.value)
    named = missing[0] if missing else refused.path
    return Explained(node.position, f"missing key {json.dumps(named)}", about)


def wrong_kind(refused: Refused) -> Explained:
    """Explains a value of the wrong kind, or a text that is none of the names or no name at all."""
    value = refused.node.plain()
    if isinstance(value, str) and of_key(refused.schemas, "enum"):
        names = [each for each in of_key(refused.schemas, "enum") if isinstance(each, str)]
        return refused.explained(f"unknown name {refused.shown}{close_to(value, names)}")
    if isinstance(value, str) and of_key(refused.schemas, "pattern"):
        return refused.explained(f"{refused.shown} is not a valid name")
    return refused.explained(f"wrong kind of value: {refused.shown}")


def index_range(count: int, of: str) -> str:
    """Names the indices of a list of this length."""
    listed = "0" if count == 1 else f"0 to {count - 1}"
    return f"{listed}, since there {'is' if count == 1 else 'are'} {count} {of}{'' if count == 1 else 's'}"


def number_range(refused: Refused) -> Explained:
    """Explains a number out of its range, which may depend on another value; or a list with too few items."""
    value = refused.node.plain()
    if isinstance(value, list):
        return refused.explained(f"the list is too short: {len(value)} items")
    steps = refused.path.split("/")
    about = None
    parts = refused.scenario.get("parts")
    if steps[-1] == "part" and isinstance(parts, list) and parts:
        about = index_range(len(parts), "part")
    if steps[-1] == "block" and "bad" in steps:
        about = index_range(refused.above(3)["blocks"], "block")
    return refused.explained(f"{refused.shown} is out of range", about)


def too_many(refused: Refused) -> Explained:
    """Explains an input with too many bytes, or a list that is too long."""
    if refused.path == "/":
        size = f"{refused.whole.size:,} bytes" if refused.whole.size is not None else "too many bytes"
        return Explained(refused.whole.position, f"the input has {size}; at most {MOST_BYTES:,} are read", "")
    value = refused.node.plain()
    steps = refused.path.split("/")[1:]
    # If the list itself is not too long, the limit is that of a campaign's base.
    if steps[-1:] == ["threads"] and isinstance(value, list) and len(value) <= MOST_THREADS:
        count = sum(len(thread.get("ops", [])) for thread in value)
        return refused.explained(
            f"the threads have {count} operations together; a campaign's base has at most {MOST_MEMBER_OPS}", ""
        )
    if "parts" in steps and steps[-1] == "faults" and isinstance(value, list) and len(value) <= MOST_FAULTS:
        return no_room(refused, len(value))
    return refused.explained(f"the list is too long: {len(value):,} items")


def no_room(refused: Refused, own: int) -> Explained:
    """Explains faults of a part that are too many only together with those of a member and the traps of a guard."""
    asked, part = refused.value, refused.above(1)
    counts = [f"its own {own}"]
    if refused.is_campaign and str(asked["part"]) == refused.path.split("/")[-2]:
        counts.append(f"{max(map(len, asked.get('members', [[None]])))} of a member")
    if asked.get("guard", not refused.is_campaign):
        counts.append(f"up to {part.get('limit', 0) + 1} traps of a guard")
    return refused.explained(f"a part has at most {MOST_FAULTS} faults, and this one has {', '.join(counts)}", "")


def bad_image(refused: Refused) -> Explained:
    """Explains a driver of another class than its part, or a word of an image that is not a word."""
    driver = refused.node.plain()
    if not isinstance(driver, dict):
        return refused.explained(f"{refused.shown} is not a word of an image")
    part = refused.above(1)
    own = driver["image"].get("class") if isinstance(driver.get("image"), dict) else named_class(str(driver.get("asm")))
    kind = part.get("class") if isinstance(part, dict) else None
    return refused.explained(f"the driver is of class {own}, the part of class {kind}", "")


def bad_class(refused: Refused) -> Explained:
    """Explains a text that is not a class."""
    names = [each for each in of_key(refused.schemas, "enum") or [] if isinstance(each, str)]
    return refused.explained(f"{refused.shown} is not a class{close_to(str(refused.node.value), names)}")


def double_name(refused: Refused) -> Explained:
    """Explains a name that is already used."""
    kind = "thread" if "threads" in refused.path.split("/") else "part"
    return refused.explained(f"duplicate name {refused.shown}: an earlier {kind} has it", "")


def not_json(refused: Refused) -> Explained:
    """Explains what the workbench's own reader accepts and the program does not."""
    about = "the program reads exact JSON: no comment, no comma after a last item, no deeper nesting than 127"
    return refused.explained(about, "")


FINDERS = {
    "not_json": not_json,
    "unknown_key": unknown_key,
    "missing_key": missing_key,
    "wrong_kind": wrong_kind,
    "number_range": number_range,
    "too_many": too_many,
    "bad_image": bad_image,
    "bad_class": bad_class,
    "double_name": double_name,
}


def explain_fault(fault: FaultLine, whole: Node) -> Explained:
    """Explains an input error of a scenario, a campaign or an image. `whole` is its value with positions."""
    refused = Refused(fault, whole)
    if fault.name == "bad_asm":
        return explain_asm(fault, refused.node)
    if fault.name not in FINDERS:
        return refused.explained(f"{fault.name}: {refused.shown}")
    return FINDERS[fault.name](refused)
