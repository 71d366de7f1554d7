"""JSON as people write it: comments, trailing commas, and the position of each value."""

from __future__ import annotations

import codecs
import json
import re
from dataclasses import dataclass, field
from typing import Any, Iterator

from .program import Mistake

# How deep lists and objects may be nested, so that a bad file ends in a mistake with a position.
DEEPEST = 200

BLANK = re.compile(r"(?:[ \t\r\n]+|//[^\n]*)*")
NUMBER = re.compile(r"-?(?:0|[1-9][0-9]*)(?:\.[0-9]+)?(?:[eE][+-]?[0-9]+)?")
STRING = re.compile(r'"(?:[^"\\\x00-\x1f]|\\.)*"')
WORDS = {"true": True, "false": False, "null": None}


@dataclass(frozen=True)
class Position:
    """A position in a file: lines and columns count from 1."""

    file: str
    line: int
    column: int

    def __str__(self) -> str:
        return f"{self.file}:{self.line}:{self.column}"


class Misplaced(Mistake):
    """A mistake at a position of a file."""

    def __init__(self, position: Position, text: str) -> None:
        super().__init__(f"{position}: {text}")
        self.position = position


@dataclass
class Node:
    """A value with its position: `value` is a dict of nodes, a list of nodes, or a plain value. `keys` has the
    positions of a dict's keys. `origin` is a file of lines from which a text was taken. `size` is the number of bytes
    of a whole input."""

    value: Any
    position: Position
    keys: dict[str, Position] = field(default_factory=dict)
    origin: str | None = None
    size: int | None = None

    def plain(self) -> Any:
        """Returns the value without positions."""
        if isinstance(self.value, dict):
            return {key: node.plain() for key, node in self.value.items()}
        if isinstance(self.value, list):
            return [node.plain() for node in self.value]
        return self.value

    def get(self, key: str) -> Node | None:
        """Returns the node under a key, None if this is not an object that has it."""
        found: Node | None = self.value.get(key) if isinstance(self.value, dict) else None
        return found


def steps_of(path: str) -> list[str]:
    """Splits a path as the program prints it, such as `/parts/0/blocks`; `/` has no steps."""
    return [step for step in path.split("/") if step]


def deepest(node: Node, path: str) -> tuple[Node, list[str]]:
    """Returns the deepest value on a path, and the steps that do not exist."""
    steps = steps_of(path)
    for done, step in enumerate(steps):
        if isinstance(node.value, dict) and step in node.value:
            node = node.value[step]
        elif isinstance(node.value, list) and step.isdigit() and int(step) < len(node.value):
            node = node.value[int(step)]
        else:
            return node, steps[done:]
    return node, []


class Reader:
    """Reads one text from its beginning to its end."""

    def __init__(self, text: str, file: str) -> None:
        self.text = text
        self.file = file
        self.at = 0
        self.starts = [0] + [offset + 1 for offset, letter in enumerate(text) if letter == "\n"]

    def position(self, at: int | None = None) -> Position:
        """Returns the position of an offset, or of the next letter to read."""
        at = self.at if at is None else at
        low, high = 0, len(self.starts)
        while high - low > 1:
            middle = (low + high) // 2
            low, high = (middle, high) if self.starts[middle] <= at else (low, middle)
        return Position(self.file, low + 1, at - self.starts[low] + 1)

    def fail(self, text: str) -> Misplaced:
        return Misplaced(self.position(), text)

    def skip(self) -> None:
        found = BLANK.match(self.text, self.at)
        self.at = found.end() if found else self.at

    def peek(self) -> str:
        self.skip()
        return self.text[self.at : self.at + 1]

    def take(self, letter: str, where: str) -> None:
        if self.peek() != letter:
            found = repr(self.text[self.at]) if self.at < len(self.text) else "the end of the file"
            raise self.fail(f"expected {letter!r} {where}, found {found}")
        self.at += 1

    def whole(self) -> Node:
        node = self.node(0)
        if self.peek():
            raise self.fail("unexpected text after the value")
        node.size = len(self.text.encode())
        return node

    def node(self, depth: int) -> Node:
        first = self.peek()
        if depth > DEEPEST:
            raise self.fail("lists and objects are nested too deep")
        if first == "{":
            return self.object(depth)
        if first == "[":
            return self.list(depth)
        position = self.position()
        if first == '"':
            return Node(self.string(), position)
        for word, value in WORDS.items():
            if self.text.startswith(word, self.at):
                self.at += len(word)
                return Node(value, position)
        return Node(self.number(), position)

    def number(self) -> int | float:
        found = NUMBER.match(self.text, self.at)
        if not found:
            raise self.fail("expected a value")
        self.at = found.end()
        number: int | float = json.loads(found.group())
        return number

    def string(self) -> str:
        found = STRING.match(self.text, self.at)
        if not found:
            raise self.fail("this text does not end on its line")
        try:
            value = str(json.loads(found.group()))
        except ValueError as error:
            raise self.fail(f"this text is not well-formed: {error}") from error
        self.at = found.end()
        return value

    def items(self, closing: str, where: str) -> Iterator[None]:
        """Yields at each item of a list or an object. A comma may follow the last one."""
        self.at += 1
        while self.peek() != closing:
            yield
            if self.peek() == closing:
                break
            self.take(",", where)
        self.at += 1

    def list(self, depth: int) -> Node:
        position = self.position()
        found: list[Node] = []
        for _ in self.items("]", "between the items of the list"):
            found.append(self.node(depth + 1))
        return Node(found, position)

    def object(self, depth: int) -> Node:
        position = self.position()
        found: dict[str, Node] = {}
        keys: dict[str, Position] = {}
        for _ in self.items("}", "between the keys of the object"):
            key_position = self.position()
            if self.peek() != '"':
                raise self.fail("expected a key in double quotes")
            key = self.string()
            if key in found:
                raise Misplaced(key_position, f"duplicate key {key!r}")
            self.take(":", "after a key")
            found[key] = self.node(depth + 1)
            keys[key] = key_position
        return Node(found, position, keys)


SAVE = "save it as UTF-8 without a byte order mark"

# Byte order marks, and what editors call the encoding. That of UTF-32 comes first, since it begins with that of UTF-16.
MARKS = (
    (codecs.BOM_UTF8, "begins with a byte order mark"),
    (codecs.BOM_UTF32_LE, "is UTF-32"),
    (codecs.BOM_UTF32_BE, "is UTF-32"),
    (codecs.BOM_UTF16_LE, "is UTF-16"),
    (codecs.BOM_UTF16_BE, "is UTF-16"),
)


def decoded(data: bytes, file: str) -> str:
    """Decodes a text. If an editor saved it in another encoding than UTF-8 or with a byte order mark, this is a
    mistake."""
    for mark, about in MARKS:
        if data.startswith(mark):
            raise Misplaced(Position(file, 1, 1), f"the file {about}: {SAVE}")
    try:
        return data.decode()
    except UnicodeDecodeError as error:
        before = data[: error.start]
        line, column = before.count(b"\n") + 1, len(before) - before.rfind(b"\n")
        raise Misplaced(Position(file, line, column), f"byte {error.start} is not UTF-8: {SAVE}") from error


def read_text(file: str) -> str:
    """Returns the text of a file; `-` is standard input."""
    try:
        with open(0 if file == "-" else file, "rb", closefd=file != "-") as opened:
            data = opened.read()
    except OSError as error:
        raise Mistake(f"{file}: {error.strerror}") from error
    return decoded(data, file)


def read_source(file: str, text: str | None = None) -> Node:
    """Returns the value of a file, with positions."""
    return Reader(read_text(file) if text is None else text, file).whole()
