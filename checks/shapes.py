"""Reads facts from the sources: equations of a definition, variants of an enum, constants, and rows of a page's table. Each
reader raises UnknownShape, with the file and what it looked for, if the file is not of the shape that it knows.
"""

from __future__ import annotations

import ast
import functools
import re
from dataclasses import dataclass
from pathlib import Path

TOP = Path(__file__).resolve().parent.parent


class UnknownShape(Exception):
    """A source is not of the shape that is known here."""


@dataclass(frozen=True)
class Equation:
    """One equation of a definition: the arguments on its left side, and its right side, each on one line."""

    arguments: str
    body: str


@dataclass(frozen=True)
class Variant:
    """A variant of an enum, with what its doc comment says."""

    name: str
    about: str


@functools.cache
def text_of(file: str) -> str:
    """The text of a file, by its path from the top."""
    path = TOP / file
    if not path.is_file():
        raise UnknownShape(f"{file} is not there: checks/tables reads it")
    return path.read_text(encoding="utf-8")


def matched(pattern: str, text: str, file: str, about: str) -> re.Match[str]:
    """The first match of a pattern in a text; without one the file has another shape."""
    found = re.search(pattern, text)
    if not found:
        raise UnknownShape(f"{file}: {about} is not of the shape that checks/tables knows: {text[:100]!r}")
    return found


@functools.cache
def equations(file: str, name: str) -> tuple[Equation, ...]:
    """The equations of a definition, in their order."""
    lines = text_of(file).split("\n")
    heads = [index for index, line in enumerate(lines) if re.match(rf"(?:abbrev|unfoldable) pub {name} :", line)]
    if len(heads) != 1:
        raise UnknownShape(f"{file} defines {name} {len(heads)} times, and once is known to checks/tables")
    sides: list[list[str]] = []
    for line in lines[heads[0] + 1 :]:
        if not line or line.startswith(("-- ", "use ")):
            break
        if re.match(rf"{name}(?: |$)", line):
            sides.append([line[len(name) :].strip()])
        elif sides:
            sides[-1].append(line.strip())
    pairs = [" ".join(filter(None, side)).partition("= ") for side in sides]
    if not pairs or not all(equal for _, equal, _ in pairs):
        raise UnknownShape(f"{file}: {name} has no equations of the shape that checks/tables knows")
    return tuple(Equation(left.strip(), right) for left, _, right in pairs)


def body_of(file: str, name: str) -> str:
    """The right side of a definition that has one equation."""
    found = equations(file, name)
    if len(found) != 1:
        raise UnknownShape(f"{file}: {name} has {len(found)} equations, and one is known to checks/tables")
    return found[0].body


def last_name(text: str) -> str:
    """The variant that an argument names: `Li` of `mnemonic.Li`, `Read` of `(asks.Read first count)`."""
    return text.strip("()").split(" ")[0].rpartition(".")[2]


def by_variant(file: str, name: str) -> dict[str, str]:
    """The right sides of a definition by the variant that is its last argument but for those in small letters."""
    found: dict[str, str] = {}
    for equation in equations(file, name):
        named = re.findall(r"\b[A-Z]\w*", equation.arguments)
        if named:
            found[named[-1]] = equation.body
    return found


def variants(file: str, enum: str) -> list[Variant]:
    """The variants of an enum, in their order."""
    body = matched(rf"(?ms)^pub enum {enum} \{{\n(.*?)^\}}", text_of(file), file, f"the enum {enum}")[1]
    found: list[Variant] = []
    about: list[str] = []
    for line in body.split("\n"):
        if note := re.match(r"    /// (.*)", line):
            about.append(note[1])
        elif named := re.match(r"    ([A-Z]\w*)", line):
            found.append(Variant(named[1], " ".join(about)))
            about = []
    return found


def value_of(expression: str, known: dict[str, int], file: str) -> int:
    """The value of a sum or a product of numbers and constants."""

    def value(node: ast.expr) -> int:
        if isinstance(node, ast.Constant) and isinstance(node.value, int):
            return node.value
        if isinstance(node, ast.Name) and node.id in known:
            return known[node.id]
        if isinstance(node, ast.BinOp):
            left, right = value(node.left), value(node.right)
            kinds = {ast.Add: left + right, ast.Sub: left - right, ast.Mult: left * right}
            return left // right if isinstance(node.op, ast.Div) else kinds[type(node.op)]
        raise UnknownShape(f"{file}: checks/tables does not know the value of {expression!r}")

    plain = re.sub(r" as \w+", "", re.sub(r"\b(length )?(\w+)\.(\w+)", r"\3", expression))
    try:
        return value(ast.parse(plain.strip(), mode="eval").body)
    except (SyntaxError, KeyError) as error:
        raise UnknownShape(f"{file}: checks/tables does not know the value of {expression!r}") from error


def constants(file: str, known: dict[str, int] | None = None) -> dict[str, int]:
    """The constants of a file that are numbers, in their order; an expression may name earlier ones and those known."""
    found: dict[str, int] = {}
    for name, expression in re.findall(r"(?m)^pub const (\w+): (?:u8|u32|u64|usize) = ([^;]+);", text_of(file)):
        found[name] = value_of(expression, {**(known or {}), **found}, file)
    if not found:
        raise UnknownShape(f"{file} has no constants of the shape that checks/tables knows")
    return found


def rows(page: str, head: str) -> list[list[str]]:
    """The rows of the one table of a page whose head is this line, each by its cells."""
    lines = text_of(page).split("\n")
    heads = [index for index, line in enumerate(lines) if line == head]
    if len(heads) != 1:
        raise UnknownShape(f"{page} has {len(heads)} tables with the head {head!r}, and one is known to checks/tables")
    found: list[list[str]] = []
    for line in lines[heads[0] + 2 :]:
        if not line.startswith("|"):
            break
        found.append([cell.strip() for cell in line.strip("|").split("|")])
    return found


def snake(name: str) -> str:
    """The text form of a variant's name: `give_back` of `GiveBack`."""
    return re.sub(r"(?<!^)(?=[A-Z])", "_", name).lower()


def texts(body: str) -> list[str]:
    """The texts after `codes` in a right side."""
    return re.findall(r'codes "([^"]*)"', body)
