"""What is wrong with a line of an assembler text, in one sentence with a column.

The assembler reports the kind of error and the line (docs/ASSEMBLER.md). This module finds, from the text alone, which
token it is and which of the errors of that kind."""

from __future__ import annotations

import difflib
import re
from dataclasses import dataclass, field
from typing import Iterable

from .facts import ASM_FAULTS, CLASSES, INPUTS, MEMORY_MAP, MOST_WORD, OPERANDS, REGISTERS
from .words import either

# The operands of each instruction.
FORMS = OPERANDS

# The operands of each directive.
DIRECTIVES = {".class": "name", ".entry": "name imm", ".text": "", ".data": "", ".word": "imm"}

# The greatest number of an instruction, and of each directive that has one.
MOST_IMMEDIATE = 2**16 - 1
MOST_OF_DIRECTIVE = {".word": MOST_WORD, ".entry": INPUTS["image"]["entry"].ends[1]}

SORT_NAMES = {"a": "a register", "b": "a register", "imm": "a number or a label", "name": "a name"}

NAME = re.compile(r"[A-Za-z_][A-Za-z0-9_]{0,31}")
NUMBER = re.compile(r"[0-9]+|0x[0-9A-Fa-f]+")
REGISTER = re.compile("|".join(f"r{number}" for number in range(REGISTERS)))
RUN = re.compile(r"[^ \t\r,]+")


@dataclass(frozen=True)
class Token:
    """A run of bytes between spaces and commas, with its column from 1."""

    text: str
    column: int

    @property
    def is_name(self) -> bool:
        return bool(NAME.fullmatch(self.text))

    @property
    def is_register(self) -> bool:
        return bool(REGISTER.fullmatch(self.text))

    @property
    def is_number(self) -> bool:
        return bool(NUMBER.fullmatch(self.text))

    @property
    def defines(self) -> str | None:
        """The label that it defines, if it is a definition."""
        return self.text[:-1] if self.text.endswith(":") and NAME.fullmatch(self.text[:-1]) else None

    @property
    def is_token(self) -> bool:
        """Whether the assembler's language has such a run of bytes."""
        bare = self.text[1:] if self.text.startswith(".") else self.text
        return self.is_name or self.is_number or self.defines is not None or bool(NAME.fullmatch(bare))

    def is_a(self, sort: str) -> bool:
        """Whether it is an operand of a sort: `a`, `b`, `imm` or `name`."""
        if sort in ("a", "b"):
            return self.is_register
        if sort == "name":
            return self.is_name
        return self.is_number or (self.is_name and not self.is_register)


@dataclass(frozen=True)
class Line:
    """A line: an optional definition, an optional statement, and the statement's operands."""

    number: int
    tokens: tuple[Token, ...]
    definition: Token | None
    statement: Token | None
    operands: tuple[Token, ...]


def parse_line(number: int, text: str) -> Line:
    """Splits a line into its definition, its statement and the operands."""
    tokens = tuple(Token(found.group(), found.start() + 1) for found in RUN.finditer(text.split(";")[0]))
    definition = tokens[0] if tokens and tokens[0].defines is not None else None
    rest = tokens[1:] if definition else tokens
    return Line(number, tokens, definition, rest[0] if rest else None, rest[1:])


@dataclass(frozen=True)
class Problem:
    """What is wrong, and in which column."""

    column: int
    wrong: str


@dataclass
class Text:
    """An assembler text by its lines."""

    lines: list[Line]
    labels: dict[str, int] = field(default_factory=dict)

    @classmethod
    def of(cls, text: str) -> Text:
        parsed = cls([parse_line(number, line) for number, line in enumerate(text.split("\n"), 1)])
        for line in parsed.lines:
            if line.definition is not None and line.definition.defines is not None:
                parsed.labels.setdefault(line.definition.defines, line.number)
        return parsed

    def statements(self, name: str, before: int | None = None) -> list[Line]:
        """The lines with a directive; only those before a line if one is given."""
        found = [line for line in self.lines if line.statement is not None and line.statement.text == name]
        return [line for line in found if before is None or line.number < before]

    def kind(self, before: int | None = None) -> str | None:
        """The class that the text names, if it names one."""
        named = [line.operands[0].text for line in self.statements(".class", before) if line.operands]
        return next((name for name in named if name in CLASSES), None)

    def is_data(self, number: int) -> bool:
        """Whether a line is in the data section."""
        changes = [
            line for line in self.lines[: number - 1] if line.statement and line.statement.text in (".text", ".data")
        ]
        whole = [line for line in changes if not line.operands and line.statement]
        return bool(whole) and whole[-1].statement is not None and whole[-1].statement.text == ".data"


def nearest(name: str, known: Iterable[str]) -> str:
    """A hint with the known name that is most like this one; empty if none is."""
    names = list(known)
    same = [each for each in names if each.lower() == name.lower()]
    close = same or difflib.get_close_matches(name, names, 1, 0.6)
    return f" (did you mean {close[0]}?)" if close else ""


def bad_token(line: Line, _: Text) -> Problem | None:
    """A run of bytes that is not a token."""
    token = next((token for token in line.tokens if not token.is_token), None)
    if token is None:
        return None
    text = token.text
    hint = ""
    if NUMBER.fullmatch(text[1:]) and text[0] in "-+#$":
        hint = ": a number is digits alone" + (", and not negative" if text[0] == "-" else "")
    elif text.startswith(("//", "#", "--")):
        hint = ": a comment begins with ;"
    elif re.fullmatch(r"\.?[A-Za-z0-9_]+:?", text):
        long_name = len(text.strip(".:")) > 32
        hint = ": a name has at most 32 characters" if long_name else ": a name begins with a letter or _"
    return Problem(token.column, f"{text!r} is not a name, definition, directive or number{hint}")


def unknown_name(line: Line, text: Text) -> Problem | None:
    """A name that is not a mnemonic, a class or an entry of the class."""
    first = line.statement
    if first is None:
        return None
    if first.text == ".class" and line.operands:
        named = line.operands[0]
        return Problem(named.column, f"{named.text!r} is not a class: {either(CLASSES)}{nearest(named.text, CLASSES)}")
    if first.text == ".entry" and line.operands:
        named = line.operands[0]
        kind = text.kind(line.number)
        entries = ", ".join(CLASSES[kind].entries) if kind else ""
        return Problem(named.column, f"{named.text!r} is not an entry of class {kind}: {entries}")
    if first.text.upper() in FORMS:
        about = f"{first.text!r} is not a mnemonic: mnemonics are upper case, {first.text.upper()}"
        return Problem(first.column, about)
    if "." + first.text.lower() in DIRECTIVES:
        return Problem(
            first.column, f"{first.text!r} is not a mnemonic (did you mean the directive .{first.text.lower()}?)"
        )
    if first.text.endswith(":") or not first.is_name:
        return None
    return Problem(first.column, f"{first.text!r} is not a mnemonic{nearest(first.text, FORMS)}")


def operand_sorts(form: str) -> str:
    """The operands that a form takes, in words."""
    sorts = [SORT_NAMES[each] for each in form.split()]
    if form.startswith("a b"):
        sorts[:2] = ["two registers"]
    return " and ".join(filter(None, [", ".join(sorts[:-1]), sorts[-1]])) if sorts else "no operand"


def wrong_operand(line: Line, first: Token, form: str) -> Problem | None:
    """The first operand that is not of the sort that the statement takes."""
    sorts = form.split()
    takes = f"{first.text} takes {operand_sorts(form)}"
    for token, sort in zip(line.operands, sorts):
        if not token.is_a(sort):
            named = "the register " if token.is_register else ""
            return Problem(token.column, f"expected {SORT_NAMES[sort]}, found {named}{token.text!r}; {takes}")
    if len(line.operands) < len(sorts):
        return Problem(first.column, f"too few operands; {takes}")
    if len(line.operands) > len(sorts):
        extra = line.operands[len(sorts)]
        return Problem(extra.column, f"one operand too many, {extra.text!r}; {takes}")
    return None


def wrong_operands(line: Line, text: Text) -> Problem | None:
    """Operands that a statement does not take, or a statement that is not allowed on this line."""
    if line.definition is not None and REGISTER.fullmatch(line.definition.text[:-1]):
        return Problem(line.definition.column, f"{line.definition.text[:-1]!r} is a register and cannot be a label")
    first = line.statement
    if first is None:
        return None
    if first.text in DIRECTIVES:
        if first.text == ".entry" and text.kind(line.number) is None:
            return Problem(first.column, ".entry before .class: the class must come first")
        return wrong_operand(line, first, DIRECTIVES[first.text])
    if first.text.startswith("."):
        names = ", ".join(DIRECTIVES)
        return Problem(first.column, f"{first.text!r} is not a directive: {names}{nearest(first.text, DIRECTIVES)}")
    if first.text in FORMS:
        if text.is_data(line.number):
            return Problem(first.column, "an instruction in the data section: .text must come first")
        return wrong_operand(line, first, FORMS[first.text])
    found = "a second label" if first.defines is not None else f"{first.text!r}"
    return Problem(first.column, f"expected a mnemonic or a directive, found {found}")


def number_range(line: Line, _: Text) -> Problem | None:
    """A number that is too large for its operand."""
    if line.statement is None:
        return None
    most = MOST_OF_DIRECTIVE.get(line.statement.text, MOST_IMMEDIATE)
    for token in line.operands:
        if token.is_number and int(token.text, 0 if token.text.startswith("0x") else 10) > most:
            return Problem(token.column, f"{token.text} is too large: {line.statement.text} takes at most {most}")
    for token in line.operands[-1:]:
        return Problem(token.column, f"the label {token.text!r} is too far: {line.statement.text} takes at most {most}")
    return None


def second_definition(line: Line, text: Text) -> Problem | None:
    """A label, a class or an entry that is defined already."""
    name = line.definition.defines if line.definition else None
    if line.definition and name is not None and text.labels[name] < line.number:
        first = text.labels[name]
        return Problem(line.definition.column, f"the label {name!r} is defined twice, first on line {first}")
    if line.statement is None:
        return None
    earlier = text.statements(line.statement.text, line.number)
    if line.statement.text == ".class" and earlier:
        return Problem(line.statement.column, f"the class is given twice, first on line {earlier[0].number}")
    same = [each for each in earlier if each.operands[:1] and each.operands[0].text == line.operands[0].text]
    if line.statement.text == ".entry" and same:
        about = f"the entry {line.operands[0].text!r} is given twice, first on line {same[0].number}"
        return Problem(line.statement.column, about)
    return None


def missing_label(line: Line, text: Text) -> Problem | None:
    """A label that no line defines."""
    used = line.operands[1:] if line.statement and line.statement.text == ".entry" else line.operands
    for token in used:
        if token.is_a("imm") and token.is_name and token.text not in text.labels:
            return Problem(token.column, f"undefined label {token.text!r}{nearest(token.text, text.labels)}")
    return None


def text_too_long(line: Line, _: Text) -> Problem | None:
    return Problem(first_column(line), f"one word of text too many: a driver has at most {MEMORY_MAP['TEXT_WORDS']}")


def data_too_long(line: Line, _: Text) -> Problem | None:
    return Problem(first_column(line), f"one initial word too many: a driver has at most {MEMORY_MAP['DATA_WORDS']}")


def missing_entry(_: Line, text: Text) -> Problem | None:
    """The text has no class, or not all of its entries."""
    kind = text.kind()
    if kind is None:
        return Problem(1, f"the text ends without a class: .class {either(CLASSES)}")
    given = {line.operands[0].text for line in text.statements(".entry") if line.operands}
    missing = [name for name in CLASSES[kind].entries if name not in given]
    if not missing:
        return None
    entries = "entry" if len(missing) == 1 else "entries"
    return Problem(1, f"the text ends without the {entries} {', '.join(missing)} of class {kind}")


def first_column(line: Line) -> int:
    return line.tokens[0].column if line.tokens else 1


# For each kind of error by name: the function that finds it, and the text if it finds nothing.
FINDERS = {
    "bad_token": (bad_token, "not a token"),
    "unknown_name": (unknown_name, "an unknown name"),
    "wrong_operands": (wrong_operands, "wrong operands"),
    "number_range": (number_range, "a number out of its range"),
    "double_label": (second_definition, "a second definition"),
    "missing_label": (missing_label, "an undefined label"),
    "text_too_long": (text_too_long, "too many words of text"),
    "data_too_long": (data_too_long, "too many initial words"),
    "missing_entry": (missing_entry, "an entry is missing"),
}

# The same by number.
KINDS = {number: FINDERS[name] for number, name in ASM_FAULTS.items()}


def asm_fault(kind: int | None, number: int, source: str) -> Problem:
    """What is wrong on a line of a text, given the assembler's kind of error."""
    text = Text.of(source)
    line = text.lines[number - 1] if 1 <= number <= len(text.lines) else Line(number, (), None, None, ())
    find, general = KINDS.get(kind or 0, (None, "a fault of the assembler text"))
    found = find(line, text) if find else None
    return found or Problem(first_column(line), general)


def named_class(source: str) -> str | None:
    """The class that an assembler text names."""
    return Text.of(source).kind()
