"""The editors' files for driver texts, made from the tables of the sources: vim's syntax and VS Code's grammar."""

from __future__ import annotations

import json

import described  # noqa: F401  (it puts the workbench on the path)

from nooks_bench.facts import CLASSES, JUMP, KERNEL, MEMORY, MNEMONICS, MOVE, PORT, REGISTERS, SUM


def named(*groups: str) -> tuple[str, ...]:
    """The instructions of some groups."""
    return tuple(name for name, mnemonic in MNEMONICS.items() if mnemonic.group in groups)


# Instructions as an editor colours them.
MOVES, SUMS, JUMPS, OUTSIDE = named(MOVE, MEMORY), named(SUM), named(JUMP), named(PORT, KERNEL)

VIM = r"""" Vim syntax for the assembler of nooks (docs/ASSEMBLER.md). This file is generated: checks/tables
if exists("b:current_syntax")
  finish
endif

syntax case match

syntax match nooksasmComment /;.*$/

" A definition is a name and a colon with nothing between.
syntax match nooksasmLabel /\<[A-Za-z_][A-Za-z0-9_]\{0,31}:/

syntax match nooksasmDirective /\.\(class\|entry\|text\|data\|word\)\>/
syntax keyword nooksasmClass CLASSES

syntax keyword nooksasmMove MOVES
syntax keyword nooksasmSum SUMS
syntax keyword nooksasmJump JUMPS
syntax keyword nooksasmOutside OUTSIDE

syntax match nooksasmRegister /\<r\(REGISTERS\)\>/
syntax match nooksasmNumber /\<[0-9]\+\>/
syntax match nooksasmNumber /\<0x[0-9A-Fa-f]\+\>/

highlight default link nooksasmComment Comment
highlight default link nooksasmLabel Label
highlight default link nooksasmDirective PreProc
highlight default link nooksasmClass Type
highlight default link nooksasmMove Statement
highlight default link nooksasmSum Operator
highlight default link nooksasmJump Conditional
highlight default link nooksasmOutside Special
highlight default link nooksasmRegister Identifier
highlight default link nooksasmNumber Number

let b:current_syntax = "nooksasm"
"""


def registers(bar: str) -> str:
    """A pattern for the numbers of the registers, `[0-9]|1[0-5]`, with the editor's syntax for the bar."""
    return bar.join(["[0-9]", f"1[0-{REGISTERS - 11}]"])


def vim_syntax() -> str:
    """The text of vim's syntax file."""
    lists = {"CLASSES": tuple(CLASSES), "MOVES": MOVES, "SUMS": SUMS, "JUMPS": JUMPS, "OUTSIDE": OUTSIDE}
    text = VIM.replace("REGISTERS", registers("\\|"))
    for name, words in lists.items():
        text = text.replace(f" {name}\n", f" {' '.join(words)}\n")
    return text


def grammar() -> str:
    """The text of VS Code's grammar."""
    rules = [
        ("comment.line.semicolon", ";.*$"),
        ("entity.name.function.label", "(?<![A-Za-z0-9_.])[A-Za-z_][A-Za-z0-9_]{0,31}:"),
        ("keyword.control.directive", r"\.(class|entry|text|data|word)\b"),
        ("storage.type.class", word_of(tuple(CLASSES))),
        ("keyword.operator", word_of(SUMS)),
        ("keyword.control.jump", word_of(JUMPS)),
        ("keyword.other.move", word_of(MOVES)),
        ("support.function.outside", word_of(OUTSIDE)),
        ("variable.language.register", rf"\br({registers('|')})\b"),
        ("constant.numeric", r"\b(0x[0-9A-Fa-f]+|[0-9]+)\b"),
    ]
    lines = [f"    {json.dumps({'name': f'{name}.nooksasm', 'match': match})}" for name, match in rules]
    about = "This file is generated: checks/tables"
    head = {"name": "nooks assembler", "scopeName": "source.nooksasm", "$comment": about}
    named = ",\n".join(f"  {json.dumps(key)}: {json.dumps(value)}" for key, value in head.items())
    return "{\n" + named + ',\n  "patterns": [\n' + ",\n".join(lines) + "\n  ]\n}\n"


def word_of(names: tuple[str, ...]) -> str:
    """A pattern for a whole word that is one of these names."""
    return rf"\b({'|'.join(names)})\b"
