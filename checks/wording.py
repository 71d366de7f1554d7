"""Finds the words that docs/GLOSSARY.md retires, in pages and in the comments, docstrings and names of code.

checks/pages uses this module. `python3 -B checks/wording.py [PATH..]` prints what it finds in files or folders and the
counts, by default in those of CODE.

Texts in backticks and in quotation marks are not looked at: they quote the program, a format or a name. Names are those
that Python code defines, and all identifiers of the crates' languages, C and JavaScript, split at underscores, primes
and capitals. Of a must-fail edit its `old:` and `new:` lines are looked at.
"""

from __future__ import annotations

import ast
import bisect
import functools
import io
import os
import re
import sys
import tokenize
from collections.abc import Iterable, Iterator
from fnmatch import fnmatch
from typing import NamedTuple

from running import TOP

# Retired words as regular expressions, with what plain pages and comments say instead.
RETIRED = {
    r"want of memory|memory (?:is|was|were) wanting": "runs out of memory",
    r"tell(?:s|ing)?|told": "reports, prints, returns, says, shows",
    r"behind": "after",
    r"where (?:not|none|there)": "if, when",
    r"side by side|beside (?:each other|one another)": "concurrently",
    r"beside": "next to, in addition to",
    r"anew": "again",
    r"stand(?:s|ing)?|stood": "is, has, occurs",
    r"fronts?": "prefix",
    r"place[sd]?": "index, number, address, position",
    r"of (?:its|their|his) own": "its own",
    r"so many": "as many as",
    r"want(?:s|ed|ing)?": "needs",
    r"parted": "split",
    r"whoever": "anyone who",
    r"mend(?:s|ed|ing)?": "fix",
    r"go(?:es)? on": "continues",
    r"forms? of words": "subcommand",
    r"in hand|at hand": "has, holds, is available",
    r"for good": "permanently",
    r"in (?:its|their|his) stead": "instead",
    r"cuts?": "interrupts, is interrupted",
}

# Those that no name may have as a word. `front` and `cut` are words of formats, and so are not among them.
RETIRED_IN_NAMES = {
    r"told|tells?|telling": "reported, reads, counts",
    r"behind": "after",
    r"beside": "next_to",
    r"anew": "again",
    r"stands?|standing|stood": "holds, represents",
    r"places?|placed": "index, number, address, position",
    r"want|wants|wanted|wanting": "expected, needed",
    r"parted": "split",
    r"whoever": "who",
    r"mends?|mended|mending": "fixed",
    r"tally|tallies": "results, counts",
}

# The folders and files whose code is checked.
CODE = ("crates", "checks", "bench", "workbench", "packaging", "examples")
CODE += ("Makefile", ".ci/run", "nooks", "nooks-plain", "nooks-unproved", "pyproject.toml")

# Folders below these that have no code, each by its name or the pattern of its path, with the reason.
NO_CODE = {
    "checks/runs": "inputs and outputs of the program, compared byte for byte",
    "__pycache__": "compiled files of Python",
    "crates/*/out": "outputs of the prover",
}

# What may stay: the pattern of a file's path, and a name or a word of its comments in small letters, with the reason.
# Quotations need no exception: backticks or quotation marks do for them.
KEY_OF_SWEEP = "its fields are keys of the JSON of a sweep"
KEY_OF_PAGE = "a key of the JSON that a page shows"
EXCEPTIONS = {
    ("workbench/nooks_bench/model.py", "place"): KEY_OF_SWEEP,
    ("workbench/nooks_bench/table.py", "place"): KEY_OF_SWEEP,
    ("workbench/nooks_bench/page_files/page.js", "place"): KEY_OF_PAGE,
    ("workbench/nooks_bench/page_files/state.js", "place"): KEY_OF_PAGE,
    ("crates/*/proofs/*", "tells_digits"): "a lemma of std",
    ("crates/domain_pages/proofs/packed/*", "told"): "a name that the checker makes for the length of an array",
    ("crates/part_core/proofs/part/Part/bursts/*", "behind"): "a name that the checker makes for what a reference leads to",
}

# For each language that Python has no lexer for a regular expression of comments, skipped texts and names.
TEXT = r'"(?:\\.|[^"\\])*"'
COMMENT = r"(?P<comment>//[^\n]*|/\*.*?\*/)"
RUST = rf"{COMMENT}|r(?P<marks>#+)\".*?\"(?P=marks)|b?{TEXT}|b?'(?:\\[^\n]+?|[^\\'\n])'|(?P<name>[A-Za-z_]\w*)"
PATTERN = r"(?<=[=(,:!&|?;])\s*/(?![*/])(?:\\.|\[(?:\\.|[^\]\\\n])*\]|[^/\\\n\[])+/[a-z]*"
JAVASCRIPT = rf"{COMMENT}|{PATTERN}|{TEXT}|'(?:\\.|[^'\\])*'|`(?:\\.|[^`\\])*`|(?P<name>[A-Za-z_$][\w$]*)"
SHELL = rf"(?m:(?<!\S)@?(?P<comment>#(?!!)[^\n]*))|'[^']*'|{TEXT}|\\."
STYLE = r"(?P<comment>/\*.*?\*/)"
ASSEMBLER = r"(?P<comment>;[^\n]*)"
ANTT = rf"(?P<comment>--[^\n]*|\{{-.*?-\}})|{TEXT}|(?P<name>[^\W\d][\w']*)"
LEXERS = {".rt": RUST, ".rs": RUST, ".c": RUST, ".antt": ANTT, ".js": JAVASCRIPT}
LEXERS |= {".css": STYLE, ".sh": SHELL, ".toml": SHELL, ".asm": ASSEMBLER}

# The marks of comments at the beginning of a line.
MARKS = re.compile(r"(?m)^[ \t]*(?:///?|//!|/?\*+/?|#+:?|;+|--+)(?!\S*[/*])|\"\"\"|\*/$")


class Finding(NamedTuple):
    """A retired word in a file: its line, the word or the name that has it, and what to write instead."""

    path: str
    line: int
    word: str
    instead: str

    def __str__(self) -> str:
        return f"{self.path}:{self.line}: {self.word!r}: write {self.instead}"


class Piece(NamedTuple):
    """A comment or a name in a file, with its line and its column."""

    line: int
    column: int
    text: str


def found_in(text: str) -> Iterator[tuple[int, str, str]]:
    """The retired words of a text without its quotations: the lines before each, the word, and a better one."""
    plain = re.sub(r"`[^`]*`|\"[^\"]*\"", lambda quoted: "\n" * quoted[0].count("\n"), text)
    for words, instead in RETIRED.items():
        form = rf"(?<![\w-])(?:{words})(?![\w-])".replace(" ", r"\s+")
        for match in re.finditer(form, plain, re.IGNORECASE):
            yield plain[: match.start()].count("\n"), " ".join(match[0].split()), instead


def retired_in_name(name: str) -> str | None:
    """What to write instead of a name with a retired word; None if it has none."""
    for part in re.split("[_']", re.sub(r"(?<=[a-z0-9])(?=[A-Z])", "_", name).lower()):
        for words, instead in RETIRED_IN_NAMES.items():
            if re.fullmatch(words, part):
                return instead
    return None


def python_pieces(text: str) -> tuple[list[Piece], list[Piece]]:
    """The comments with the docstrings, and the names that Python code defines."""
    tokens = tokenize.generate_tokens(io.StringIO(text).readline)
    comments = [Piece(*token.start, token.string) for token in tokens if token.type == tokenize.COMMENT]
    names: list[Piece] = []
    for node in ast.walk(ast.parse(text)):
        if isinstance(node, ast.Expr) and isinstance(node.value, ast.Constant) and isinstance(node.value.value, str):
            comments.append(Piece(node.lineno, node.col_offset, ast.get_source_segment(text, node) or ""))
        elif isinstance(node, (ast.FunctionDef, ast.AsyncFunctionDef, ast.ClassDef)):
            names.append(Piece(node.lineno, node.col_offset, node.name))
        elif isinstance(node, ast.arg):
            names.append(Piece(node.lineno, node.col_offset, node.arg))
        elif isinstance(node, (ast.Name, ast.Attribute)) and isinstance(node.ctx, ast.Store):
            names.append(Piece(node.lineno, node.col_offset, node.id if isinstance(node, ast.Name) else node.attr))
    return sorted(comments), names


def lexed_pieces(text: str, lexer: str) -> tuple[list[Piece], list[Piece]]:
    """The comments and the names of a text by the regular expression of its language."""
    begins = [0, *(match.end() for match in re.finditer("\n", text))]
    pieces: dict[str, list[Piece]] = {"comment": [], "name": []}
    for match in re.finditer(lexer, text, re.DOTALL):
        kind = match.lastgroup if match.lastgroup in pieces else None
        if kind:
            line = bisect.bisect_right(begins, match.start(kind))
            pieces[kind].append(Piece(line, match.start(kind) - begins[line - 1], match[kind]))
    return pieces["comment"], pieces["name"]


def joined(comments: Iterable[Piece]) -> Iterator[Piece]:
    """The comments, those on following lines in the same column as one, without their marks."""
    block: Piece | None = None
    for each in comments:
        if block and (block.line + block.text.count("\n") + 1, block.column) == each[:2]:
            block = block._replace(text=f"{block.text}\n{each.text}")
            continue
        if block:
            yield block
        block = each
    if block:
        yield block


def pieces_of(path: str) -> tuple[list[Piece], list[Piece]]:
    """The comments and the names of a file by its path from the top; nothing if it is no code."""
    ending = os.path.splitext(path)[1]
    with open(os.path.join(TOP, path), encoding="utf-8", errors="replace") as file:
        text = file.read()
    edited = re.match(r"file: .*(\.\w+)\n", text) if ending == ".edit" else None
    if edited:
        ending, text = edited[1], re.sub(r"(?m)^(?:old|new): |^(?!old: |new: ).*$", "", text)
    # The language of a file without an ending is that of its first line.
    first = text.split("\n", 1)[0]
    if ending == ".py" or not ending and re.match("#!.*python", first):
        return python_pieces(text)
    if not ending and (first.startswith("#!") or os.path.basename(path) == "Makefile"):
        return lexed_pieces(text, SHELL)
    return lexed_pieces(text, LEXERS[ending]) if ending in LEXERS else ([], [])


@functools.cache
def all_in(path: str) -> list[Finding]:
    """The retired words of one file of code, exceptions too; each name once."""
    found: list[Finding] = []
    comments, names = pieces_of(path)
    for comment in joined(comments):
        for line, word, instead in found_in(MARKS.sub("", comment.text)):
            found.append(Finding(path, comment.line + line, word, instead))
    names.append(Piece(1, 0, re.split(r"[.+]", os.path.basename(path))[0].replace("-", "_")))
    first = {name.text: name for name in sorted(names, reverse=True)}
    for name in sorted(first.values()):
        better = retired_in_name(name.text)
        if better:
            found.append(Finding(path, name.line, name.text, better))
    return found


def exception_of(finding: Finding) -> tuple[str, str] | None:
    """The key of EXCEPTIONS by which a word may stay; None if it may not."""
    keys = (key for key in EXCEPTIONS if key[1] == finding.word.lower() and fnmatch(finding.path, key[0]))
    return next(keys, None)


def findings(paths: Iterable[str] = CODE) -> Iterator[Finding]:
    """The retired words of some folders or files, without exceptions."""
    for path in files_of(paths):
        yield from (each for each in all_in(path) if not exception_of(each))


def unused_exceptions() -> list[tuple[str, str]]:
    """The exceptions for words that are in no file."""
    used = {exception_of(each) for path in files_of() for each in all_in(path)}
    return [key for key in EXCEPTIONS if key not in used]


def has_code(above: str, folder: str) -> bool:
    """Whether a folder's files may be code, by the path of the folder above it and its name."""
    return not any(fnmatch(path, pattern) for pattern in NO_CODE for path in (folder, os.path.join(above, folder)))


def files_of(paths: Iterable[str] = CODE) -> Iterator[str]:
    """The files of code in some folders, or at some paths from the top."""
    for path in paths:
        if os.path.isfile(os.path.join(TOP, path)):
            yield path
        for folder, folders, files in os.walk(os.path.join(TOP, path)):
            name = os.path.relpath(folder, TOP)
            folders[:] = sorted(each for each in folders if has_code(name, each))
            yield from (os.path.join(name, each) for each in sorted(files))


def main() -> None:
    paths = [os.path.relpath(path, TOP) for path in sys.argv[1:]] or CODE
    total = 0
    for path in paths:
        found = list(findings([path]))
        print("".join(f"{each}\n" for each in found) + f"{path}: {len(found)} retired words")
        total += len(found)
    sys.exit(1 if total else 0)


if __name__ == "__main__":
    main()
