"""docs/CONTRACTS.md: each crate with its public functions, what their doc comments say, and their contracts."""

from __future__ import annotations

import re
from dataclasses import dataclass, field

from layers import lines_of_crates
from shapes import TOP, UnknownShape, text_of

HEAD = """# The contracts

This page is made by `checks/documents` of the sources of the crates; edit those. For each crate it has what the crate is, and each
public function with its doc comment and its contract. A law is a function with an empty body, whose contract is a theorem. The
names in contracts are those of docs/DEFINITIONS.md, and of the folder `specs/` of the crate itself.

"""

# A line that begins a function, or a block of functions.
FUNCTION = re.compile(r"^( *)pub (?:const )?fn (\w+)")
TRAIT_FUNCTION = re.compile(r"^( +)fn (\w+)")
BLOCK = re.compile(r"^(?:pub )?(impl|trait)\b[^{]*?(\w+)(?:<[^{]*)? \{$")


@dataclass
class Function:
    """A public function: its name with its type's, its doc comment, and its signature with its contract."""

    name: str
    about: list[str] = field(default_factory=list)
    contract: list[str] = field(default_factory=list)


@dataclass
class Reader:
    """What was read of a source so far."""

    file: str
    functions: list[Function] = field(default_factory=list)
    about: list[str] = field(default_factory=list)
    inside: str = ""
    is_open: bool = False


def about_crate(crate: str) -> str:
    """The comment at the top of a crate."""
    lines = text_of(f"crates/{crate}/src/lib.rt").split("\n") if (TOP / f"crates/{crate}/src/lib.rt").is_file() else []
    if not lines:
        lines = text_of(f"crates/{crate}/src/main.rt").split("\n")
    return "\n".join(line.removeprefix("//!").strip() for line in lines if line.startswith("//!"))


def enter(reader: Reader, line: str) -> None:
    """Notes the type or the trait whose block has the next functions. A function is public if its trait is, or if it has its
    own mark."""
    matched = BLOCK.match(line)
    if matched:
        before, _, after = line.partition(" for ")
        is_for = bool(after) and matched.group(1) == "impl"
        reader.inside = "" if is_for else matched.group(2).split("<")[0]
        reader.is_open = matched.group(1) == "trait" and line.startswith("pub ")
        if matched.group(1) == "impl" and not is_for:
            reader.inside = re.sub(r"<.*", "", re.sub(r"^impl(<[^>]*>)? ", "", line)).removesuffix(" {")
    elif line == "}":
        reader.inside, reader.is_open = "", False


def head_of(lines: list[str], at: int, indent: str) -> tuple[list[str], int]:
    """The signature and the contract of the function that begins at a line, and the line of its body."""
    head: list[str] = []
    depth = 0
    for index in range(at, len(lines)):
        line = lines[index].removeprefix(indent)
        if line in ("{", "{}"):
            return head, index
        depth += line.count("{") - line.count("}")
        if line.endswith(";") and depth == 0 or line.endswith((" {", " {}")) and not line.startswith(" "):
            return [*head, re.sub(r"( \{\}?|;)$", "", line)], index
        head.append(line)
    raise UnknownShape(f"a function has no body: {lines[at]}")


def read_line(reader: Reader, lines: list[str], at: int) -> None:
    """Notes what a line begins."""
    line = lines[at]
    matched = FUNCTION.match(line) or (TRAIT_FUNCTION.match(line) if reader.is_open else None)
    if matched:
        contract, _ = head_of(lines, at, matched.group(1))
        name = f"{reader.inside}::{matched.group(2)}" if reader.inside and matched.group(1) else matched.group(2)
        reader.functions.append(Function(name, reader.about, contract))
        reader.about = []
    elif line.strip().startswith("///"):
        reader.about = [*reader.about, line.strip().removeprefix("///").strip()]
    elif not line.strip().startswith(("#[", "//")):
        reader.about = []
        enter(reader, line)


def functions_of(file: str) -> list[Function]:
    """The public functions of a source, in their order."""
    reader, lines = Reader(file), text_of(file).split("\n")
    for at in range(len(lines)):
        read_line(reader, lines, at)
    return reader.functions


def sources_of(crate: str) -> list[str]:
    """The sources of a crate, by their paths from the top."""
    return sorted(str(file.relative_to(TOP)) for file in (TOP / "crates" / crate / "src").rglob("*.rt"))


def exports_of(crate: str) -> tuple[set[str], set[str]]:
    """The public modules of a crate, and the names that it exports from the others."""
    text = text_of(f"crates/{crate}/src/lib.rt") if (TOP / f"crates/{crate}/src/lib.rt").is_file() else ""
    names: set[str] = set()
    for given in re.findall(r"^pub use ([^;]+);", text, re.M):
        inner = re.search(r"\{([^}]*)\}", given)
        parts = inner.group(1).split(",") if inner else [given.split("::")[-1]]
        names |= {part.split(" as ")[0].strip() for part in parts}
    return set(re.findall(r"^pub mod (\w+);", text, re.M)), names


def is_public(function: Function, file: str, exports: tuple[set[str], set[str]]) -> bool:
    """Whether other crates may call a function: by a public module, or because the crate exports its name or its type's."""
    modules, names = exports
    return file.split("/src/")[1].split("/")[0].removesuffix(".rt") in modules or re.split(r"<|::", function.name)[0] in names


def public_functions(crate: str) -> list[Function]:
    """The functions of a crate that other crates may call."""
    exports = exports_of(crate)
    return [it for file in sources_of(crate) for it in functions_of(file) if is_public(it, file, exports)]


def section(function: Function) -> str:
    """A function as a section of the page."""
    about = "\n".join(function.about)
    contract = "\n".join(function.contract)
    return f"#### `{function.name}`\n\n{about}\n\n```text\n{contract}\n```\n"


def chapter(crate: str) -> str:
    """A crate as a chapter of the page; of a crate without public functions there is only its comment."""
    return "\n".join([f"## `{crate}`\n", about_crate(crate) + "\n", *map(section, public_functions(crate))])


def page() -> str:
    """The whole page, the crates in the order of crates.txt."""
    return HEAD + "\n".join(map(chapter, lines_of_crates()))
