"""What the scripts of this folder share: runs of a program, counts of what passed, and the plain program."""

from __future__ import annotations

import importlib.machinery
import importlib.util
import json
import os
import re
import shutil
import subprocess
import sys
from collections.abc import Sequence
from dataclasses import dataclass
from typing import Any, NoReturn

TOP = os.path.dirname(os.path.dirname(os.path.abspath(__file__)))
EXAMPLES = os.path.join(TOP, "examples")
BUILT = os.path.join(TOP, "crates/nooks_main/out/nooks_main")
UNPROVED = os.path.join(TOP, "out/unproved/nooks")
PLAIN = os.path.join(TOP, "out/plain/nooks")

# Standard error after the line of a refused input.
EXPLAINED = b"nooks: `nooks-bench explain --input FILE`, given this line, shows the place in the input\n"

# A run that takes longer than this many seconds counts as one that hangs.
PATIENCE = 60


# A program by its name and its path.
Named = tuple[str, str]


@dataclass
class Ended:
    """How a run ended: its status, and what it wrote. A run that hangs or is killed by a signal has a negative status."""

    status: int
    out: bytes
    err: bytes


class Results:
    """Counts what passed and what failed, and prints a line for each failure."""

    def __init__(self) -> None:
        self.passed = 0
        self.failed = 0

    def check(self, name: str, holds: bool, why: object = "") -> bool:
        if holds:
            self.passed += 1
        else:
            self.failed += 1
            print(f"{name}: {why}", flush=True)
        return holds

    def same(self, name: str, found: object, expected: object) -> bool:
        """Counts whether two values are the same, and reports their first difference."""
        return self.check(name, found == expected, difference(found, expected))

    def end(self) -> NoReturn:
        """Prints the last line and ends the script."""
        print(f"{self.passed} passed, {self.failed} failed", flush=True)
        sys.exit(1 if self.failed else 0)


def difference(found: object, expected: object) -> str:
    """A short line that says how two values differ."""
    if not (isinstance(found, bytes) and isinstance(expected, bytes)):
        return f"{found!r}, and {expected!r} is expected"
    here = found.split(b"\n")
    there = expected.split(b"\n")
    for number, (line, other) in enumerate(zip(here, there), 1):
        if line != other:
            return f"line {number} is {line[:200]!r}, and {other[:200]!r} is expected"
    return f"{len(here)} lines, and {len(there)} are expected"


def run(program: str, words: Sequence[str | bytes], given: bytes = b"", **how: Any) -> Ended:
    """Runs a program with arguments and bytes of input; `how` may have another stdin, another stdout and more for Popen."""
    if "stdin" not in how:
        how["input"] = given
    how.setdefault("stdout", subprocess.PIPE)
    try:
        ended = subprocess.run([program, *words], stderr=subprocess.PIPE, timeout=PATIENCE, **how)
    except subprocess.TimeoutExpired:
        return Ended(-999, b"", b"it did not end in time")
    return Ended(ended.returncode, ended.stdout or b"", ended.stderr)


def generated(size: int) -> bytes:
    """The generated scenario of a size, as the timing script makes it."""
    loader = importlib.machinery.SourceFileLoader("bench_run", os.path.join(TOP, "bench/run"))
    spec = importlib.util.spec_from_loader("bench_run", loader)
    assert spec is not None
    module = importlib.util.module_from_spec(spec)
    loader.exec_module(module)
    return json.dumps(module.generated(size)).encode()


def handed(scenario: bytes, report: bytes) -> bytes:
    """The input of `audit`: the scenario's length, a line feed, the scenario, and the report."""
    return b"%d\n" % len(scenario) + scenario + report


def said_again(line: bytes) -> bytes:
    """Standard error of an input that was refused with a line, if standard output is no terminal."""
    return b"nooks: " + line + EXPLAINED


def program_from(words: Sequence[str]) -> str:
    """The program whose path is the only word, or the proved one if there is no word."""
    if len(words) > 1:
        sys.exit("usage: one path of a built program, or none")
    return there(words[0] if words else BUILT)


def there(program: str) -> str:
    """The absolute path of a program; ends the script if it cannot be run."""
    if not os.access(program, os.X_OK):
        sys.exit(f"{program} is not there: ./nooks --prove and rt ci build the proved program, ./nooks-unproved {UNPROVED}, ./nooks-plain {PLAIN}")
    return os.path.abspath(program)


def is_plain(program: str) -> bool:
    """Whether a program says that it is the plain one."""
    return b"plain" in run(program, ["--version"]).out


def example(name: str) -> bytes:
    """The bytes of a file of examples/."""
    with open(os.path.join(EXAMPLES, name), "rb") as file:
        return file.read()


def without_states(exploration: bytes) -> bytes:
    """What `explore` writes, without its count of states: the plain program takes more of them for one."""
    return re.sub(rb"(?m)^explored \d+ states", b"explored", exploration)


def document(name: str) -> list[str]:
    """The lines of a document, by its path from the top."""
    with open(os.path.join(TOP, name), encoding="utf-8") as file:
        return file.read().split("\n")


def find_plain() -> str | None:
    """The plain program, which ./nooks-plain builds if its sources changed; None if there is no rustc."""
    if shutil.which("rustc") is None:
        return None
    # Without arguments it only writes its usage line, after it was built.
    ended = subprocess.run([os.path.join(TOP, "nooks-plain")], stdin=subprocess.DEVNULL, capture_output=True, check=False)
    if not os.access(PLAIN, os.X_OK):
        sys.exit(f"./nooks-plain built no {PLAIN}: {ended.stderr.decode(errors='replace')}")
    return PLAIN


def with_plain(program: str) -> list[Named]:
    """A program, and the plain one too if it is another and there is a rustc."""
    programs = [("the program", program)]
    plain = None if is_plain(program) else find_plain()
    if plain is not None:
        programs.append(("the plain program", plain))
    elif not is_plain(program):
        print("there is no rustc, so the plain program is left out")
    return programs
