"""What the tests share: the program, the examples, and the command as a function."""

from __future__ import annotations

import contextlib
import io
import json
import os
import signal
import sys
import tempfile
from typing import Any

sys.dont_write_bytecode = True
HERE = os.path.dirname(os.path.abspath(__file__))
sys.path.insert(0, os.path.dirname(HERE))

from nooks_bench.cli import main  # noqa: E402
from nooks_bench.program import TOP, Program, find_program  # noqa: E402

SCHEMAS = os.path.join(TOP, "workbench/nooks_bench/schemas")
DATA = os.path.join(HERE, "data")
EXAMPLES = os.path.join(TOP, "examples")

# A shell that starts the tests in the background has them ignore Ctrl-C, and what they start would ignore it too.
signal.signal(signal.SIGINT, signal.default_int_handler)


def program() -> Program:
    """The tested program: NOOKS of the environment, or else the built one."""
    return find_program(None)


def example_path(name: str) -> str:
    return os.path.join(EXAMPLES, name)


def example(name: str) -> Any:
    """A scenario of examples/."""
    with open(example_path(name), encoding="utf-8") as file:
        return json.load(file)


def example_text(name: str) -> str:
    with open(example_path(name), encoding="utf-8") as file:
        return file.read()


def schema_file(name: str) -> dict[str, Any]:
    """A schema of the package, by the name of its file."""
    with open(os.path.join(SCHEMAS, name), encoding="utf-8") as file:
        return json.load(file)


def bench(*words: str) -> tuple[int, str, str]:
    """Runs the command; returns its status, its standard output and its standard error."""
    out, err = io.StringIO(), io.StringIO()
    with contextlib.redirect_stdout(out), contextlib.redirect_stderr(err):
        status = main(list(words))
    return status, out.getvalue(), err.getvalue()


@contextlib.contextmanager
def file_of(value: Any, ending: str = ".json"):
    """A temporary file with a text, or with another value as JSON."""
    with tempfile.TemporaryDirectory() as folder:
        path = os.path.join(folder, "input" + ending)
        with open(path, "w", encoding="utf-8") as file:
            file.write(value if isinstance(value, str) else json.dumps(value))
        yield path
