"""Messages of one line on standard error. If it is closed or full, the message is dropped: there is nowhere else to
write it."""

from __future__ import annotations

import contextlib
import sys


def write_error(text: str) -> None:
    """Writes a text to standard error, and ignores a failure."""
    if sys.stderr is None:
        return
    with contextlib.suppress(OSError):
        sys.stderr.write(text)
        sys.stderr.flush()


def say(text: str) -> None:
    """Writes a line that begins with the command's name."""
    write_error(f"nooks-bench: {text}\n")


def is_terminal() -> bool:
    return sys.stderr is not None and sys.stderr.isatty()
