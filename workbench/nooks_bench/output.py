"""Standard output with a distinct exception for its failures: the disk is full, or the reader went away."""

from __future__ import annotations

import contextlib
import io
import os
from typing import TextIO


class Unwritten(Exception):
    """Standard output cannot be written."""


class Output(io.TextIOBase):
    def __init__(self, stream: TextIO) -> None:
        self.stream = stream

    def write(self, text: str) -> int:
        try:
            return self.stream.write(text)
        except OSError as error:
            raise Unwritten(error.strerror) from error

    def flush(self) -> None:
        try:
            self.stream.flush()
        except OSError as error:
            raise Unwritten(error.strerror) from error

    def isatty(self) -> bool:
        return self.stream.isatty()

    def discard(self) -> None:
        """Discards what is still buffered; else Python reports the failure a second time when it exits."""
        with contextlib.suppress(OSError, ValueError):
            os.dup2(os.open(os.devnull, os.O_WRONLY), self.stream.fileno())
