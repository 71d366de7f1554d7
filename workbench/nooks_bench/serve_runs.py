"""The runs of `serve`. Each is a process with a separate group, which is ended if it takes too long, if its answer is
too large, or if nobody waits for its answer any more."""

from __future__ import annotations

import contextlib
import json
import os
import select
import signal
import socket
import subprocess
import sys
import threading
import time
from typing import Any

from .program import Mistake

# How many runs may be active; others wait.
MOST_RUNS = 3

# The most bytes of an answer.
MOST_ANSWER = 96 * 2**20

# How often a run that waits checks whether the page is still connected, in seconds.
LOOK_EVERY = 0.1

ABOVE = os.path.dirname(os.path.dirname(os.path.abspath(__file__)))
CHILD = "import sys; sys.path.insert(0, sys.argv[1]); from nooks_bench.serve_work import main; main()"


class Gone(Exception):
    """The page has gone away."""


class Ended(Mistake):
    """A run that was ended."""


class Runs:
    """Runs with a limit of seconds, and the processes that are active."""

    def __init__(self, program: str, folder: str, seconds: float) -> None:
        self.about = {"program": program, "folder": folder}
        self.seconds = seconds
        self.slots = threading.BoundedSemaphore(MOST_RUNS)
        self.lock = threading.Lock()
        self.processes: set[subprocess.Popen[bytes]] = set()

    def answer(self, given: dict[str, Any], page: socket.socket) -> dict[str, Any]:
        """Returns what a process answers to a request. `page` is the connection to the page that waits for it."""
        while not self.slots.acquire(timeout=LOOK_EVERY):
            if is_gone(page):
                raise Gone
        try:
            return self.answered({**given, **self.about}, page)
        finally:
            self.slots.release()

    def answered(self, given: dict[str, Any], page: socket.socket) -> dict[str, Any]:
        process = self.begin()
        try:
            assert process.stdin is not None
            with contextlib.suppress(BrokenPipeError):
                process.stdin.write(json.dumps(given).encode() + b"\n")
                process.stdin.flush()
            text = self.listen(process, page)
        finally:
            self.end(process)
        try:
            made: dict[str, Any] = json.loads(text)
        except ValueError as error:
            raise Ended("the run ended without an answer") from error
        return made

    def begin(self) -> subprocess.Popen[bytes]:
        words = [sys.executable, "-B", "-c", CHILD, ABOVE]
        process = subprocess.Popen(words, stdin=subprocess.PIPE, stdout=subprocess.PIPE, start_new_session=True)
        with self.lock:
            self.processes.add(process)
        return process

    def listen(self, process: subprocess.Popen[bytes], page: socket.socket) -> bytes:
        """Reads what a process writes until it ends, for as long as it may run."""
        assert process.stdout is not None
        ends = time.monotonic() + self.seconds
        found = bytearray()
        watched = [process.stdout, page]
        while True:
            ready, _, _ = select.select(watched, [], [], max(ends - time.monotonic(), 0))
            if not ready:
                raise Ended(f"the run took longer than {self.seconds:g} s, and was ended; --seconds allows more")
            if page in ready:
                if is_gone(page):
                    raise Gone
                watched.remove(page)
            if process.stdout in ready:
                more = os.read(process.stdout.fileno(), 1 << 16)
                if not more:
                    return bytes(found)
                found += more
            if len(found) > MOST_ANSWER:
                raise Ended(f"the run gives more than {MOST_ANSWER >> 20} MB, and was ended")

    def end(self, process: subprocess.Popen[bytes]) -> None:
        """Ends a process with all that it started."""
        with contextlib.suppress(ProcessLookupError, PermissionError):
            os.killpg(process.pid, signal.SIGKILL)
        with contextlib.suppress(OSError):
            process.communicate()
        with self.lock:
            self.processes.discard(process)

    def end_all(self) -> None:
        with self.lock:
            left = list(self.processes)
        for process in left:
            with contextlib.suppress(ProcessLookupError, PermissionError):
                os.killpg(process.pid, signal.SIGKILL)


def is_gone(page: socket.socket) -> bool:
    """Returns whether a page closed its connection."""
    ready, _, _ = select.select([page], [], [], 0)
    if not ready:
        return False
    try:
        return page.recv(1, socket.MSG_PEEK) == b""
    except OSError:
        return True
