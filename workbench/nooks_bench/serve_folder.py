"""The folder of `serve`: the server reads texts and writes files only there.

A path is followed step by step from the open folder, and no step is a symbolic link. A link in the folder therefore
leads nowhere, even if it is created between two steps."""

from __future__ import annotations

import contextlib
import errno
import hashlib
import os
import re
import secrets
import stat
from typing import Iterator

from .program import Mistake
from .source import decoded

# A step of a path: no `..`, no name that begins with a dot, and no character with a meaning for a shell or a terminal.
STEP = re.compile(r"\w[\w.+ -]{0,99}")

# The endings of files that are read, and of those that are written: what the command line takes and makes.
READ = (".json", ".jsonc", ".asm")
WRITTEN = (*READ, ".report", ".html", ".svg")

MOST_STEPS = 8
MOST_LISTED = 2_000
MOST_READ = 4 * 2**20

NO_LINK = os.O_NOFOLLOW | os.O_CLOEXEC
FOLDER = os.O_RDONLY | os.O_DIRECTORY | NO_LINK


class Outside(Mistake):
    """A path that does not name a file of the folder."""


def digest_of(text: str) -> str:
    """Returns a hash that identifies a text."""
    return hashlib.sha256(text.encode()).hexdigest()


def steps_of(name: str, endings: tuple[str, ...]) -> list[str]:
    """Splits a path in the folder into its steps."""
    steps = name.split("/")
    if len(steps) > MOST_STEPS or not all(STEP.fullmatch(step) for step in steps):
        raise Outside(f"{name!r} is no path in the folder: names of letters, digits and _.+-, with / between them")
    if not name.endswith(endings):
        raise Outside(f"{name!r} ends with none of {', '.join(endings)}")
    return steps


class Folder:
    """A folder by its path. The path may be a link; what is in the folder may not."""

    def __init__(self, path: str) -> None:
        self.path = os.path.realpath(path)
        if not os.path.isdir(self.path):
            raise Mistake(f"{path} is no folder")

    @contextlib.contextmanager
    def opened(self, steps: list[str]) -> Iterator[int]:
        """Opens the folder that some steps lead to."""
        at = os.open(self.path, FOLDER)
        try:
            for step in steps:
                below = os.open(step, FOLDER, dir_fd=at)
                os.close(at)
                at = below
            yield at
        finally:
            os.close(at)

    def read(self, name: str) -> str:
        steps = steps_of(name, READ)
        try:
            with self.opened(steps[:-1]) as at:
                return decoded(self.bytes_of(at, steps[-1], name), name)
        except OSError as error:
            raise Outside(f"{name}: {about(error)}") from error

    def bytes_of(self, at: int, step: str, name: str) -> bytes:
        """Returns the bytes of a file that is not a link, not a pipe and not too large."""
        file = os.open(step, os.O_RDONLY | os.O_NONBLOCK | NO_LINK, dir_fd=at)
        with os.fdopen(file, "rb") as opened:
            known = os.fstat(file)
            if not stat.S_ISREG(known.st_mode):
                raise Outside(f"{name} is no plain file")
            if known.st_size > MOST_READ:
                raise Mistake(f"{name} has {known.st_size:,} bytes; at most {MOST_READ:,} are read")
            return opened.read(MOST_READ + 1)

    def exists(self, name: str) -> bool:
        """Returns whether anything has this name."""
        steps = steps_of(name, WRITTEN)
        try:
            with self.opened(steps[:-1]) as at:
                os.stat(steps[-1], dir_fd=at, follow_symlinks=False)
        except FileNotFoundError:
            return False
        except OSError as error:
            raise Outside(f"{name}: {about(error)}") from error
        return True

    def write(self, name: str, text: str, was: str | None) -> str:
        """Writes a file, whole or not at all, and returns the hash of its text. `was` is the hash of the text that the
        writer knows, empty for a new file; None if any file may be overwritten."""
        steps = steps_of(name, WRITTEN)
        try:
            with self.opened(steps[:-1]) as at:
                self.check_known(at, steps[-1], name, was)
                replace(at, steps[-1], text.encode())
        except OSError as error:
            raise Outside(f"{name}: {about(error)}") from error
        return digest_of(text)

    def check_known(self, at: int, step: str, name: str, was: str | None) -> None:
        """Refuses to overwrite what is not a plain file, or what the writer does not know."""
        try:
            mode = os.stat(step, dir_fd=at, follow_symlinks=False).st_mode
        except FileNotFoundError:
            return
        if not stat.S_ISREG(mode):
            raise Outside(f"{name} is no plain file, and is not written over")
        if was == "":
            raise Mistake(f"{name} is there already: choose another name, or open it")
        if was is not None and hashlib.sha256(self.bytes_of(at, step, name)).hexdigest() != was:
            raise Mistake(f"{name} was changed by another program since it was opened; open it again")

    def files(self) -> list[str]:
        """Returns the files that can be opened, those of the folder itself first."""
        found: list[str] = []
        for path, folders, names in os.walk(self.path):
            inner = os.path.relpath(path, self.path)
            steps = [] if inner == "." else inner.split("/")
            folders[:] = sorted(each for each in folders if STEP.fullmatch(each)) if len(steps) < MOST_STEPS - 1 else []
            shown = [each for each in sorted(names) if STEP.fullmatch(each) and each.endswith(READ)]
            found += ["/".join([*steps, each]) for each in shown if is_plain(os.path.join(path, each))]
            if len(found) >= MOST_LISTED:
                break
        return found[:MOST_LISTED]


def about(error: OSError) -> str:
    """Describes why a path leads to no file."""
    if isinstance(error, (NotADirectoryError, FileNotFoundError)):
        return "there is no such file in the folder"
    if error.errno == errno.ELOOP:
        return "a symbolic link is not followed"
    return error.strerror or "cannot be opened"


def is_plain(path: str) -> bool:
    try:
        return stat.S_ISREG(os.lstat(path).st_mode)
    except OSError:
        return False


def replace(at: int, step: str, data: bytes) -> None:
    """Replaces a file and keeps its permissions, so that nobody sees a part of it. A link of that name is not
    followed."""
    made = f".{step[:80]}.{secrets.token_hex(8)}"
    file = os.open(made, os.O_WRONLY | os.O_CREAT | os.O_EXCL | NO_LINK, 0o666, dir_fd=at)
    try:
        with os.fdopen(file, "wb") as opened:
            opened.write(data)
            with contextlib.suppress(FileNotFoundError):
                os.fchmod(file, stat.S_IMODE(os.stat(step, dir_fd=at, follow_symlinks=False).st_mode))
        os.rename(made, step, src_dir_fd=at, dst_dir_fd=at)
    except BaseException:
        with contextlib.suppress(OSError):
            os.unlink(made, dir_fd=at)
        raise
