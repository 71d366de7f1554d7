"""The program `nooks`: how it is run, and how it ends."""

from __future__ import annotations

import json
import os
import subprocess
import tempfile
from dataclasses import dataclass
from typing import IO, Any, Iterator

from .facts import STATUSES

TOP = os.path.dirname(os.path.dirname(os.path.dirname(os.path.abspath(__file__))))

# Where the repository's scripts leave the program that they build, the preferred one first.
BUILT = {
    "./nooks": os.path.join(TOP, "crates/nooks_main/out/nooks_main"),
    "./nooks-unproved": os.path.join(TOP, "out/unproved/nooks"),
    "./nooks-plain": os.path.join(TOP, "out/plain/nooks"),
}

# The statuses of a run with a complete report.
REPORTED = (STATUSES["done"], STATUSES["given_up"], STATUSES["contract_broken"])
REFUSED = STATUSES["bad_input"]
USAGE = STATUSES["usage"]

# How a version line begins: that of the program, and that of the plain program.
NAMES = ("nooks", "plain")


class Mistake(Exception):
    """An error that the caller of the workbench can fix; its text is written on one line."""


class Refusal(Mistake):
    """The program refused its input. The line is the program's, `fault NUMBER NAME PATH`."""

    def __init__(self, line: str) -> None:
        super().__init__(line)
        self.line = line

    def __str__(self) -> str:
        return f"the program refuses the input: {self.line}"


@dataclass(frozen=True)
class Ended:
    """How a run of the program ended."""

    status: int
    out: str
    err: str


@dataclass(frozen=True)
class Program:
    """A built program, by its path."""

    path: str

    def ask(self, words: list[str], given: str) -> Ended:
        """Runs the program on arguments and an input, and returns the result however it ends."""
        try:
            ended = subprocess.run([self.path, *words], input=given.encode(), capture_output=True, check=False)
        except OSError as error:
            raise self.unrun(error) from error
        out, err = (text.decode(errors="replace") for text in (ended.stdout, ended.stderr))
        return Ended(ended.returncode, out, err)

    def lines(self, words: list[str], given: str) -> Iterator[str]:
        """Yields the lines that the program prints, each as soon as it is available. The program ends when the caller
        stops iterating."""
        with unnamed_file() as file:
            file.write(given.encode())
            file.seek(0)
            asked, pipe, null = [self.path, *words], subprocess.PIPE, subprocess.DEVNULL
            try:
                process = subprocess.Popen(asked, stdin=file, stdout=pipe, stderr=null, text=True)
            except OSError as error:
                raise self.unrun(error) from error
        assert process.stdout is not None
        try:
            yield from (line.rstrip("\n") for line in process.stdout)
            process.wait()
        finally:
            process.kill()
            process.wait()
            process.stdout.close()

    def unrun(self, error: OSError) -> Mistake:
        """Returns the mistake for a program that cannot be run."""
        return Mistake(f"{self.path} cannot be run ({error.strerror}); --program names another")

    def version(self) -> str | None:
        """Returns the line that the program prints as its version, None if it prints none. A program that answers
        neither with such a line nor with a usage line that names `run` is not a nooks program."""
        ended = self.ask(["--version"], "")
        line = (ended.out or ended.err).strip().partition("\n")[0]
        if ended.status == 0 and line.startswith(NAMES):
            return line
        if line.startswith("usage: ") and "run" in line.split():
            return None
        raise Mistake(f"{self.path} is no nooks program: it does not answer --version as one does")

    def answer(self, words: list[str], given: str, statuses: tuple[int, ...] = (0,)) -> Ended:
        """Runs the program, and returns the result if its status is one of `statuses`. Any other status is a mistake
        with what the program printed."""
        ended = self.ask(words, given)
        if ended.status == REFUSED:
            raise Refusal(ended.out.strip())
        if ended.status == USAGE:
            raise self.too_old(f"`{' '.join(words)}`")
        if ended.status not in statuses:
            said = (ended.err or ended.out).strip().split("\n")[-1]
            raise Mistake(f"`{' '.join(words)}` ended with status {ended.status}: {said}")
        return ended

    def too_old(self, what: str) -> Mistake:
        """Returns the mistake for a program that does not have something yet."""
        return Mistake(f"{self.path} is too old: it has no {what}; the program that ./nooks-plain builds has it")

    def has_campaign_key(self, key: str) -> bool:
        """Returns whether a campaign may have a key. The program reports a key that is not allowed first, before the
        missing base."""
        return "unknown_key" not in self.ask(["campaign"], json.dumps({key: 1})).out

    def guard(self, scenario: Any) -> str:
        """Returns the traps of a guard, and the report of the guarded run."""
        return self.answer(["guard"], json.dumps(scenario), (STATUSES["done"], STATUSES["given_up"])).out

    def report(self, scenario: Any, threads: bool = False) -> str:
        """Returns the report of a scenario, for any status that has one."""
        words = ["run", "threads"] if threads else ["run"]
        return self.answer(words, json.dumps(scenario), REPORTED).out

    def fault_of(self, text: str) -> str | None:
        """Returns the line of a scenario's first input error, None if it is valid. Nothing is simulated: `audit` gets
        an empty report, and reads the scenario first."""
        size = len(text.encode())
        ended = self.ask(["audit"], f"{size}\n{text}")
        return ended.out.strip() if ended.status == REFUSED else None

    def fits(self, text: str, report: str) -> bool:
        """Returns whether every line of a report fits the scenario, by the program's audit."""
        return self.ask(["audit"], f"{len(text.encode())}\n{text}{report}").status == 0

    def listing(self, driver: dict[str, Any]) -> list[str]:
        """Returns the text words of a scenario's driver as instructions, by address."""
        image = json.dumps(driver["image"]) if "image" in driver else self.answer(["asm"], driver["asm"]).out
        lines = self.answer(["dis"], image).out.split("\n")
        words = len(json.loads(image)["text"])
        code = [line for line in lines if line and not line.startswith((".class", ".entry"))]
        return code[:words]


def unnamed_file() -> IO[bytes]:
    """Opens a file without a name for an input, in memory if the system has such files."""
    if hasattr(os, "memfd_create"):
        return os.fdopen(os.memfd_create("input"), "w+b")
    return tempfile.TemporaryFile()


def installed() -> str | None:
    """Returns the path of the installed `nooks`, None if there is none. The repository's script of that name is not
    used, since it may begin a proof."""
    import shutil

    found = shutil.which("nooks")
    if found is None:
        return None
    folder = os.path.dirname(os.path.realpath(found))
    return None if os.path.exists(os.path.join(folder, "crates.txt")) else found


def default_path() -> str:
    """Returns the default program: the first that is built in the repository, or the installed one."""
    for path in BUILT.values():
        if os.access(path, os.X_OK):
            return path
    found = installed()
    if found is None:
        scripts = list(BUILT)
        others = f"{', '.join(scripts[:-1])} or {scripts[-1]}"
        raise Mistake(f"no program is built: {others} builds one; --program or $NOOKS names another")
    return found


def find_program(named: str | None) -> Program:
    """Returns the program that is named, that of the environment's NOOKS, or the default one. Its version is asked for
    to check that it is a nooks program."""
    path = named or os.environ.get("NOOKS") or default_path()
    if not os.access(path, os.X_OK) or os.path.isdir(path):
        raise Mistake(f"{path} is no program that can be run; --program or $NOOKS names another")
    program = Program(os.path.abspath(path))
    program.version()
    return program
