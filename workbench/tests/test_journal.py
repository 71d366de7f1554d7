"""The journal of a sweep: an interrupted sweep prints the table so far, and a resumed one ends with the table of one that
was not interrupted."""

import contextlib
import json
import os
import re
import signal
import subprocess
import sys
import tempfile
import time
import unittest
from typing import NamedTuple

from common import bench, example_path, program

from nooks_bench.program import TOP

COMMAND = os.path.join(TOP, "workbench", "nooks-bench")
CHOICE = ["--limit", "1", "--kind", "reg", "--kind", "trap", "--random", "300", "--seed", "4", "--jobs", "2", "--quiet"]

# The most seconds to wait for an end: many more than it takes, since the machine may be busy.
PATIENCE = 90


class Process(NamedTuple):
    """A process of this machine, as /proc shows it."""

    number: int
    state: str
    parent: int
    group: int


def processes() -> list[Process]:
    found = []
    for name in filter(str.isdecimal, os.listdir("/proc")):
        with contextlib.suppress(OSError):
            with open(f"/proc/{name}/stat", encoding="utf-8", errors="replace") as file:
                state, parent, group, *_ = file.read().rpartition(")")[2].split()
            found.append(Process(int(name), state, int(parent), int(group)))
    return found


def lines_of(path: str) -> list[str]:
    with open(path, encoding="utf-8") as file:
        return file.read().splitlines(keepends=True)


class Resumed(unittest.TestCase):
    def setUp(self):
        folder = tempfile.TemporaryDirectory()
        self.addCleanup(folder.cleanup)
        self.journal = os.path.join(folder.name, "journal")
        self.words = ["sweep", example_path("sound.json"), *CHOICE, "--journal", self.journal]

    def test_the_same_table(self):
        plain = bench("sweep", example_path("sound.json"), *CHOICE)
        self.assertEqual(plain[0], 0)
        self.assertEqual(bench(*self.words), plain)
        whole = lines_of(self.journal)
        self.assertGreater(len(whole), 3)
        for complete, torn in [(1, 0), (2, 0), (3, 20), (len(whole), 0), (0, 10)]:
            with open(self.journal, "w", encoding="utf-8") as file:
                file.write("".join(whole[:complete]) + (whole[complete][:torn] if torn else ""))
            self.assertEqual(bench(*self.words, "--resume"), plain, (complete, torn))
            outcomes = [len(json.loads(line)["outcomes"]) for line in lines_of(self.journal)[1:]]
            self.assertEqual(sum(outcomes), 300, (complete, torn))

    def test_known_outcomes_are_not_run_again(self):
        bench(*self.words)
        heading, *lines = lines_of(self.journal)
        changed = json.loads(lines[0])
        changed["outcomes"] = [["given-up", "made up", 0, 0, 0, 0] for _ in changed["outcomes"]]
        with open(self.journal, "w", encoding="utf-8") as file:
            file.write(heading + json.dumps(changed) + "\n")
        _, out, _ = bench(*self.words, "--resume")
        self.assertEqual(int(re.search(r"(?m)^ *(\d+)  given up +\d", out)[1]), len(changed["outcomes"]))

    def test_of_another_sweep(self):
        bench(*self.words)
        before = lines_of(self.journal)
        self.assertIn("--resume", bench(*self.words)[2])
        for words, about in [(["--seed", "5"], "of another choice of faults"), (["--limit", "2"], "of another scenario")]:
            status, out, err = bench(*self.words, "--resume", *words)
            self.assertEqual((status, out, err.count("\n")), (2, "", 1))
            self.assertIn(about, err)
        for key in ("program", "workbench"):
            other = json.dumps({**json.loads(before[0]), key: "another 0.0.0"})
            with open(self.journal, "w", encoding="utf-8") as file:
                file.write(other + "\n")
            self.assertIn(f"by another version of the {key} (another 0.0.0;", bench(*self.words, "--resume")[2])
        with open(self.journal, "w", encoding="utf-8") as file:
            file.write(before[0] + "{}\n")
        self.assertIn("line 2 is no line of a journal", bench(*self.words, "--resume")[2])
        self.assertEqual(bench("sweep", example_path("sound.json"), "--resume")[0], 2)


class Interrupted(unittest.TestCase):
    def begun(self, journal: str, *words: str) -> subprocess.Popen:
        """Starts a sweep of many faults, and waits until its journal has some."""
        choice = ["--limit", "1", "--kind", "reg", "--random", "100000", "--journal", journal, "--quiet"]
        environment = {**os.environ, "NOOKS": program().path}
        asked = [sys.executable, COMMAND, "sweep", example_path("block.json"), *choice, *words]
        process = subprocess.Popen(asked, stdout=subprocess.PIPE, stderr=subprocess.PIPE, text=True, env=environment,
                                   start_new_session=True)
        self.addCleanup(self.end, process)
        until = time.monotonic() + PATIENCE
        while not os.path.exists(journal) or len(lines_of(journal)) < 3:
            self.assertIsNone(process.poll())
            self.assertLess(time.monotonic(), until, "no batch was done")
            time.sleep(0.05)
        return process

    def end(self, process: subprocess.Popen) -> None:
        if process.poll() is None:
            os.killpg(process.pid, signal.SIGKILL)
        process.communicate()

    def interrupted(self, to_all: bool, *words: str) -> None:
        with tempfile.TemporaryDirectory() as folder:
            journal = os.path.join(folder, "journal")
            process = self.begun(journal, *words)
            if to_all:
                os.killpg(process.pid, signal.SIGINT)
            else:
                process.send_signal(signal.SIGINT)
            begun = time.monotonic()
            out, err = process.communicate(timeout=PATIENCE)
            self.assertLess(time.monotonic() - begun, 20)
            self.assertEqual(process.returncode, 130, err)
            done = sum(len(json.loads(line)["outcomes"]) for line in lines_of(journal)[1:])
        self.assertRegex(out, rf"(?m)^ *{done}  faults drawn, of 100,000: interrupted$")
        self.assertRegex(out, r"(?m)^ *\d+  struck, no trace$")
        self.assertEqual(err, f"nooks-bench: interrupted: {done:,} of 100,000 faults; the same command with --resume continues it\n")
        self.assertEqual([each for each in processes() if each.group == process.pid and each.state != "Z"], [])

    def test_one_job(self):
        self.interrupted(False, "--jobs", "1")
        self.interrupted(True, "--jobs", "1")

    def test_several_jobs(self):
        self.interrupted(True, "--jobs", "3")
        self.interrupted(False, "--jobs", "3")

    def test_default_jobs(self):
        self.interrupted(True)

    def test_a_worker_that_is_killed(self):
        """The sweep ends with an error, and does not wait for the killed worker."""
        with tempfile.TemporaryDirectory() as folder:
            process = self.begun(os.path.join(folder, "journal"), "--jobs", "2")
            workers = [each.number for each in processes() if each.parent == process.pid]
            self.assertEqual(len(workers), 2)
            os.kill(workers[0], signal.SIGKILL)
            _, err = process.communicate(timeout=PATIENCE)
        self.assertEqual((process.returncode, err.count("\n")), (2, 1), err)
        self.assertIn("a process of this sweep ended", err)


if __name__ == "__main__":
    unittest.main()
