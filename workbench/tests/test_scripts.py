"""The script `nooks` at the top: which program it runs, what it builds if there is none, and that only --prove proves."""

import os
import shutil
import subprocess
import tempfile
import unittest

from common import TOP

PROVED = "crates/nooks_main/out/nooks_main"
KEPT = {"unproved": "out/unproved/nooks", "plain": "out/plain/nooks"}

# A program of these tests: it prints its name and its arguments.
PROGRAM = '#!/bin/sh\necho "{name}: $*"\n'

# A compiler of these tests: it notes that it was called, and writes a program to the path after -o.
COMPILER = """#!/bin/sh
echo called >> "{folder}/{name}.calls"
while [ $# -gt 0 ]; do [ "$1" = -o ] && printf '{program}' > "$2" && chmod 755 "$2"; shift; done
"""


class Scripts(unittest.TestCase):
    """A small clone: the scripts, with sources and compilers that are replaced by small ones."""

    def setUp(self) -> None:
        holder = tempfile.TemporaryDirectory()
        self.addCleanup(holder.cleanup)
        self.folder = holder.name
        self.top = os.path.join(holder.name, "clone")
        self.tools = os.path.join(holder.name, "tools")
        for folder in ("checks", "bench/plain", "crates/nooks_main/src", "crates/nooks_main/specs", "crates/nooks_main/proofs"):
            os.makedirs(os.path.join(self.top, folder))
        for name in ("nooks", "checks/keeping.sh"):
            shutil.copy2(os.path.join(TOP, name), os.path.join(self.top, name))
        for name in ("crates.txt", "checks/trying.py", "checks/unproved", "checks/prove", "bench/plain/main.rs", "crates/nooks_main/src/main.rt"):
            self.write(name, "#!/bin/sh\necho checks >> calls\n")
        self.lay_tools("bash sh find sort xargs sha256sum cat mkdir mv rm basename dirname readlink flock sleep kill chmod printf".split())

    def lay_tools(self, names: list[str]) -> None:
        """Makes a folder that has only some of the commands of the system."""
        os.makedirs(self.tools, exist_ok=True)
        for name in names:
            found = shutil.which(name)
            if found:
                os.symlink(found, os.path.join(self.tools, name))

    def write(self, name: str, text: str) -> None:
        path = os.path.join(self.top, name)
        os.makedirs(os.path.dirname(path), exist_ok=True)
        with open(path, "w", encoding="utf-8") as file:
            file.write(text)
        os.chmod(path, 0o755)

    def compiler(self, name: str) -> None:
        text = COMPILER.format(folder=self.folder, name=name, program=PROGRAM.format(name="plain").replace("\n", "\\n"))
        self.write(os.path.join(self.tools, name), text)

    def nooks(self, *words: str) -> tuple[int, str, str]:
        ended = subprocess.run([os.path.join(self.top, "nooks"), *words], stdin=subprocess.DEVNULL, capture_output=True,
                               text=True, env={"PATH": self.tools}, check=False)
        return ended.returncode, ended.stdout, ended.stderr

    def keep(self, kind: str) -> None:
        """Puts a program where the scripts keep it, with the checksum of the present sources."""
        self.write(KEPT[kind], PROGRAM.format(name=kind))
        script = f"top='{self.top}'; . '{self.top}/checks/keeping.sh'; sum_of {kind} > '{self.top}/out/{kind}/sum'"
        subprocess.run(["bash", "-c", script], check=True)

    def prove(self) -> None:
        self.write(PROVED, PROGRAM.format(name="proved"))

    def calls(self, name: str) -> int:
        path = os.path.join(self.folder, f"{name}.calls")
        if not os.path.exists(path):
            return 0
        with open(path, encoding="utf-8") as file:
            return len(file.readlines())

    def test_the_best_program_runs_and_standard_error_is_empty(self):
        for name in ("rustc", "rt"):
            self.compiler(name)
        self.keep("plain")
        self.assertEqual(self.nooks("run", "threads"), (0, "plain: run threads\n", ""))
        self.keep("unproved")
        self.assertEqual(self.nooks("gen", "7"), (0, "unproved: gen 7\n", ""))
        self.prove()
        self.assertEqual(self.nooks("--version"), (0, "proved: --version\n", ""))
        self.assertEqual((self.calls("rustc"), self.calls("rt")), (0, 0))

    def test_a_program_older_than_its_sources_is_not_run(self):
        self.keep("plain")
        self.keep("unproved")
        self.prove()
        os.utime(os.path.join(self.top, PROVED), (0, 0))
        self.assertEqual(self.nooks("run"), (0, "unproved: run\n", ""))
        self.write("crates/nooks_main/src/main.rt", "changed\n")
        self.assertEqual(self.nooks("run"), (0, "plain: run\n", ""))
        self.write("bench/plain/main.rs", "changed\n")
        status, out, err = self.nooks("run")
        self.assertEqual((status, out), (70, ""))
        self.assertEqual(err, "nooks: no program is built, and neither rustc nor rt, which build one, is on the path (README.md)\n")

    def test_without_a_program_the_plain_one_is_built_once(self):
        for name in ("rustc", "rt"):
            self.compiler(name)
        status, out, err = self.nooks("run")
        self.assertEqual((status, out, err.count("\n")), (0, "plain: run\n", 1))
        self.assertIn("rustc builds the plain one, in some 20 seconds; nothing is proved of it", err)
        self.assertEqual(self.nooks("run"), (0, "plain: run\n", ""))
        self.assertEqual((self.calls("rustc"), self.calls("rt")), (1, 0))

    def test_without_rustc_the_unproved_one_is_built(self):
        self.compiler("rt")
        made = PROGRAM.format(name="unproved").replace("\n", "\\n")
        self.write("checks/unproved", f"#!/bin/sh\nprintf '{made}' > \"$1\"\nchmod 755 \"$1\"\n")
        status, out, err = self.nooks("run")
        self.assertEqual((status, out, err.count("\n")), (0, "unproved: run\n", 1))
        self.assertIn("rt builds the sources with nothing proved", err)
        self.assertEqual(self.calls("rt"), 0)

    def test_only_prove_proves(self):
        self.assertEqual(self.nooks("--prove")[0], 70)
        self.assertEqual(self.nooks("--prove", "run")[0], 2)
        self.compiler("rt")
        made = PROGRAM.format(name="proved").replace("\n", "\\n")
        self.write("checks/prove", f"#!/bin/sh\necho \"prove: $1 is proved\" >&2\nmkdir -p '{self.top}/crates/nooks_main/out'\n"
                   f"printf '{made}' > '{self.top}/{PROVED}'\nchmod 755 '{self.top}/{PROVED}'\n")
        status, out, err = self.nooks("--prove")
        self.assertEqual((status, out), (0, "proved: --version\n"))
        self.assertIn("prove: nooks_main is proved\n", err)
        self.assertEqual(self.calls("rt"), 1)
        self.assertEqual(self.nooks("--prove"), (0, "proved: --version\n", ""))
        self.assertEqual(self.nooks("run"), (0, "proved: run\n", ""))
        self.assertEqual(self.calls("rt"), 1)


if __name__ == "__main__":
    unittest.main()
