"""The tree that `make install` makes, and the package that pip installs."""

import glob
import gzip
import importlib.machinery
import importlib.util
import json
import os
import re
import shutil
import stat
import subprocess
import sys
import tempfile
import unittest
import urllib.request

from common import TOP, example_path, program

from nooks_bench import __version__

# Debian's folder of the wheels that build a package; with them no network is needed.
WHEELS = "/usr/share/python-wheels"

FILES = """
usr/bin/nooks 755
usr/share/nooks/nooks-bench 755
usr/share/nooks/nooks_bench/cli.py 644
usr/share/nooks/nooks_bench/page_files/page.js 644
usr/share/nooks/nooks_bench/schemas/campaign.schema.json 644
usr/share/nooks/nooks_bench/schemas/scenario.schema.json 644
usr/share/nooks/nooks_bench/tables.json 644
usr/share/nooks/vscode/nooks-asm/package.json 644
usr/share/nooks/vscode/nooks-asm/schemas/scenario.schema.json 644
usr/share/man/man1/nooks.1.gz 644
usr/share/man/man1/nooks-bench.1.gz 644
usr/share/bash-completion/completions/nooks 644
usr/share/bash-completion/completions/nooks-bench 644
usr/share/zsh/vendor-completions/_nooks 644
usr/share/zsh/vendor-completions/_nooks-bench 644
usr/share/vim/vimfiles/syntax/nooksasm.vim 644
usr/share/vim/vimfiles/ftdetect/nooksasm.vim 644
usr/share/doc/nooks/README.md 644
usr/share/doc/nooks/changelog.gz 644
usr/share/doc/nooks/docs/WORKBENCH.md 644
usr/share/doc/nooks/docs/maps/block-traps.svg 644
usr/share/doc/nooks/docs/pages/write-cut.png 644
usr/share/doc/nooks/examples/block.json 644
"""

FOLDERS = ("bin", "share/bash-completion", "share/doc/nooks", "share/man/man1", "share/nooks", "share/vim", "share/zsh")


def run(words: list[str], **more) -> subprocess.CompletedProcess:
    return subprocess.run(words, stdin=subprocess.DEVNULL, capture_output=True, text=True, check=False, **more)


def make(*words: str) -> subprocess.CompletedProcess:
    return run(["make", "-s", "-C", TOP, *words])


@unittest.skipUnless(shutil.which("make"), "there is no make")
class Installed(unittest.TestCase):
    @classmethod
    def setUpClass(cls) -> None:
        cls.holder = tempfile.TemporaryDirectory()
        cls.tree = cls.holder.name
        cls.words = ["PREFIX=/usr", f"DESTDIR={cls.tree}", f"PROGRAM={program().path}"]
        ended = make("install", *cls.words)
        assert ended.returncode == 0, ended.stderr

    @classmethod
    def tearDownClass(cls) -> None:
        cls.holder.cleanup()

    def path(self, name: str) -> str:
        return os.path.join(self.tree, name)

    def text(self, name: str) -> str:
        with (gzip.open if name.endswith(".gz") else open)(self.path(name), "rt", encoding="utf-8") as file:
            return file.read()

    def files(self) -> set[str]:
        found = (os.path.join(folder, name) for folder, _, names in os.walk(self.tree) for name in names)
        return {os.path.relpath(path, self.tree) for path in found}

    def test_files_with_their_modes(self):
        for line in FILES.strip().split("\n"):
            name, mode = line.split(" ")
            self.assertEqual(oct(stat.S_IMODE(os.stat(self.path(name)).st_mode)), f"0o{mode}", name)

    def test_nothing_is_installed_elsewhere(self):
        for name in self.files():
            self.assertTrue(name.startswith(tuple(f"usr/{folder}/" for folder in FOLDERS)), name)
            self.assertNotIn("__pycache__", name)

    def test_links_stay_in_the_tree(self):
        for name in ("usr/bin/nooks-bench", "usr/share/nooks/schemas"):
            target = os.readlink(self.path(name))
            self.assertFalse(os.path.isabs(target))
            self.assertTrue(os.path.exists(self.path(name)))
        for folder, folders, names in os.walk(self.path("usr/share/nooks/vscode")):
            self.assertFalse([name for name in folders + names if os.path.islink(os.path.join(folder, name))])

    def test_all_modules_and_pages_are_there(self):
        for pattern, folder in [
            ("workbench/nooks_bench/*.py", "usr/share/nooks/nooks_bench"),
            ("workbench/nooks_bench/page_files/*", "usr/share/nooks/nooks_bench/page_files"),
            ("docs/*.md", "usr/share/doc/nooks/docs"),
            ("examples/*", "usr/share/doc/nooks/examples"),
        ]:
            for path in glob.glob(os.path.join(TOP, pattern)):
                self.assertTrue(os.path.exists(self.path(os.path.join(folder, os.path.basename(path)))), path)

    def test_the_installed_commands_run(self):
        path = f"{self.path('usr/bin')}:/usr/bin:/bin"
        environment = {"PATH": path, "PYTHONDONTWRITEBYTECODE": "1"}
        with open(example_path("block.json"), encoding="utf-8") as given:
            ended = subprocess.run([self.path("usr/bin/nooks"), "run"], stdin=given, capture_output=True, check=False)
        with open(example_path("block.report"), "rb") as report:
            self.assertEqual((ended.returncode, ended.stdout), (0, report.read()))
        built = run(["nooks-bench", "build", example_path("block.json")], env=environment, cwd="/")
        self.assertEqual((built.returncode, built.stderr), (0, ""))
        swept = run(["nooks-bench", "sweep", example_path("block.json"), "--quiet"], env=environment, cwd="/")
        self.assertEqual(swept.returncode, 0, swept.stderr)
        self.assertIn("faults", swept.stdout)
        page = run(["nooks-bench", "page", example_path("block.json")], env=environment, cwd="/")
        self.assertEqual((page.returncode, page.stderr), (0, ""))
        self.assertIn("</html>", page.stdout)
        self.assertFalse([name for name in self.files() if "__pycache__" in name])

    def test_the_installed_server_runs(self):
        environment = {"PATH": f"{self.path('usr/bin')}:/usr/bin:/bin", "PYTHONDONTWRITEBYTECODE": "1"}
        words = ["nooks-bench", "serve", os.path.dirname(example_path("x"))]
        server = subprocess.Popen(words, env=environment, cwd="/", stdout=subprocess.PIPE, stderr=subprocess.DEVNULL, text=True)
        try:
            address, _, token = server.stdout.readline().strip().partition("?token=")
            with open(example_path("block.json"), encoding="utf-8") as file:
                given = {"task": "run", "file": "block.json", "texts": {"block.json": file.read()}}
            headers = {"X-Nooks-Token": token, "Content-Type": "application/json"}
            asked = urllib.request.Request(f"{address}work", json.dumps(given).encode(), headers)
            with urllib.request.urlopen(asked) as answer:
                self.assertTrue(json.load(answer)["made"]["data"]["status"].startswith("status 0:"))
        finally:
            server.terminate()
            server.communicate()
        self.assertEqual(server.returncode, 0)
        self.assertFalse([name for name in self.files() if "__pycache__" in name])

    def test_man_pages(self):
        nooks, workbench = (self.text(f"usr/share/man/man1/{name}.1.gz") for name in ("nooks", "nooks-bench"))
        for line in program().ask(["--help"], "").out.splitlines():
            about = re.split("  +", line, maxsplit=1)[1]
            self.assertIn(about.replace("-", "\\-").replace("'", "\\(aq"), nooks)
        listed = run([os.path.join(TOP, "workbench/nooks-bench"), "--help"]).stdout
        for name in re.findall(r"(?m)^    ([a-z]+)", listed):
            self.assertIn(f".SS {name}\n", workbench)
            help_text = run([os.path.join(TOP, "workbench/nooks-bench"), name, "--help"]).stdout
            for option in set(re.findall(r"--[a-z-]+", help_text)) - {"--help"}:
                self.assertIn(option.replace("-", "\\-"), workbench)

    @unittest.skipUnless(shutil.which("man"), "there is no man")
    def test_man_shows_the_pages_without_a_warning(self):
        for name in ("nooks", "nooks-bench"):
            shown = run(["man", "--warnings", "-l", self.path(f"usr/share/man/man1/{name}.1.gz")])
            self.assertEqual((shown.returncode, shown.stderr), (0, ""))
            self.assertIn(f"{name.upper()}(1)", shown.stdout)
            self.assertIn(f"nooks {__version__}", shown.stdout)

    def completed(self, command: str, *words: str) -> set[str]:
        """The completions that bash offers for the last word."""
        script = f"""
            source {self.path(f"usr/share/bash-completion/completions/{command}")}
            COMP_WORDS=({command} {" ".join(f"'{word}'" for word in words)}); COMP_CWORD={len(words)}
            _{command.replace("-", "_")}; printf '%s\\n' "${{COMPREPLY[@]}}" """
        ended = run(["bash", "-c", script])
        self.assertEqual((ended.returncode, ended.stderr), (0, ""))
        return set(ended.stdout.split())

    def test_bash_completions(self):
        self.assertLessEqual({"run", "audit", "gen", "trace", "--version"}, self.completed("nooks", ""))
        self.assertEqual(self.completed("nooks", "run", ""), {"threads"})
        self.assertEqual(self.completed("nooks", "gen", "7", ""), {"scenario"})
        self.assertEqual(self.completed("nooks", "gen", "7", "scenario", ""), set())
        self.assertLessEqual({"build", "sweep", "shrink", "--program"}, self.completed("nooks-bench", ""))
        self.assertEqual(self.completed("nooks-bench", "shr"), {"shrink"})
        self.assertEqual(self.completed("nooks-bench", "--program", "x", "shr"), {"shrink"})
        self.assertLessEqual({"--status", "--text"}, self.completed("nooks-bench", "shrink", "--"))
        self.assertIn("hang", self.completed("nooks-bench", "sweep", "--kind", ""))
        self.assertEqual(self.completed("nooks-bench", "sweep", ""), set())

    @unittest.skipUnless(shutil.which("zsh"), "there is no zsh")
    def test_zsh_reads_the_completions(self):
        for name in ("_nooks", "_nooks-bench"):
            ended = run(["zsh", "-n", self.path(f"usr/share/zsh/vendor-completions/{name}")])
            self.assertEqual((ended.returncode, ended.stderr), (0, ""))
            self.assertTrue(self.text(f"usr/share/zsh/vendor-completions/{name}").startswith(f"#compdef {name[1:]}\n"))

    def test_vs_code_has_the_schemas(self):
        folder = self.path("usr/share/nooks/vscode/nooks-asm")
        with open(os.path.join(folder, "package.json"), encoding="utf-8") as file:
            for each in json.load(file)["contributes"]["jsonValidation"]:
                self.assertTrue(os.path.isfile(os.path.join(folder, each["url"])))

    def test_a_second_install_changes_nothing_and_uninstall_leaves_nothing(self):
        before = self.files()
        self.assertEqual(make("install", *self.words).returncode, 0)
        self.assertEqual(self.files(), before)
        with tempfile.TemporaryDirectory() as other:
            words = ["PREFIX=/usr/local", f"DESTDIR={other}", f"PROGRAM={program().path}"]
            self.assertEqual(make("install", *words).returncode, 0)
            self.assertTrue(os.path.exists(os.path.join(other, "usr/local/share/zsh/site-functions/_nooks")))
            self.assertEqual(make("uninstall", *words).returncode, 0)
            self.assertEqual([name for _, _, names in os.walk(other) for name in names], [])

    def test_what_is_no_program_is_refused(self):
        with tempfile.TemporaryDirectory() as other:
            for named, message in [("/bin/true", "/bin/true is no program nooks"), ("/nowhere", "/nowhere is no program")]:
                ended = make("install", f"DESTDIR={other}", f"PROGRAM={named}")
                self.assertNotEqual(ended.returncode, 0)
                self.assertIn(message, ended.stderr)
            ended = make("install", f"DESTDIR={other}", "BUILT=/nowhere/nooks_main")
            self.assertIn("the proved program is not built yet: ./nooks --prove proves and builds it", ended.stderr)
            self.assertIn("out/unproved/nooks, which ./nooks-unproved builds, or out/plain/nooks", ended.stderr)
            old = os.path.join(other, "old")
            shutil.copy(program().path, old)
            os.utime(old, (0, 0))
            ended = make("install", f"DESTDIR={other}/tree", f"BUILT={old}")
            self.assertIn("a source is newer than the proved program", ended.stderr)
            os.remove(old)
            self.assertEqual(os.listdir(other), [])


# The lines with which programs print their version, and what each is called where it is installed.
PROVED = "nooks 9.8.7, proved with some-kit logic 0123"
VERSIONS = {
    PROVED: "nooks 9.8.7",
    "nooks 9.8.7 unproved": "nooks 9.8.7 unproved",
    "nooks 9.8.7 plain, nothing proved": "nooks 9.8.7 unproved",
}


@unittest.skipUnless(shutil.which("make"), "there is no make")
class Unproved(unittest.TestCase):
    """An installation of a program that is not proved says so. The program prints some version, and else is the tested one."""

    def setUp(self) -> None:
        holder = tempfile.TemporaryDirectory()
        self.addCleanup(holder.cleanup)
        self.folder = holder.name

    def program(self, version: str) -> str:
        path = os.path.join(self.folder, "program")
        with open(path, "w", encoding="utf-8") as file:
            file.write(f"#!/bin/sh\n[ \"$1\" = --version ] && exec echo '{version}'\nexec '{program().path}' \"$@\"\n")
        os.chmod(path, 0o755)
        return path

    def test_what_is_installed_is_called_what_it_is(self):
        for version, name in VERSIONS.items():
            path, tree = self.program(version), os.path.join(self.folder, "tree")
            ended = make("install", "PREFIX=/usr", f"DESTDIR={tree}", f"PROGRAM={path}")
            said = "" if version == PROVED else f"make: installing an unproved program: {path} is {name}\n"
            self.assertEqual((ended.returncode, ended.stderr), (0, said))
            with gzip.open(os.path.join(tree, "usr/share/man/man1/nooks.1.gz"), "rt", encoding="utf-8") as page:
                text = page.read()
            self.assertIn(f' "{name}" ', text.split("\n")[0])
            self.assertEqual("proved with some" in text, version == PROVED)
            self.assertEqual(run([os.path.join(tree, "usr/bin/nooks"), "--version"]).stdout, version + "\n")
            shutil.rmtree(tree)

    def test_only_a_proved_program_is_installed_without_a_name(self):
        for version, name in VERSIONS.items():
            path, tree = self.program(version), os.path.join(self.folder, "tree")
            ended = make("install", f"DESTDIR={tree}", f"BUILT={path}")
            if version == PROVED:
                self.assertEqual((ended.returncode, ended.stderr), (0, ""))
                shutil.rmtree(tree)
            else:
                self.assertNotEqual(ended.returncode, 0)
                self.assertIn(f"make: {path} is not proved: it is {name}\n", ended.stderr)
                self.assertFalse(os.path.exists(tree))


class UnprovedTexts(unittest.TestCase):
    """checks/unproved builds from sources whose version ends with "unproved"."""

    def setUp(self) -> None:
        checks = os.path.join(TOP, "checks")
        sys.path.insert(0, checks)
        self.addCleanup(sys.path.remove, checks)
        loader = importlib.machinery.SourceFileLoader("unproved", os.path.join(checks, "unproved"))
        self.script = importlib.util.module_from_spec(importlib.util.spec_from_loader("unproved", loader))
        loader.exec_module(self.script)
        with open(os.path.join(TOP, "crates/nooks/src/texts.rt"), encoding="utf-8") as file:
            self.texts = file.read()

    def test_one_ending_is_replaced(self):
        changed = self.script.unproved_texts(self.texts)
        lines = {name: text.split("\n") for name, text in (("old", self.texts), ("new", changed))}
        self.assertEqual(len(lines["old"]), len(lines["new"]))
        differing = [pair for pair in zip(lines["old"], lines["new"]) if pair[0] != pair[1]]
        self.assertEqual(len(differing), 1)
        self.assertRegex(differing[0][0], rf'= b"nooks {re.escape(__version__)}, proved with [^"]*\\n";$')
        self.assertTrue(differing[0][1].endswith(f'= b"nooks {__version__} unproved\\n";'))

    def test_a_text_that_is_not_there_once_is_refused(self):
        for texts in (self.texts.replace(", proved with", ", shown with"), self.texts * 2, ""):
            with self.assertRaises(self.script.NoVersion):
                self.script.unproved_texts(texts)

    def test_the_sources_of_the_build(self):
        with self.script.unproved_sources() as copy:
            self.assertEqual((copy / "crates/nooks/src/texts.rt").read_text(), self.script.unproved_texts(self.texts))
            self.assertEqual((copy / "crates.txt").read_bytes(), (self.script.TOP / "crates.txt").read_bytes())
            found = [path for path in (copy / "crates").rglob("*.rt") if path.name != "texts.rt"]
            self.assertGreater(len(found), 200)
            for path in found:
                source = self.script.TOP / path.relative_to(copy)
                self.assertEqual(path.read_bytes(), source.read_bytes())
        self.assertFalse(copy.exists())


class Versions(unittest.TestCase):
    def test_the_workbench_has_the_programs_version(self):
        with open(os.path.join(TOP, "crates/nooks/src/texts.rt"), encoding="utf-8") as file:
            found = re.search(r'VERSION: &\[u8\] = b"nooks (\S+),', file.read())
        self.assertEqual(found.group(1), __version__)

    def test_the_extension_has_no_other_schemas(self):
        names = sorted(os.listdir(os.path.join(TOP, "workbench/nooks_bench/schemas")))
        self.assertEqual(names, sorted(os.listdir(os.path.join(TOP, "workbench/editors/vscode/schemas"))))


@unittest.skipUnless(glob.glob(f"{WHEELS}/setuptools-*.whl") and glob.glob(f"{WHEELS}/wheel-*.whl"),
                     "python3-setuptools-whl and python3-wheel-whl are not installed")
class Pip(unittest.TestCase):
    """`pip install .` in a fresh virtual environment of Debian's Python, from a copy, since the build writes files."""

    def test_a_fresh_environment(self):
        with tempfile.TemporaryDirectory() as folder:
            source, environment = os.path.join(folder, "source"), os.path.join(folder, "environment")
            tracked = run(["git", "-C", TOP, "ls-files", "workbench", "pyproject.toml", "docs/WORKBENCH.md"]).stdout.split()
            for name in tracked or self.fail("this is no clone of git"):
                os.makedirs(os.path.dirname(os.path.join(source, name)), exist_ok=True)
                shutil.copy2(os.path.join(TOP, name), os.path.join(source, name), follow_symlinks=False)
            self.assertEqual(run(["/usr/bin/python3", "-m", "venv", environment]).returncode, 0)
            offline = {**os.environ, "PIP_FIND_LINKS": WHEELS, "PIP_NO_INDEX": "1"}
            ended = run([f"{environment}/bin/pip", "install", "-q", source], env=offline)
            self.assertEqual(ended.returncode, 0, ended.stderr)
            command = f"{environment}/bin/nooks-bench"
            away = {"PATH": "/usr/bin:/bin", "NOOKS": program().path}
            self.assertIn(__version__, run([command, "--version"], env=away, cwd=folder).stdout)
            swept = run([command, "sweep", example_path("block.json"), "--quiet"], env=away, cwd=folder)
            self.assertEqual((swept.returncode, swept.stderr), (0, ""))
            self.assertIn(" faults\n", swept.stdout)
            self.assertIn("</html>", run([command, "page", example_path("block.json")], env=away, cwd=folder).stdout)
            os.symlink(program().path, os.path.join(folder, "nooks"))
            on_path = {"PATH": f"{folder}:/usr/bin:/bin"}
            self.assertEqual(run([command, "build", example_path("block.json")], env=on_path, cwd=folder).returncode, 0)


if __name__ == "__main__":
    unittest.main()
