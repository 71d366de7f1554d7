"""The command itself: standard output that cannot be written, options out of range, versions, and the choice of the
program."""

import ast
import os
import re
import subprocess
import sys
import tempfile
import unittest
from unittest import mock

from common import bench, example_path, file_of, program

from nooks_bench import __version__
from nooks_bench import program as program_module
from nooks_bench.cli import SUBCOMMANDS, parser
from nooks_bench.program import TOP, Refusal

COMMAND = os.path.join(TOP, "workbench", "nooks-bench")
PACKAGE = os.path.join(TOP, "workbench", "nooks_bench")
BLOCK = example_path("block.json")
REPORT = example_path("block.report")

# For these subcommands, a call that writes something; the others are called with --help.
CALLS = {
    "build": ["build", BLOCK],
    "sweep": ["sweep", BLOCK, "--every", "50", "--quiet"],
    "map": ["map", BLOCK, "--every", "50", "--quiet", "--no-instructions"],
    "timeline": ["timeline", REPORT],
    "page": ["page", BLOCK, "--traces", "1000"],
    "explain": ["explain", REPORT],
    "replay": ["replay", BLOCK, REPORT],
    "shrink": ["shrink", BLOCK, "--status", "0", "--quiet"],
}


def asked(words: list[str], **streams: object) -> subprocess.CompletedProcess:
    environment = {**os.environ, "NOOKS": program().path}
    return subprocess.run([sys.executable, COMMAND, *words], stderr=subprocess.PIPE, text=True, env=environment,
                          stdin=subprocess.DEVNULL, check=False, **streams)


class StandardOutput(unittest.TestCase):
    def unwritten(self, ended: subprocess.CompletedProcess, words: list[str], about: str) -> None:
        self.assertEqual((ended.returncode, ended.stderr), (5, f"nooks-bench: standard output{about}\n"), words)

    def calls(self) -> list[list[str]]:
        return [CALLS.get(name, [name, "--help"]) for name in SUBCOMMANDS] + [["--help"], ["--version"]]

    @unittest.skipUnless(os.path.exists("/dev/full"), "there is no /dev/full")
    def test_a_full_disk(self):
        for words in self.calls():
            with open("/dev/full", "w", encoding="utf-8") as full:
                self.unwritten(asked(words, stdout=full), words, ": No space left on device")

    def test_closed(self):
        for words in self.calls():
            self.unwritten(asked(words, preexec_fn=lambda: os.close(1)), words, " is closed")

    def test_a_reader_that_went_away(self):
        for words in self.calls():
            reader, writer = os.pipe()
            os.close(reader)
            with os.fdopen(writer, "w") as pipe:
                self.unwritten(asked(words, stdout=pipe), words, ": Broken pipe")

    def test_status_of_fail_on(self):
        """If --fail-on applies and the table cannot be written, the status is that of the output."""
        words = ["sweep", BLOCK, "--every", "50", "--quiet", "--fail-on", "missed"]
        self.assertEqual(asked(words, stdout=subprocess.DEVNULL).returncode, 1)
        self.assertEqual(asked(words, preexec_fn=lambda: os.close(1)).returncode, 5)


class Options(unittest.TestCase):
    def refused(self, words: list[str], about: str) -> None:
        """The options are refused in one line that has `about`, before the program runs."""
        with mock.patch.object(program_module.Program, "ask", side_effect=AssertionError("the program was asked")):
            status, out, err = bench("sweep", BLOCK, *words)
        self.assertEqual((status, out), (2, ""), words)
        self.assertRegex(err, rf"^nooks-bench: .*{re.escape(about)}.*\n$")

    def test_ranges(self):
        for words, about in [
            ("--kind reg --register 99", "--register 99: allowed is a number from 0 to 15"),
            ("--kind reg --register 3-16", "--register 16: allowed"),
            ("--burst 0", "--burst 0: allowed is a number from 1 to 4294967295"),
            ("--kind poke --address 4294967296", "--address 4294967296: allowed"),
            ("--kind reg --register 1 --value 0x100000000", "--value 4294967296: allowed"),
            ("--call 0", "--call 0: allowed"),
            ("--call 1 --try 0", "--try 0: allowed"),
            ("--every 0", "--every 0: allowed"),
            ("--random 0", "--random 0: allowed"),
            ("--seed=-1", "--seed -1: allowed"),
            ("--part 8", "--part 8: allowed is a number from 0 to 7"),
            ("--limit 17", "--limit 17: allowed is a number from 0 to 16"),
            ("--schedules 0", "--schedules 0: allowed"),
            ("--schedules 2 --seed 18446744073709551615", "--seed 18446744073709551615 and --schedules 2"),
            ("--jobs 0", "--jobs 0: allowed"),
            ("--burst 5-3", "'5-3' is no range"),
        ]:
            self.refused(words.split(), about)

    def test_options_of_other_kinds(self):
        for words, about in [
            ("--register 3", "--register is for --kind reg; the kinds are trap"),
            ("--kind hang --address 3", "--address is for --kind poke or --kind code; the kinds are hang"),
            ("--value 3", "--value is for --kind poke or --kind code or --kind reg; the kinds are trap"),
            ("--random 5 --kind trap --kind reg --address 3", "--address is for"),
            ("--kind code", "--kind code needs --address, or --random"),
            ("--kind reg --value 1", "--kind reg needs --register, or --random"),
            ("--try 1", "--try is for --call"),
            ("--resume", "--resume is for --journal"),
            ("--dask-program x", "--dask-program is for --dask"),
        ]:
            self.refused(words.split(), about)

    def test_a_mistake_of_the_subcommands(self):
        for words in ([], ["nothing"], ["--program"]):
            status, out, err = bench(*words)
            self.assertEqual((status, out), (2, ""))
            self.assertIn("nooks-bench: error: ", err)


class Programs(unittest.TestCase):
    def test_versions(self):
        status, out, _ = bench("--version")
        lines = out.splitlines()
        self.assertEqual((status, lines[0]), (0, f"nooks-bench {__version__}"))
        own = program().version()
        self.assertEqual(lines[1:], [f"{program().path}: {own or 'has no --version'}"])
        with open(os.path.join(TOP, "CHANGELOG.md"), encoding="utf-8") as file:
            self.assertEqual(re.search(r"(?m)^## (\S+)$", file.read())[1], __version__)
        if own:
            self.assertEqual(own.replace(",", " ").split()[1], __version__)

    def test_no_nooks_program(self):
        for path in ("/bin/true", "/bin/cat", "/bin/false"):
            status, out, err = bench("--program", path, "sweep", BLOCK)
            self.assertEqual((status, out), (2, ""))
            self.assertIn(f"{path} is no nooks program", err)
        for path in ("/", "/etc/passwd", "/not/there"):
            self.assertIn(f"{path} is no program that can be run", bench("sweep", BLOCK, "--program", path)[2])

    def test_which_program_is_taken(self):
        """In order: --program, NOOKS, the first that is built, the installed one."""
        with tempfile.TemporaryDirectory() as folder:
            names = ["named", "environment", "proved", "unproved", "plain", "nooks"]
            paths = {name: os.path.join(folder, name) for name in names}
            for name, path in paths.items():
                with open(path, "w", encoding="utf-8") as file:
                    file.write(f"#!/bin/sh\necho nooks 1.0 {name}\n")
                os.chmod(path, 0o755)
            built = {name: paths[name] for name in ("proved", "unproved", "plain")}
            environment = {"NOOKS": paths["environment"], "PATH": folder + ":/bin:/usr/bin"}
            words = ["--program", paths["named"]]
            with mock.patch.object(program_module, "BUILT", built), mock.patch.dict(os.environ, environment):
                self.assertEqual(bench(*words, "--version")[1].splitlines()[1], f"{paths['named']}: nooks 1.0 named")
                for name in names[1:]:
                    self.assertEqual(bench("--version")[1].splitlines()[1], f"{paths[name]}: nooks 1.0 {name}")
                    os.environ.pop("NOOKS", None)
                    os.remove(paths[name])
                status, out, err = bench("--version")
            self.assertEqual((status, out), (0, f"nooks-bench {__version__}\n"))
            self.assertIn("no program is built", err)

    def test_a_refusal_is_reported_once(self):
        """A refusal that is passed on from another process has its text once."""
        line = "fault 5 number_range /faults/0/register"
        self.assertEqual(str(Refusal(*Refusal(line).args)), f"the program refuses the input: {line}")


class Imports(unittest.TestCase):
    def test_a_subcommand_imports_its_own_alone(self):
        code = "import sys; from nooks_bench.cli import main; main(sys.argv[1:]); print(*sys.modules, file=sys.stderr)"
        for name, other in (("explain", "sweep"), ("build", "sweep"), ("sweep", "timeline"), ("replay", "map")):
            ended = subprocess.run([sys.executable, "-c", code, name, "--help"], capture_output=True, text=True,
                                   cwd=os.path.dirname(PACKAGE), check=True)
            modules = ended.stderr.split()
            self.assertIn(f"nooks_bench.{name}", modules)
            self.assertNotIn(f"nooks_bench.{other}", modules)

    def test_the_help_is_the_same(self):
        self.assertEqual(parser([]).format_help(), parser().format_help())

    def test_no_cycles(self):
        """No modules import each other, not even in a function or for their types."""
        imports = {}
        for file in filter(lambda name: name.endswith(".py"), os.listdir(PACKAGE)):
            with open(os.path.join(PACKAGE, file), encoding="utf-8") as opened:
                nodes = ast.walk(ast.parse(opened.read()))
            found = [node for node in nodes if isinstance(node, ast.ImportFrom) and node.level == 1]
            imports[file[:-3]] = {name for node in found for name in ([node.module] if node.module else [a.name for a in node.names])}
        self.assertIn("outcomes", imports["batches"])
        left = {name: {each for each in names if each in imports} for name, names in imports.items()}
        while free := [name for name, names in left.items() if not names]:
            left = {name: names - set(free) for name, names in left.items() if name not in free}
        self.assertEqual(left, {})


class People(unittest.TestCase):
    """sweep reads what build reads."""

    def test_the_same_table(self):
        words = ["--call", "1", "--every", "9", "--quiet"]
        path = os.path.join(TOP, "workbench", "examples", "write.jsonc")
        status, out, err = bench("sweep", path, *words)
        self.assertEqual((status, err), (0, ""))
        with file_of(bench("build", path)[1]) as exact:
            self.assertEqual(bench("sweep", exact, *words), (0, out, ""))

    def test_a_refused_scenario_is_reported_at_its_position(self):
        text = '{"version": 1,\n "parts": [],\n "threads": [] // none\n}\n'
        for whole in (text, text.replace(" // none", "")):
            with file_of(whole) as path:
                status, _, err = bench("sweep", path)
            self.assertEqual(status, 2)
            self.assertIn(f"{path}:2:11: /parts: ", err)

    def test_a_campaign(self):
        status, _, err = bench("sweep", example_path("campaign-block.json"))
        self.assertEqual(status, 2)
        self.assertIn("is a campaign", err)


if __name__ == "__main__":
    unittest.main()
