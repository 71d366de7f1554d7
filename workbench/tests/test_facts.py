"""The tables made of the sources: the file is current, and the workbench has words for exactly what the tables list."""

import os
import re
import subprocess
import unittest
import zipfile
from tempfile import TemporaryDirectory

from common import TOP, program

from nooks_bench import asm_faults, engines, facts, heatmap_svg, inject_code, inject_mutants, ports, refused, report, times, trace, words
from nooks_bench.outcomes import COUNTED


class Tables(unittest.TestCase):
    def test_the_files_are_current(self):
        ended = subprocess.run([os.path.join(TOP, "checks/tables"), "--check"], capture_output=True, text=True, check=False)
        self.assertEqual((ended.returncode, ended.stderr), (0, ""), ended.stdout)

    def test_help_is_that_of_the_program(self):
        printed = re.findall(r"(?m)^nooks (\S+(?: \S+)*)  +(\S.*)$", program().ask(["--help"], "").out)
        self.assertEqual([(row["words"], row["about"]) for row in facts.TABLES["forms"]], printed)
        statuses = re.findall(r"(?m)^status (\d+) +(\S.*)$", program().ask(["--help"], "").out)
        self.assertEqual([(str(row["number"]), row["means"]) for row in facts.TABLES["statuses"]], statuses)

    def test_what_reads_refuses_what_is_too_long(self):
        too_long = " " * (max(facts.LIMITS["INPUT_BYTES"], facts.LIMITS["AUDIT_BYTES"]) + 1)
        arguments = {"N": "1", "P": "0", "B": "1"}
        for row in facts.TABLES["forms"]:
            words = [arguments.get(word, word) for word in row["words"].split(" ")]
            ended = program().ask(words, too_long if row["reads"] else "")
            self.assertEqual(ended.status, facts.STATUSES["bad_input"] if row["reads"] else 0, row["words"])

    def test_a_table_of_each_kind(self):
        self.assertEqual(facts.OPERANDS["BLT"], "a b imm")
        self.assertEqual((facts.OPCODES["FAULT"], facts.SERVICES[6], facts.REGISTERS), (24, "net_rx", 16))
        self.assertEqual(facts.CLASSES["sound"].entries[1:4], ("open", "play", "close"))
        self.assertEqual([each.default for each in facts.CLASSES["net"].registers], [100, 1, 0, 0])
        self.assertEqual(facts.CLASSES["block"].keys_of_version_2, ("bad",))
        self.assertEqual(facts.FAULT_KINDS["reg"]["register"].ends, (0, 15))
        self.assertEqual(facts.INPUTS["fault"]["after"].ends, (0, 4095))
        self.assertEqual(facts.INPUTS["part"]["arrivals"].each.length, (1, 64))
        self.assertEqual((facts.FAULT_LINES[10], facts.FAULT_LINES[14]), ("double_name", "no_such_burst"))
        self.assertEqual(facts.MEMORY_MAP["MEMORY_WORDS"], 8192)
        with self.assertRaises(ValueError):
            facts.INPUTS["part"]["faults"].ends
        with self.assertRaises(ValueError):
            facts.INPUTS["part"]["limit"].length

    def test_workers_get_the_tables(self):
        with TemporaryDirectory() as folder, zipfile.ZipFile(engines.package_file(folder)) as packed:
            self.assertIn("nooks_bench/tables.json", packed.namelist())


class EachAndNoOther(unittest.TestCase):
    def test_causes(self):
        traps = {f"trap {name}" for name in facts.WORDS["traps"]}
        known = {form.split(" {")[0].removesuffix(" 0") for form in words.CAUSES}
        self.assertEqual(known, traps | set(facts.WORDS["causes"]) - {"trap"})

    def test_letters(self):
        self.assertEqual(tuple(times.STAGES), facts.WORDS["stages"])
        self.assertEqual(set(times.ACTS), set(facts.WORDS["acts"]))
        self.assertEqual(tuple(times.STRIKES), tuple(facts.FAULT_KINDS))
        for letters in (times.STAGES, times.ACTS, times.STRIKES):
            self.assertEqual(len(set(letters.values())), len(letters))

    def test_lines_of_a_report(self):
        self.assertEqual(facts.WORDS["ending"], ("tap", "status"))
        self.assertEqual(report.LEFT, {"object", "disk", "wire", "played"})
        self.assertLessEqual({*report.LEFT, *report.LOSSES, "config", "failures", "contract"}, set(facts.WORDS["closing"]))

    def test_losses(self):
        self.assertEqual(set(times.LOSSES), set(COUNTED))

    def test_input_errors(self):
        of_scenarios = {name for number, name in facts.FAULT_LINES.items() if number <= 10}
        self.assertEqual({*refused.FINDERS, "bad_asm"}, of_scenarios)
        self.assertEqual(tuple(asm_faults.FINDERS), tuple(facts.ASM_FAULTS.values()))

    def test_instructions(self):
        self.assertEqual({mnemonic.group for mnemonic in facts.MNEMONICS.values()}, set(facts.GROUPS))
        self.assertLessEqual(set(heatmap_svg.GROUP_FILLS), set(facts.GROUPS))
        ends = {name for name, mnemonic in facts.MNEMONICS.items() if not mnemonic.next}
        self.assertLessEqual({"JMP", "JR", "RET", "FAULT"}, ends)
        self.assertFalse({"BEQ", "JAL", "KCALL", "OUT", "LD"} & ends)
        self.assertEqual(inject_code.ROLES["ST"], (inject_code.SOURCE, inject_code.POINTER, inject_code.NUMBER))
        self.assertEqual(inject_code.ROLES["JAL"], (inject_code.DESTINATION, inject_code.TARGET))
        self.assertLessEqual({"LI", "ADDI", "LD", "ST"}, set(inject_mutants.COUNTING))
        self.assertFalse({"LUI", "ADD", "BEQ", "IN", "KCALL"} & set(inject_mutants.COUNTING))
        self.assertLessEqual({"BEQ": "=", "BNE": "!=", "BLT": "<"}.items(), trace.COMPARED.items())

    def test_faults_stop_the_driver_or_change_something(self):
        self.assertLessEqual({"trap": "trap injected", "hang": "trap hang"}.items(), facts.STOPS.items())
        self.assertLessEqual({"poke": "memory", "code": "text", "reg": "register"}.items(), facts.CHANGES.items())
        self.assertLessEqual(set(facts.CHANGES.values()), set(trace.CHANGED))

    def test_ports(self):
        self.assertEqual(set(facts.PORTS), {*facts.CLASSES, "registers"})
        for kind, named in ports.PORTS.items():
            there = {(way, port) for way, numbers in facts.PORTS[kind].items() for port in numbers}
            self.assertEqual(set(named), there, kind)
        self.assertEqual(set(ports.COMMANDS), set(facts.CLASSES))


if __name__ == "__main__":
    unittest.main()
