"""trace: a burst next to the driver's source, with the words that it writes to ports and reads from them."""

import json
import os
import re
import unittest

from common import DATA, TOP, bench, example, example_path, example_text, file_of, program

from nooks_bench.ports import COMMANDS, FIRST_REGISTER, PORTS, REGISTERS, command_name, port_name
from nooks_bench.trace_text import Struck, parse_trace


def traced(*words: str) -> list[str]:
    status, out, err = bench("trace", *words)
    assert (status, err) == (0, ""), err
    return out.rstrip("\n").split("\n")


def instruction_lines(lines: list[str]) -> list[str]:
    return [line for line in lines if re.match(r" *\d+ +\d+  [A-Z-]", line)]


class Traces(unittest.TestCase):
    def test_instructions_next_to_the_source(self):
        lines = traced("0", "4", example_path("foreign-write.json"))
        self.assertEqual(lines[0], "part 0 disk, block, burst 4, event 11, context 0: c2 read 3 1")
        self.assertEqual(lines[1], "start at 4 (read), r1 = 3, r2 = 1, r3 = 5184, r14 = 4160; all other registers 0")
        self.assertEqual(lines[2], "device: block register = 3 (set in b3, context 0)")
        rows = [re.split(r" {2,}", line.strip()) for line in lines]
        for row in [
            ["3", "6", "OUT r1 1", "3 to block register", "13", "rblk: OUT r1 1"],
            ["4", "7", "OUT r6 0", "1 to command (load) | load 3", "14", "OUT r6 0"],
            ["6", "9", "IN r8 2", "r8 = 301 from buffer word", "16", "rword: IN r8 2"],
            ["7", "10", "ST r8 r3 0", "[5184] = 301", "17", "ST r8 r3 0"],
            ["-- fault strikes after 7: r3 = 7690"],
            ["10", "13", "BLT r7 r5 9", "1 < 16, goto 9", "20", "BLT r7 r5 rword"],
            ["12", "10", "ST r8 r3 0", "would store 302 at 7691", "17", "ST r8 r3 0"],
        ]:
            self.assertIn(row, rows)
        self.assertEqual(lines[-1], "      trap foreign_write 7691: it wrote to address 7691, which is not its own")

    def test_each_out_has_its_word(self):
        given = example("sound-skips.json")
        for burst in range(1, 17):
            trace = parse_trace(program().answer(["trace", "0", str(burst)], json.dumps(given)).out)
            played = [act.split(" ")[1] for executed in trace.executed() for act in executed.acts if act.startswith("played ")]
            words = [str(executed.value(0)) for executed in trace.executed() if executed.instruction.startswith("OUT") and executed.acts]
            words = words if played else []
            self.assertEqual(words, played)

    def test_the_device_as_a_burst_finds_it(self):
        lines = traced("0", "6", example_path("link-loses.json"))
        self.assertEqual(lines[2], "device: transmit length = 0 (not set since the reset)")
        lines = traced("0", "9", example_path("sound-skips.json"))
        self.assertEqual(lines[2], "device: register 0, rate = 44100 (set in b5); register 1, volume = 3 (set in b7)")

    def test_the_device_as_another_context_left_it(self):
        """Two sends race, since the driver yields between the transmit length and the words."""
        text = example_text("net.asm").replace("LI r6 1             ; the command to send", "KCALL 8\n        LI r6 1")
        self.assertIn("KCALL 8\n", text)
        threads = [{"name": f"t{number}", "ops": [{"part": 0, "op": "send", "frame": [number + 1] * (2 + 3 * number)}]}
                   for number in range(2)]
        part = {"name": "wire", "class": "net", "limit": 0, "driver": {"asm": text}}
        given = {"version": 1, "parts": [part], "threads": threads}
        report = program().report(given)
        self.assertIn("contract broken", report)
        sent = re.search(r"x(\d+) c\d+ b(\d+) .*sent \[", report)
        with file_of(given) as path:
            lines = traced("0", sent[2], path)
        other = 1 - int(sent[1])
        setting = re.search(rf"x{other} c\d+ b(\d+) n2 service 8", report)[1]
        length = len(threads[other]["ops"][0]["frame"])
        self.assertEqual(lines[2], f"device: transmit length = {length} (set in b{setting}, context {other})")

    def test_lines_that_are_labels_alone(self):
        given = example("block.json")
        asm = given["parts"][0]["driver"]["asm"]
        given["parts"][0]["driver"]["asm"] = asm.replace("wword: ", "; a comment\nwword:\n  ", 1)
        self.assertNotEqual(given, example("block.json"))
        with file_of(given) as path:
            lines = traced("0", "3", path)
        at = next(index for index, line in enumerate(lines) if line.strip() == "wword:")
        self.assertIn("LD r8 r3 0", lines[at + 1])

    def test_an_image_has_its_entries(self):
        given = example("write-and-read.json")
        given["parts"][0]["driver"] = {"image": json.loads(example_text("block.image"))}
        with file_of(given) as path:
            lines = traced("0", "3", path)
        self.assertEqual(lines[1].split(",")[0], "start at 18 (write)")
        self.assertEqual(len([line for line in lines if line.strip() == "write:"]), 1)
        self.assertEqual(len(instruction_lines(lines)), 90)

    def test_code_that_was_overwritten(self):
        given = example("write-and-read.json")
        given["parts"][0]["faults"] = [
            {"burst": 3, "after": 0, "kind": "code", "address": 20, "value": 0x01D00003},
            {"burst": 3, "after": 1, "kind": "poke", "address": 100, "value": 3},
            {"burst": 3, "after": 200, "kind": "trap"},
        ]
        with file_of(given) as path:
            lines = traced("0", "3", path)
        self.assertIn("  -- fault strikes after 0: the text at 20 = 30408707", lines)
        self.assertIn("  -- fault strikes after 1: [100] = 3, refused: nothing is changed", lines)
        changed = next(line for line in lines if re.match(r" +3 +20 ", line))
        self.assertIn("LI r13 3", changed)
        self.assertTrue(changed.endswith("<- overwritten: the text has LI r9 2 here"), changed)
        self.assertIn("0 to command (no command: nothing happens)", "\n".join(lines))
        self.assertEqual(lines[-1], "fault 2: trap after 200 instructions of burst 3 did not strike: burst 3 ended after 90 instructions")

    def test_registers_follow_each_line(self):
        text = "trace 0 d burst 3 context 0 call 1\nstart 4 r2 7\nfault 0 reg 2 9\n1 4 MOV r1 r2 | r1 9\n2 5 OUT r1 0\nn2 pause\n"
        trace = parse_trace(text)
        self.assertEqual(trace.items[0], Struck(0, "reg 2 9"))
        self.assertEqual([executed.before for executed in trace.executed()], [{2: 9}, {2: 9, 1: 9}])

    def test_scenarios_as_people_write_them(self):
        path = os.path.join(TOP, "workbench/examples/write.jsonc")
        self.assertEqual(len(instruction_lines(traced("0", "3", path))), 176)

    def test_mistakes(self):
        path = example_path("block.json")
        for words in [["0", "99", path], ["3", "1", path], ["0", "1", os.path.join(DATA, "nothing.json")]]:
            self.assertEqual(bench("trace", *words)[:2], (2, ""), words)


class Ports(unittest.TestCase):
    """The names of ports are those of docs/DEVICES.md."""

    def sections(self) -> dict[str, str]:
        with open(os.path.join(TOP, "docs/DEVICES.md"), encoding="utf-8") as file:
            text = file.read()
        names = {"block": "## The disk", "net": "## The net device", "sound": "## The sound device"}
        return {kind: text[text.index(head) :].split("\n## ")[0] for kind, head in names.items()}

    def test_each_port_and_direction(self):
        for kind, section in self.sections().items():
            text = section.partition("| Word |")[0]
            rows = re.findall(r"(?m)^\| (\d) \| (.*?) ?\| (.*?) ?\|$", text)
            documented = {(way, int(port)) for port, read, written in rows for way, about in (("IN", read), ("OUT", written)) if about}
            self.assertEqual(set(PORTS[kind]), documented, kind)

    def test_each_command(self):
        for kind, text in self.sections().items():
            rows = re.findall(r"(?m)^\| (\d) \| .*? \| `\w+ ", text)
            self.assertEqual(set(COMMANDS[kind]), {int(row) for row in rows}, kind)

    def test_each_register_and_default(self):
        with open(os.path.join(TOP, "docs/DEVICES.md"), encoding="utf-8") as file:
            rows = re.findall(r"(?m)^\| (block|net|sound) \| (.*) \|$", file.read())
        self.assertEqual(len(rows), 3)
        for kind, row in rows:
            documented = tuple((name, int(default)) for name, default in re.findall(r"(\w+): (\d+)", row))
            self.assertEqual(REGISTERS[kind], documented)

    def test_names(self):
        self.assertEqual(port_name("sound", "OUT", FIRST_REGISTER), "register 0, rate")
        self.assertEqual(port_name("sound", "IN", 0), "")
        self.assertEqual(command_name("net", 0, 1), "send")
        self.assertEqual(command_name("net", 0, 5), "no command: nothing happens")
        self.assertEqual(command_name("net", 2, 1), "")


if __name__ == "__main__":
    unittest.main()
