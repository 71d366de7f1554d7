"""Refused inputs: each mistake is explained in one sentence, with its line and column and a fix."""

import json
import re
import tempfile
import unittest

from common import bench, example, example_text, file_of, program

from nooks_bench.asm_faults import DIRECTIVES, FORMS, KINDS, asm_fault
from nooks_bench.refused import explain_asm, explain_fault, parse_fault
from nooks_bench.source import Node, Position, Reader

try:
    import hypothesis
    from hypothesis import strategies
except ImportError:
    hypothesis = None


def set_at(value, path, new) -> None:
    """Puts a value at a path; None removes the one that is there."""
    for step in path[:-1]:
        value = value[step]
    if new is None:
        del value[path[-1]]
    else:
        value[path[-1]] = new


def sentence_of(name: str, *changes) -> str:
    """The sentence about an example with some changes, without its file and position; `build` must print the same."""
    given = example(name)
    for path, new in changes:
        set_at(given, path, json.loads(json.dumps(new)))
    is_campaign = "base" in given
    text = json.dumps(given)
    if is_campaign:
        line = program().ask(["campaign"], text).out
    else:
        line = program().fault_of(text)
    said = str(explain_fault(parse_fault(line), Reader(text, "f").whole()))
    if not is_campaign:
        with file_of(text) as path:
            status, _, err = bench("build", path)
        assert status == 2
        assert err.replace(f"nooks-bench: {path}:", "f:").rstrip("\n") == said, (err, said)
    return re.sub(r"^f:\d+:\d+: ", "", said)


OP = ("threads", 0, "ops", 0)
FAULT = {"burst": 1, "after": 0, "kind": "reg", "address": 1, "value": 3}

SENTENCES = [
    ("media-errors.json", [(("version",), 1)], '/parts/0: "bad" needs version 2, and this scenario has version 1: write "version": 2'),
    ("block.json", [(("parts", 0, "driver"), {"asm": example_text("net.asm")})],
     "/parts/0/driver: the driver is of class net, the part of class block"),
    ("block.json", [(("parts", 0, "driver"), {"image": json.loads(example_text("net.image"))})],
     "/parts/0/driver: the driver is of class net, the part of class block"),
    ("block.json", [(("parts", 0, "driver", "image"), {})], '/parts/0/driver: a driver has either "asm" or "image", and this one has both'),
    ("block.json", [(("parts", 0, "driver"), {})], 'a driver has either "asm" or "image", and this one has neither'),
    ("block.json", [((*OP, "part"), 5)],
     "/threads/0/ops/0/part: 5 is out of range; expected 0, since there is 1 part"),
    ("mirror-outlives.json", [(("threads",), [{"name": "t", "ops": [{"part": 5, "op": "recv"}]}])],
     "/threads/0/ops/0/part: 5 is out of range; expected 0 to 1, since there are 2 parts"),
    ("media-errors.json", [(("parts", 0, "bad", 0, "block"), 200)],
     "/parts/0/bad/0/block: 200 is out of range; expected 0 to 7, since there are 8 blocks"),
    ("block.json", [(("parts",), [])], "/parts: the list is too short: 0 items; expected a list of 1 to 8 items"),
    ("block.json", [(("threads",), [{"name": f"x{index}", "ops": []} for index in range(17)])],
     "/threads: the list is too long: 17 items; expected a list of up to 16 items"),
    ("block.json", [(("parts", 0, "class"), "blok")],
     '/parts/0/class: "blok" is not a class (did you mean "block"?); expected "block" or "net" or "sound"'),
    ("block.json", [(("parts", 0, "limmit"), 1)],
     '/parts/0: unknown key "limmit" of a part of class block (did you mean "limit"?); expected an object with '
     "name, class, blocks, driver and optionally limit, faults"),
    ("block.json", [(("parts", 0, "faults"), [FAULT])],
     '/parts/0/faults/0: unknown key "address" of a fault of kind reg; expected an object with '
     "burst, after, kind, register, value"),
    ("block.json", [((*OP, "first"), -1)],
     "/threads/0/ops/0/first: wrong kind of value: -1; expected a whole number from 0 to 4294967295, in digits alone"),
    ("block.json", [(("parts", 0, "name"), "D 1")],
     '/parts/0/name: "D 1" is not a valid name; expected a text: 1 to 16 of a to z, 0 to 9 and _; no earlier one has it'),
    ("mirror-outlives.json", [(("parts", 1, "name"), example("mirror-outlives.json")["parts"][0]["name"])],
     f'/parts/1/name: duplicate name "{example("mirror-outlives.json")["parts"][0]["name"]}": an earlier part has it'),
    ("campaign-block.json", [(("faults",), [])], "/faults: the list is too short: 0 items; expected a list of 1 to 4096 items: "
     "one for each member"),
    ("campaign-block.json", [(("base", *OP[:3]), [{"part": 0, "op": "get", "key": 1}] * 70)],
     "/base/threads: the threads have 70 operations together; a campaign's base has at most 64"),
    ("campaign-block.json", [(("base", "parts", 0, "faults"), [{"burst": 1, "after": 0, "kind": "trap"}] * 64)],
     "/base/parts/0/faults: a part has at most 64 faults, and this one has its own 64, 1 of a member"),
    ("campaign-block.json", [(("faults", 0), {"burst": 1, "after": 0, "kind": "trap", "value": 3})],
     '/faults/0: unknown key "value" of a fault of kind trap; expected an object with burst, after, kind'),
    ("campaign-block.json", [(("base", "version"), 1), (("base", "parts", 0, "bad"), [])],
     '/base/parts/0: "bad" needs version 2, and this scenario has version 1: write "version": 2'),
    ("campaign-block.json", [(("part",), 1)], "/part: 1 is out of range; expected 0, since there is 1 part"),
    ("campaign-block.json", [(("faults",), None)], 'a campaign has one of "faults", "members", "every", and this one has none'),
]

TRAP = {"burst": 1, "after": 0, "kind": "trap"}
EVERY = [(("faults",), None), (("every",), [{"kind": "trap"}])]
MEMBERS = [(("faults",), None), (("members",), [[TRAP], [TRAP] * 16])]
OWN_FAULTS = ("base", "parts", 0, "faults")

# These need a program whose campaigns have `members`, `every`, `guard` and `detail`.
NEWER_SENTENCES = [
    ("campaign-block.json", [(("members",), [])], 'a campaign has one of "faults", "members", "every", and this one has more'),
    ("campaign-block.json", [*EVERY, (("members",), [])], 'a campaign has one of "faults", "members", "every", and this one has more'),
    ("campaign-block.json", [(("members",), []), (("gard",), True)], 'unknown key "gard" of this object (did you mean "guard"?); expected'),
    ("campaign-block.json", [(("guard",), 1)], "/guard: wrong kind of value: 1; expected true or false: whether each run is the guarded one"),
    ("campaign-block.json", [*EVERY, (("every", 0), TRAP)],
     '/every/0: unknown keys "burst", "after" of a fault of kind trap; expected an object with kind'),
    ("campaign-block.json", [*EVERY, (("every", 0), {"kind": "reg", "value": 1})], 'missing key "register"; expected a whole number from 0 to 15'),
    ("campaign-block.json", [*EVERY, (("every",), [{"kind": "trap"}] * 65)], "/every: the list is too long: 65 items; expected a list of 1 to 64 items"),
    ("campaign-block.json", [*MEMBERS, (("members", 0), [])], "/members/0: the list is too short: 0 items; expected a list of 1 to 16 items"),
    ("campaign-block.json", [*MEMBERS, (("members", 1, 3, "kind"), "trp")], '/members/1/3/kind: unknown name "trp" (did you mean "trap"?)'),
    ("campaign-block.json", [*MEMBERS, (OWN_FAULTS, [TRAP] * 49)],
     "/base/parts/0/faults: a part has at most 64 faults, and this one has its own 49, 16 of a member"),
    ("campaign-block.json", [(("guard",), True), (("base", "parts", 0, "limit"), 9), (OWN_FAULTS, [TRAP] * 54)],
     "/base/parts/0/faults: a part has at most 64 faults, and this one has its own 54, 1 of a member, up to 10 traps of a guard"),
]
if program().has_campaign_key("guard"):
    SENTENCES += NEWER_SENTENCES


class Sentences(unittest.TestCase):
    def test_an_image_has_its_own_paths(self):
        given = json.loads(example_text("block.image"))
        given["text"][2] = "0000000g"
        text = json.dumps(given)
        said = str(explain_fault(parse_fault(program().ask(["dis"], text).out), Reader(text, "f").whole()))
        self.assertRegex(said, r'^f:1:\d+: /text/2: "0000000g" is not a word of an image; expected a text: exactly eight')

    def test_each_says_one_thing(self):
        for name, changes, sentence in SENTENCES:
            self.assertEqual(sentence_of(name, *changes)[: len(sentence)], sentence)

    def test_none_says_two_things(self):
        for name, changes, _ in SENTENCES:
            self.assertNotRegex(sentence_of(name, *changes).split("; expected")[0], r", or ")

    def test_an_input_of_two_megabytes(self):
        text = json.dumps(example("block.json")) + " " * 2_000_000
        line = program().ask(["run"], text).out
        with file_of(text) as path, file_of(line, ".line") as refused:
            status, out, _ = bench("explain", refused, "--input", path)
        self.assertEqual((status, out), (0, f"{path}:1:1: the input has {len(text):,} bytes; at most 1,048,576 are read\n"))

    def test_build_knows_the_size_too(self):
        thread = {"name": "t", "ops": [{"repeat": 250, "of": {"part": 0, "op": "send", "frame": [{"repeat": 250, "of": 4_000_000_000}]}}]}
        given = {**example("net.json"), "threads": [{**thread, "name": f"t{index}"} for index in range(2)]}
        with file_of(given) as path:
            status, out, err = bench("build", path)
        self.assertEqual((status, out), (2, ""))
        self.assertRegex(err, r":1:1: the scenario has 1,\d\d\d,\d\d\d bytes as the program reads it; it reads at most 1,048,576$")


class Encodings(unittest.TestCase):
    def test_other_encodings_than_utf_8(self):
        cases = [
            (b"\xef\xbb\xbf{}", "1:1: the file begins with a byte order mark"),
            ("{}".encode("utf-16"), "1:1: the file is UTF-16"),
            ("{}".encode("utf-32"), "1:1: the file is UTF-32"),
            (b'{\n "a": "\xe4"}', "2:8: byte 9 is not UTF-8"),
        ]
        for data, sentence in cases:
            with tempfile.NamedTemporaryFile() as file:
                file.write(data)
                file.flush()
                cure = ": save it as UTF-8 without a byte order mark\n"
                self.assertEqual(bench("build", file.name), (2, "", f"nooks-bench: {file.name}:{sentence}{cure}"))


ASM = [
    (".class sound\n  li r1 0\n", 2, 3, "'li' is not a mnemonic: mnemonics are upper case, LI"),
    (".class sound\nADDD r1 r2\n", 2, 1, "'ADDD' is not a mnemonic (did you mean ADD?)"),
    ("class sound\n", 1, 1, "'class' is not a mnemonic (did you mean the directive .class?)"),
    (".class audio\n", 1, 8, "'audio' is not a class: block, net or sound"),
    (".class sound\n.entry read x\n", 2, 8, "'read' is not an entry of class sound: init, open, play, close, get, set"),
    (".class sound\n LI r1 -1\n", 2, 8, "'-1' is not a name, definition, directive or number: a number is digits alone, and not negative"),
    (".class sound\n LI r1 1 // one\n", 2, 10, "'//' is not a name, definition, directive or number: a comment begins with ;"),
    (".class sound\nLI r1\n", 2, 1, "too few operands; LI takes a register and a number or a label"),
    (".class sound\nMOV r1 2\n", 2, 8, "expected a register, found '2'; MOV takes two registers"),
    (".class sound\nRET r1 r2\n", 2, 8, "one operand too many, 'r2'; RET takes a register"),
    (".class sound\nJMP r3\n", 2, 5, "expected a number or a label, found the register 'r3'; JMP takes a number or a label"),
    (".class sound\nr1: RET r1\n", 2, 1, "'r1' is a register and cannot be a label"),
    (".entry init 0\n.class sound\n", 1, 1, ".entry before .class: the class must come first"),
    (".class sound\n.data\nRET r0\n", 3, 1, "an instruction in the data section: .text must come first"),
    (".class sound\n.org 3\n", 2, 1, "'.org' is not a directive: .class, .entry, .text, .data, .word"),
    (".class sound\na: b: RET r0\n", 2, 4, "expected a mnemonic or a directive, found a second label"),
    (".class sound\nLI r1 65536\n", 2, 7, "65536 is too large: LI takes at most 65535"),
    (".class sound\n.word 0x100000000\n", 2, 7, "0x100000000 is too large: .word takes at most 4294967295"),
    (".class sound\n.data\nd: .word 1\n.entry init d\n", 4, 13, "the label 'd' is too far: .entry takes at most 2047"),
    (".class sound\na: RET r0\na: RET r0\n", 3, 1, "the label 'a' is defined twice, first on line 2"),
    (".class sound\n.class net\n", 2, 1, "the class is given twice, first on line 1"),
    (".class sound\n.entry init 0\n.entry init 1\n", 3, 1, "the entry 'init' is given twice, first on line 2"),
    (".class sound\nagain: JMP agian\n", 2, 12, "undefined label 'agian' (did you mean again?)"),
    (".class sound\n" + "RET r0\n" * 2049, 2050, 1, "one word of text too many: a driver has at most 2048"),
    (".class sound\n.data\n" + ".word 0\n" * 2049, 2051, 1, "one initial word too many: a driver has at most 2048"),
    ("RET r0\n", 2, 1, "the text ends without a class: .class block, net or sound"),
    (".class sound\n.entry init 0\n.entry open 0\nRET r0\n", 5, 1,
     "the text ends without the entries play, close, get, set of class sound"),
]


class Assembler(unittest.TestCase):
    def explained(self, text: str):
        """The program's line about a text, and its explanation."""
        fault = parse_fault(program().ask(["asm"], text).out)
        return fault, explain_asm(fault, Node(text, Position("f", 1, 1), origin="f"))

    def test_sentences_with_columns(self):
        for text, line, column, sentence in ASM:
            _, said = self.explained(text)
            self.assertEqual((said.position.line, said.position.column), (line, column), (text[:60], said.wrong))
            self.assertEqual(said.wrong[: len(sentence)], sentence)

    def test_each_kind_has_a_case(self):
        kinds = {self.explained(text)[0].asm_kind for text, *_ in ASM}
        self.assertEqual(kinds, set(KINDS))

    def test_damaged_examples_get_no_general_sentence(self):
        """Each token of the examples is omitted, doubled, written in lower case, or replaced."""
        general = {about for _, about in KINDS.values()}
        refused = 0
        for name in ("block.asm", "net.asm", "sound.asm"):
            text = example_text(name)
            tokens = [each for each in re.finditer(r"[^\s,;]+", re.sub(r";[^\n]*", lambda each: " " * len(each.group()), text))]
            for index, each in enumerate(tokens):
                other = ["", f"{each.group()} {each.group()}", each.group().lower(), "99999", "r7", "x:", "?"][index % 7]
                made = text[: each.start()] + other + text[each.end() :]
                ended = program().ask(["asm"], made)
                if ended.status == 3:
                    fault, said = self.explained(made)
                    self.assertNotIn(said.wrong.split(": '")[0], general, (fault, made.split("\n")[(fault.asm_line or 1) - 1]))
                    refused += 1
        self.assertGreater(refused, 60)

    def test_the_tables_are_those_of_the_program(self):
        """Each instruction assembles with its operands, and not with one more; each directive is known."""
        samples = {"a": "r1", "b": "r2", "imm": "0", "name": "init"}
        entries = "".join(f".entry {name} 0\n" for name in ("init", "open", "play", "close", "get", "set"))
        for name, form in FORMS.items():
            operands = " ".join(samples[sort] for sort in form.split())
            self.assertEqual(program().ask(["asm"], f".class sound\n{entries}{name} {operands}\n").status, 0, name)
            self.assertEqual(program().ask(["asm"], f".class sound\n{entries}{name} {operands} r1\n").status, 3, name)
        self.assertEqual(set(DIRECTIVES), {".class", ".entry", ".text", ".data", ".word"})

    @unittest.skipUnless(hypothesis, "python3-hypothesis is not installed")
    def test_any_text_has_a_sentence(self):
        words = strategies.sampled_from([*FORMS, *DIRECTIVES, "r1", "r16", "x", "x:", "0x1", "99999", "-1", ";", "block", "init", ""])
        lines = strategies.lists(strategies.lists(words | strategies.text(max_size=5), max_size=5).map(" ".join), max_size=8)

        @hypothesis.settings(max_examples=200, deadline=None)
        @hypothesis.given(lines.map("\n".join), strategies.integers(0, 10), strategies.integers(0, 12))
        def holds(text, kind, line):
            said = asm_fault(kind, line, text)
            self.assertGreaterEqual(said.column, 1)
            self.assertTrue(said.wrong)

        holds()


if __name__ == "__main__":
    unittest.main()
