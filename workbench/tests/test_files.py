"""The schemas and the editors' files, compared with the program, the documents and the examples."""

import copy
import glob
import filecmp
import json
import os
import random
import re
import subprocess
import unittest
import warnings

import drawn
from common import DATA, EXAMPLES, SCHEMAS, TOP, example, example_text, program, schema_file
from validator import valid

from nooks_bench.schema import CAMPAIGN, SCENARIO
from nooks_bench.source import read_source

try:
    import jsonschema
except ImportError:
    jsonschema = None

EDITORS = os.path.join(TOP, "workbench/editors")
ODD = [None, True, "", "x", -1, 2**32, 2**64, [], {}, 1.5, 0, 300]

# Input errors that a schema cannot find: they depend on two values, or on the contents of a text.
BEYOND = ("bad_asm", "double_name", "bad_image")


WRITTEN = "written.schema.json"


def nodes(value, path=()):
    """The paths of all values in a value."""
    yield path
    inner = value.items() if isinstance(value, dict) else enumerate(value) if isinstance(value, list) else []
    for key, each in inner:
        yield from nodes(each, (*path, key))


def set_at(value, path, new) -> None:
    for step in path[:-1]:
        value = value[step]
    value[path[-1]] = new


def damaged(draw, scenario):
    """A copy of a scenario with one value changed, removed or added."""
    made = copy.deepcopy(scenario)
    path = draw.choice([path for path in nodes(made) if path])
    holder = made
    for step in path[:-1]:
        holder = holder[step]
    change = draw.randrange(3)
    if change == 0 and isinstance(holder, dict):
        del holder[path[-1]]
    elif change == 1 and isinstance(holder, dict):
        holder[draw.choice(["limit", "bad", "x", "key", "address"])] = draw.choice(ODD)
    else:
        holder[path[-1]] = draw.choice(ODD)
    return made


def holds(value, name: str = SCENARIO) -> bool:
    """Whether a schema of the package accepts a value, by the validator of these tests."""
    return valid(schema_file(name), value, name)


def damaged_scenarios(count: int):
    draw = random.Random(5)
    for number in range(count):
        yield damaged(draw, example("media-errors.json") if number % 2 else drawn.scenario(number))


def keywords(schema):
    """The keywords of a schema and of the schemas in it."""
    if isinstance(schema, dict):
        yield from schema
    for each in schema.values() if isinstance(schema, dict) else schema if isinstance(schema, list) else []:
        yield from keywords(each)


def campaigns():
    """Small campaigns, one for each way to give the faults that the program has."""
    whole = example("campaign-sound.json")
    faults = whole.pop("faults")[:9]
    times = ("burst", "after")
    strikes = [{"faults": faults}]
    if program().has_campaign_key("every"):
        strikes.append({"members": [faults[:2], faults[2:5]], "guard": True})
        strikes.append({"every": [{key: fault[key] for key in fault if key not in times} for fault in faults[:1]], "detail": False})
    return [{**whole, **each} for each in strikes]


class Schema(unittest.TestCase):
    def test_examples_and_drawn_scenarios_are_valid(self):
        for path in glob.glob(os.path.join(EXAMPLES, "*.json")):
            whole = example(os.path.basename(path))
            self.assertTrue(holds(whole, CAMPAIGN if "base" in whole else SCENARIO), path)
        for seed in range(30):
            self.assertTrue(holds(drawn.scenario(seed)))

    def test_damaged_ones_are_as_the_program_says(self):
        refused = 0
        for made in damaged_scenarios(150):
            line = program().fault_of(json.dumps(made))
            is_beyond = line is not None and (line.split(" ")[2] in BEYOND or re.search(r"/(part|block)$", line))
            refused += line is not None
            if not is_beyond:
                self.assertEqual(holds(made), line is None, (line, made))
        self.assertGreater(refused, 60)

    def test_damaged_campaigns_are_as_the_program_says(self):
        draw = random.Random(6)
        refused = 0
        for number in range(60 * len(campaigns())):
            made = damaged(draw, campaigns()[number % len(campaigns())])
            ended = program().ask(["campaign"], json.dumps(made))
            is_beyond = ended.status == 3 and (ended.out.split(" ")[2] in BEYOND or re.search(r"/part$", ended.out))
            refused += ended.status == 3
            if not is_beyond:
                self.assertEqual(holds(made, CAMPAIGN), ended.status == 0, (ended.out, made))
        self.assertGreater(refused, 30)

    def test_bad_blocks_are_of_version_2(self):
        given = example("media-errors.json")
        given["version"] = 1
        self.assertFalse(holds(given))

    def test_a_driver_is_of_its_class(self):
        given = example("block.json")
        given["parts"][0]["driver"] = {"image": json.loads(example_text("net.image"))}
        self.assertFalse(holds(given))
        given["parts"][0]["driver"] = {"image": json.loads(example_text("block.image"))}
        self.assertTrue(holds(given))

    def test_what_people_write_is_valid(self):
        for path in [os.path.join(DATA, "handmade.jsonc"), os.path.join(TOP, "workbench/examples/write.jsonc")]:
            self.assertTrue(holds(read_source(path).plain(), WRITTEN), path)
        for made in damaged_scenarios(40):
            self.assertGreaterEqual(holds(made, WRITTEN), holds(made))
        cases = [
            ('"notes"', '"nots"'), ('"repeat": 3', '"repeat": -3'), ('"of": 5', '"for": 5'), ('"limit": 2', '"limit": 22'),
            ('"asm_file"', '"asmfile"'), ('"driver": "link"', '"driver": 3'), ('"op": "recv"', '"op": "receive"'),
        ]
        for old, new in cases:
            with open(os.path.join(DATA, "handmade.jsonc"), encoding="utf-8") as file:
                made = read_source("f", file.read().replace(old, new)).plain()
            self.assertFalse(holds(made, WRITTEN), new)

    def test_the_schema_of_what_people_write_is_current(self):
        made = subprocess.run([os.path.join(TOP, "packaging/generate"), WRITTEN], capture_output=True, text=True, check=True)
        with open(os.path.join(SCHEMAS, WRITTEN), encoding="utf-8") as file:
            self.assertEqual(file.read(), made.stdout)

    def test_no_schema_asks_for_one_of_several(self):
        for name in (SCENARIO, CAMPAIGN, WRITTEN):
            self.assertFalse({"oneOf", "anyOf"} & set(keywords(schema_file(name))))


@unittest.skipUnless(jsonschema, "python3-jsonschema is not installed")
class OfTheLibrary(unittest.TestCase):
    """The same checks with python3-jsonschema, whose messages users read in editors."""

    def errors(self, value, name: str = SCENARIO):
        store = {each: schema_file(each) for each in (SCENARIO, CAMPAIGN)}
        with warnings.catch_warnings():
            warnings.simplefilter("ignore", DeprecationWarning)
            resolver = jsonschema.RefResolver("", store[name], store=store)
            checker = jsonschema.Draft202012Validator(store[name], resolver=resolver)
            return [("/".join(map(str, error.absolute_path)), error.message) for error in checker.iter_errors(value)]

    def test_the_schemas_are_schemas(self):
        for name in (SCENARIO, CAMPAIGN, WRITTEN):
            jsonschema.Draft202012Validator.check_schema(schema_file(name))

    def test_a_message_has_its_path(self):
        cases = [
            (("parts", 0, "limit"), 99, "parts/0/limit", "99 is greater than the maximum of 16"),
            (("parts", 0, "limmit"), 1, "parts/0", "'limmit' was unexpected"),
            (("threads", 0, "ops", 0, "op"), "receive", "threads/0/ops/0/op", "'receive' is not one of"),
            (("threads", 0, "ops", 0, "first"), -1, "threads/0/ops/0/first", "-1 is less than the minimum of 0"),
            (("parts", 0, "class"), "blok", "parts/0/class", "'blok' is not one of ['block', 'net', 'sound']"),
            (("schedule",), {"kind": "drawn"}, "schedule", "'start' is a required property"),
        ]
        for path, value, shown_path, message in cases:
            given = example("block.json")
            set_at(given, path, value)
            errors = self.errors(given)
            self.assertEqual([where for where, _ in errors], [shown_path])
            self.assertIn(message, errors[0][1])

    def test_a_campaigns_message_has_its_path(self):
        given = example("campaign-block.json")
        given["base"]["parts"][0]["limit"] = 99
        given["faults"][3]["kind"] = "tarp"
        self.assertEqual([where for where, _ in self.errors(given, CAMPAIGN)], ["base/parts/0/limit", "faults/3/kind"])

    def test_it_agrees_with_the_tests_own(self):
        verdicts = [(holds(made), not self.errors(made)) for made in damaged_scenarios(60)]
        self.assertEqual([own for own, _ in verdicts], [theirs for _, theirs in verdicts])
        self.assertGreater(sum(not own for own, _ in verdicts), 20)


class Editors(unittest.TestCase):
    def read(self, name: str) -> str:
        with open(os.path.join(EDITORS, name), encoding="utf-8") as file:
            return file.read()

    def mnemonics(self) -> set[str]:
        """The mnemonics that docs/DRIVER_MACHINE.md lists."""
        with open(os.path.join(TOP, "docs/DRIVER_MACHINE.md"), encoding="utf-8") as file:
            rows = re.findall(r"(?m)^\| [0-9A-F][0-9A-F, ]* \| (.*?) \|", file.read())
        return {name for row in rows for name in re.findall(r"\b[A-Z]{2,5}\b", row)}

    def test_each_instruction_is_known(self):
        self.assertEqual(len(self.mnemonics()), 24)
        for name in ["vim/syntax/nooksasm.vim", "vscode/syntaxes/nooksasm.tmLanguage.json"]:
            text = self.read(name)
            for mnemonic in self.mnemonics():
                self.assertRegex(text, rf"\b{mnemonic}\b")

    def test_the_grammar_knows_each_token_of_the_examples(self):
        grammar = json.loads(self.read("vscode/syntaxes/nooksasm.tmLanguage.json"))
        rules = [re.compile(rule["match"]) for rule in grammar["patterns"]]
        names = set()
        for path in glob.glob(os.path.join(EXAMPLES, "*.asm")):
            with open(path, encoding="utf-8") as file:
                for line in file:
                    for rule in rules:
                        line = rule.sub(" ", line)
                    names |= set(re.findall(r"[^\s,]+", line))
        # Only the names of entries and of labels as operands are left.
        self.assertTrue(all(re.fullmatch(r"[a-z_][a-z0-9_]*", name) for name in names), names)
        json.loads(self.read("vscode/language-configuration.json"))

    def test_vs_code_finds_the_schemas(self):
        for each in json.loads(self.read("vscode/package.json"))["contributes"]["jsonValidation"]:
            name = os.path.basename(each["url"])
            path = os.path.join(EDITORS, "vscode", each["url"])
            with open(path, encoding="utf-8") as file:
                self.assertEqual(json.load(file), schema_file(name))
            # An extension cannot read files outside its folder, and the repository has no links, so there are copies.
            self.assertTrue(filecmp.cmp(path, os.path.join(SCHEMAS, name), shallow=False), name)
            self.assertTrue(each["fileMatch"])


if __name__ == "__main__":
    unittest.main()
