"""The outcome of a trial of `inject`, read line by line from the full reports of its run and of the run without faults,
without any code of the workbench."""

from __future__ import annotations

import json
import re
import subprocess


def ran(path: str, words: list[str], given: str) -> str:
    ended = subprocess.run([path, *words], input=given, capture_output=True, text=True, check=False)
    assert ended.returncode in (0, 1, 7), (ended.returncode, ended.stdout[:200])
    return ended.stdout


def member(base: dict, part: int, trial: dict, words: dict[int, int]) -> dict:
    """The scenario of a trial, with `words` at the addresses of its mutants."""
    made = json.loads(json.dumps(base))
    struck = made["parts"][part]
    struck["limit"] = trial["limit"]
    strike = trial["strike"]
    if strike:
        faults = [{"burst": strike["burst"], "after": strike["after"], "kind": "code", "address": address, "value": word}
                  for address, word in words.items()]
        struck["faults"] = struck.get("faults", []) + faults
    else:
        for address, word in words.items():
            struck["driver"]["image"]["text"][address] = "%08x" % word
    return made


class Read:
    """What a report says, read line by line; `struck` is the part that the faults are for."""

    def __init__(self, text: str, struck: int) -> None:
        self.left: list[str] = []
        self.answers: list[str] = []
        self.traps = self.failures = 0
        self.failed: tuple[int, int, str] | None = None
        self.broken: tuple[int, int] | None = None
        self.lost = {"sends": 0, "samples": 0, "busy": 0, "frames": 0}
        part, where = -1, ""
        for line in text.splitlines():
            words = line.split(" ")
            if words[0] == "guard":
                self.traps += 1
            elif words[0] == "part":
                part, where = part + 1, "events"
            elif words[0] == "thread":
                where = "threads"
            elif words[0] == "tap":
                where = ""
            if where == "threads":
                self.answers.append(line)
            elif where == "events" and not words[0].isdigit() and words[0] != "part":
                where = "left"
            if where == "left" and words[0] not in ("failures", "contract"):
                self.left.append(f"{part} {line}")
                self.take_losses(words)
            if part == struck and where == "events" and " ! " in line and self.failed is None:
                cause = line.split(" ! ")[1]
                self.failed = (int(words[0]), int(re.search(r" b(\d+) ", line)[1]), cause)
            if part == struck and words[0] == "failures":
                self.failures = int(words[1])
            if part == struck and line.startswith("contract broken"):
                self.broken = (int(words[3]), int(words[5]))

    def take_losses(self, words: list[str]) -> None:
        if words[0] in ("losses", "frames"):
            for name, number in zip(words[1::2], words[2::2]):
                if name in ("reset", "full_ring", "full_queue"):
                    self.lost["frames"] += int(number)
                elif words[0] == "losses":
                    self.lost[name] += int(number)


def outcome(base: Read, own: Read, limit: int, struck: int) -> dict:
    """The fields of a trial's line that describe its outcome."""
    if own.failures == 0:
        system = "nothing"
    elif own.failures > limit:
        system = "given up"
    elif any(own.lost[kind] > base.lost[kind] for kind in own.lost):
        system = "losses"
    else:
        system = "recovered"
    contract = "kept"
    if own.broken:
        contract = "broken"
        if own.failed:
            contract = "broken first" if own.broken[0] <= own.failed[0] else "broken later"
    cause = own.failed[2] if own.failed else ""
    for folded in ("trap foreign_write", "trap bad_read", "bad_reply"):
        if cause.startswith(folded):
            cause = folded
    return {
        "system": system,
        "contract": contract,
        "clause": own.broken[1] if own.broken else None,
        "cause": cause,
        "wait": own.failed[1] - struck if own.failed else None,
        "failures": own.failures,
        "traps": own.traps,
        "same_answers": own.answers == base.answers,
        "same_left": own.left == base.left,
    }


def outcome_by_reports(path: str, base: dict, part: int, trial: dict) -> dict:
    """The outcome of the trial of a line, from reports alone. `base` is the scenario without faults, whose driver is an
    image."""
    form = ["guard"] if trial["guard"] else ["run"]
    words = {mutant["address"]: mutant["word"] for mutant in trial["faults"]}
    plain = Read(ran(path, form, json.dumps(member(base, part, trial, {}))), part)
    own = Read(ran(path, form, json.dumps(member(base, part, trial, words))), part)
    struck = trial["strike"]["burst"] if trial["strike"] else 1
    found = outcome(plain, own, trial["limit"], struck)
    if found["system"] != "nothing" or found["contract"] != "kept":
        return {**found, "executed": True}
    if not (found["same_answers"] and found["same_left"]):
        return {**found, "executed": True}
    return {**found, "executed": comes_to(path, base, part, trial, list(words))}


def comes_to(path: str, base: dict, part: int, trial: dict, addresses: list[int]) -> bool:
    """Whether the driver executes one of these addresses: a FAULT there would stop it."""
    member_of = member(base, part, {**trial, "limit": 0}, dict.fromkeys(addresses, 0x18000000))
    report = Read(ran(path, ["run"], json.dumps(member_of)), part)
    return report.failed is not None and report.failed[2] == "trap explicit"
