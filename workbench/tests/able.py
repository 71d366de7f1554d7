"""A program that has campaigns with `members`, `guard` and `detail`."""

from __future__ import annotations

import json
import os

from common import example, program

from nooks_bench.inject_run import NEVER
from nooks_bench.program import BUILT, Program


def is_able(tried: Program) -> bool:
    campaign = {"base": example("block.json"), "part": 0, "members": [[NEVER]], "guard": True, "detail": True}
    return tried.ask(["campaign"], json.dumps(campaign)).status == 0


def able_program() -> Program | None:
    """The tested program if it has them; otherwise the plain one, if it is built."""
    plain = BUILT["./nooks-plain"]
    tried = [program()] + ([Program(plain)] if os.access(plain, os.X_OK) else [])
    return next((each for each in tried if is_able(each)), None)


ABLE = able_program()
WHY_NOT = "no program has campaigns with members and detail: ./nooks-plain builds one"
