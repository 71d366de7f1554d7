"""The options that select a sweep's faults, and the checks that find mistakes in them before the program runs."""

from __future__ import annotations

import argparse
from dataclasses import dataclass

from .facts import FAULT_KINDS, INPUTS, LIMITS, MOST_WORD, SCHEDULES
from .program import Mistake
from .words import parse_ranges

KINDS = tuple(FAULT_KINDS)

# For each option that gives a key of a fault, the kinds that have this key.
USERS = {option: tuple(kind for kind, keys in FAULT_KINDS.items() if option in keys)
         for option in ("address", "register", "value")}

# The least and the greatest number of each option (docs/SCENARIO.md).
RANGES = {
    "part": INPUTS["operation"]["part"].ends,
    "burst": INPUTS["fault"]["burst"].ends,
    "call": (1, MOST_WORD),
    "try": (1, MOST_WORD),
    "every": (1, LIMITS["MOST_INSTRUCTIONS"]),
    "random": (1, 1_000_000),
    "seed": SCHEDULES["drawn"]["start"].ends,
    **{key: allowed.ends for keys in FAULT_KINDS.values() for key, allowed in keys.items()},
}


@dataclass(frozen=True)
class Selection:
    """The set of faults, as the command line names it."""

    part: int
    kinds: tuple[str, ...]
    bursts: tuple[int, ...] | None
    call: int | None
    attempt: int | None
    every: int
    at_acts: bool
    random: int | None
    seed: int
    addresses: tuple[int, ...]
    registers: tuple[int, ...]
    values: tuple[int, ...]


def users(option: str) -> str:
    """The kinds that have a key, in words."""
    *others, last = USERS[option]
    return f"{', '.join(others)} and {last}" if others else last


def add_selection(parser: argparse.ArgumentParser) -> None:
    """The options that choose the faults."""
    about = "which faults are tried; without --burst or --call every burst of a call"
    group = parser.add_argument_group("faults", about)
    group.add_argument("--part", type=int, default=0, metavar="P", help="the index of the struck part (default 0)")
    about = "a kind of fault; may be given again (default trap)"
    group.add_argument("--kind", action="append", choices=KINDS, help=about)
    group.add_argument("--burst", metavar="A-B", help="these bursts of the part: 3, 3-9 or 3,6-7")
    group.add_argument("--call", type=int, metavar="N", help="the bursts of call cN")
    group.add_argument("--try", type=int, dest="attempt", metavar="T", help="with --call, those of its Tth attempt")
    group.add_argument("--every", type=int, default=1, metavar="K", help="each Kth instruction (default 1)")
    group.add_argument("--at-acts", action="store_true", help="only just before and just after each act on the device")
    group.add_argument("--random", type=int, metavar="N", help="N faults drawn from the chosen instructions and kinds")
    group.add_argument("--seed", type=int, default=1, metavar="S", help="the seed of the random choices (default 1)")
    group.add_argument("--address", metavar="A-B", help=f"for {users('address')}: these addresses")
    group.add_argument("--register", metavar="A-B", help=f"for {users('register')}: these registers")
    group.add_argument("--value", metavar="A-B", help=f"for {users('value')}: these values (default 1)")


def check_range(option: str, number: int | None, ends: tuple[int, int]) -> None:
    """A number out of its range is a mistake."""
    if number is not None and not ends[0] <= number <= ends[1]:
        raise Mistake(f"--{option} {number}: allowed is a number from {ends[0]} to {ends[1]}")


def listed(option: str, text: str | None) -> tuple[int, ...] | None:
    """The numbers of an option that takes a list; None if it is not given."""
    if text is None:
        return None
    numbers = tuple(parse_ranges(text))
    for number in (min(numbers), max(numbers)):
        check_range(option, number, RANGES[option])
    return numbers


def check_kinds(args: argparse.Namespace, kinds: tuple[str, ...]) -> None:
    """An option that no kind uses is a mistake, and so is a kind without the option that it needs."""
    for option, users in USERS.items():
        if getattr(args, option) is not None and not set(users) & set(kinds):
            named = " or ".join(f"--kind {user}" for user in users)
            raise Mistake(f"--{option} is for {named}; the kinds are {', '.join(kinds)}")
    for option in ("address", "register"):
        needing = [kind for kind in USERS[option] if kind in kinds]
        if args.random is None and needing and getattr(args, option) is None:
            raise Mistake(f"--kind {needing[0]} needs --{option}, or --random")


def selection_of(args: argparse.Namespace) -> Selection:
    """The selection that the options name."""
    kinds = tuple(dict.fromkeys(args.kind or ["trap"]))
    single = {"part": args.part, "call": args.call, "try": args.attempt, "every": args.every,
              "random": args.random, "seed": args.seed}
    for option, number in single.items():
        check_range(option, number, RANGES[option])
    if args.attempt is not None and args.call is None:
        raise Mistake("--try is for --call")
    check_kinds(args, kinds)
    return Selection(
        part=args.part,
        kinds=kinds,
        bursts=listed("burst", args.burst),
        call=args.call,
        attempt=args.attempt,
        every=args.every,
        at_acts=args.at_acts,
        random=args.random,
        seed=args.seed,
        addresses=listed("address", args.address) or (),
        registers=listed("register", args.register) or (),
        values=listed("value", args.value) or (),
    )
