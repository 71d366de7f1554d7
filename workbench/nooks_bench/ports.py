"""The ports of the devices, as docs/DEVICES.md names them."""

from __future__ import annotations

from . import facts
from .facts import CLASSES

# The ports of each class by direction, with what each is.
PORTS: dict[str, dict[tuple[str, int], str]] = {
    "block": {
        ("OUT", 0): "command",
        ("IN", 1): "block register",
        ("OUT", 1): "block register",
        ("IN", 2): "buffer word",
        ("OUT", 2): "buffer word",
        ("IN", 3): "status",
    },
    "net": {
        ("OUT", 0): "command",
        ("IN", 1): "transmit length",
        ("OUT", 1): "transmit length",
        ("OUT", 2): "transmit buffer word",
        ("IN", 3): "length of the ring's first frame",
        ("IN", 4): "word of the ring's first frame",
    },
    "sound": {("OUT", 0): "sample"},
}

# The commands of port 0.
COMMANDS: dict[str, dict[int, str]] = {
    "block": {1: "load", 2: "store"},
    "net": {1: "send", 2: "take the ring's first frame out"},
    "sound": {},
}

# The registers of ports 8 to 11, with their values after a reset.
FIRST_REGISTER = facts.FIRST_REGISTER
REGISTERS = {name: tuple((each.name, each.default) for each in kind.registers) for name, kind in CLASSES.items()}

# The port whose word lasts until the next OUT, or until a reset sets it to 0.
LASTING: dict[str, int] = {"block": 1, "net": 1}


def port_name(kind: str, direction: str, port: int) -> str:
    """Returns what a port is, empty if the device has no such port."""
    registers = REGISTERS[kind]
    if FIRST_REGISTER <= port < FIRST_REGISTER + len(registers):
        number = port - FIRST_REGISTER
        return f"register {number}, {registers[number][0]}"
    return PORTS[kind].get((direction, port), "")


def command_name(kind: str, port: int, word: int) -> str:
    """Returns what a word means at a port of commands, empty at any other port."""
    if PORTS[kind].get(("OUT", port)) != "command":
        return ""
    return COMMANDS[kind].get(word, "no command: nothing happens")
