"""The state after each event of examples/write-cut, worked out by hand from its report.

Each line has the event; the mode and the stage that is due, with `*` if the shadow is in the driver for it; the last
call of the writer and of the reader, each with its state; the shadow's record; the device's registers; the blocks that
are not blank, each with the word that fills it; what the driver holds; the number of failures."""

from __future__ import annotations

from dataclasses import dataclass

WORKED = """
 0 | starts load            |             |             | 0000 | 0000 |                  |                | 0
 1 | starts load            | c1 held     |             | 0000 | 0000 |                  |                | 0
 2 | starts load            | c1 held     | c2 held     | 0000 | 0000 |                  |                | 0
 3 | starts init            | c1 held     | c2 held     | 0000 | 0000 |                  |                | 0
 4 | starts init *          | c1 held     | c2 held     | 0000 | 0000 |                  |                | 0
 5 | starts init *          | c1 held     | c2 held     | 0000 | 0000 |                  |                | 0
 6 | starts resume          | c1 held     | c2 held     | 0000 | 0000 |                  |                | 0
 7 | serves                 | c1 held     | c2 held     | 0000 | 0000 |                  |                | 0
 8 | serves                 | c1 inside   | c2 held     | 0000 | 0000 |                  |                | 0
 9 | serves                 | c1 answered | c2 held     | 0600 | 0600 |                  |                | 0
10 | serves                 | c1 answered | c2 inside   | 0600 | 0600 |                  | buffer 1 write | 0
11 | serves                 | c3 held     | c2 inside   | 0600 | 0600 |                  | buffer 1 write | 0
12 | serves                 | c3 held     | c2 answered | 0600 | 0600 |                  |                | 0
13 | serves                 | c3 inside   | c2 answered | 0600 | 0600 |                  | buffer 0 read  | 0
14 | serves                 | c3 inside   | c4 held     | 0600 | 0600 |                  | buffer 0 read  | 0
15 | recovers stop          | c3 cut      | c4 held     | 0600 | 0600 | 9:11 10:12       | buffer 0 read  | 1
16 | recovers collect       | c3 held     | c4 answered | 0600 | 0600 | 9:11 10:12       | buffer 0 read  | 1
17 | recovers collect       | c3 held     | c5 answered | 0600 | 0600 | 9:11 10:12       | buffer 0 read  | 1
18 | recovers reset         | c3 held     | c5 answered | 0600 | 0600 | 9:11 10:12       |                | 1
19 | recovers reset         | c3 held     | c6 held     | 0600 | 0600 | 9:11 10:12       |                | 1
20 | recovers load          | c3 held     | c6 held     | 0600 | 0000 | 9:11 10:12       |                | 1
21 | recovers init          | c3 held     | c6 held     | 0600 | 0000 | 9:11 10:12       |                | 1
22 | recovers init *        | c3 held     | c6 held     | 0600 | 0000 | 9:11 10:12       |                | 1
23 | recovers init *        | c3 held     | c6 held     | 0600 | 0000 | 9:11 10:12       |                | 1
24 | recovers replay_set 1 6 | c3 held    | c6 held     | 0600 | 0000 | 9:11 10:12       |                | 1
25 | recovers replay_set 1 6 * | c3 held  | c6 held     | 0600 | 0000 | 9:11 10:12       |                | 1
26 | recovers resume        | c3 held     | c6 held     | 0600 | 0600 | 9:11 10:12       |                | 1
27 | serves                 | c3 held     | c6 held     | 0600 | 0600 | 9:11 10:12       |                | 1
28 | serves                 | c3 inside   | c6 held     | 0600 | 0600 | 9:11 10:12       | buffer 0 read  | 1
29 | serves                 | c3 answered | c6 held     | 0600 | 0600 | 9:11 10:12 11:13 |                | 1
30 | serves                 | c3 answered | c6 inside   | 0600 | 0600 | 9:11 10:12 11:13 | buffer 1 write | 1
31 | serves                 | c3 answered | c6 answered | 0600 | 0600 | 9:11 10:12 11:13 |                | 1
"""


@dataclass(frozen=True)
class Worked:
    """A line of the table."""

    event: int
    mode: str
    stage: str
    shadow: bool
    calls: tuple[str, str]
    record: tuple[int, ...]
    registers: tuple[int, ...]
    blocks: dict[int, int]
    holds: str
    failures: int


def worked(line: str) -> Worked:
    event, at, writer, reader, record, registers, blocks, holds, failures = (each.strip() for each in line.split("|"))
    mode, _, stage = at.removesuffix(" *").partition(" ")
    pairs = (each.split(":") for each in blocks.split())
    return Worked(int(event), mode, stage, at.endswith("*"), (writer, reader), tuple(map(int, record)), tuple(map(int, registers)),
                  {int(block): int(word) for block, word in pairs}, holds, int(failures))


TABLE = [worked(line) for line in WORKED.strip().split("\n")]
