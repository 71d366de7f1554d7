"""Tables in columns, as text and as Markdown."""

from __future__ import annotations

from typing import Sequence

Row = list[str]


def text_lines(rows: Sequence[Row]) -> list[str]:
    """A table in columns: the first one is aligned left, the others right."""
    wide = [max(len(row[column]) for row in rows) for column in range(len(rows[0]))]
    return ["  ".join(cell.ljust(width) if column == 0 else cell.rjust(width)
                      for column, (cell, width) in enumerate(zip(row, wide))).rstrip() for row in rows]


def markdown_lines(rows: Sequence[Row]) -> list[str]:
    """A table in Markdown."""
    head, *others = rows
    lines = ["| " + " | ".join(head) + " |", "|" + "---|" * len(head)]
    return lines + ["| " + " | ".join(row) + " |" for row in others]
