"""Which items each line of a schedule gave: what the program's `lines` prints, taken apart."""

from __future__ import annotations

from typing import List, Tuple

from sancus.model.asking import Program
from sancus.records import dataclass


@dataclass(frozen=True)
class ByLine:
    """A run: its items, each with the number of the line that gave it, the output's last line, and the program's
    status."""

    items: List[Tuple[int, bytes]]
    last: str
    status: int


def run_by_line(text: bytes, program: Program) -> ByLine:
    """The run of an input: the line after the k-th `> ` is line k of its schedule."""
    answer = program.answer(["lines"], text)
    items, number = [], 0
    for it in answer.lines[:-1]:
        if it.startswith(b"> "):
            number += 1
        else:
            items.append((number, it))
    return ByLine(items, answer.last, answer.status)
