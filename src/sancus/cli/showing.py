"""Shows a run that a search found: its schedule, run by the program, whose trace the program judges."""

from __future__ import annotations

from typing import List, Optional, Tuple

from sancus.cli.question import Question, item
from sancus.model.counterexample import Line, Unwritten, lines_of, numbered, text_of
from sancus.model.search import Found
from sancus.records import dataclass

# A handler's cost is at most 262,144 steps.
MOST_STEPS = 1 << 19


@dataclass
class Shown:
    """A schedule, and the item of its run at which the property is broken, by the program; none if it isn't."""

    lines: List[str]
    item: Optional[int] = None
    text: str = ""


def count(question: Question, lines: List[str], until: Tuple[str, str]) -> int:
    """How many items of a kind and a module a schedule's run has."""
    begun = f"{until[0]} {until[1]} ".encode()
    return sum(it.startswith(begun) for it in question.run(lines).split(b"\n"))


def with_steps(question: Question, lines: List[str], line: Line) -> str:
    """A `run` with the least steps after which one more item of its kind came."""
    assert line.until
    text, before = text_of(line), count(question, lines, line.until)
    low, high = 0, 64
    while count(question, [*lines, f"{text} {high}"], line.until) <= before:
        low, high = high, 2 * high
        if high > MOST_STEPS:
            raise Unwritten(f"no `{' '.join(line.until)}` comes within {MOST_STEPS:,} steps")
    while high - low > 1:
        middle = (low + high) // 2
        if count(question, [*lines, f"{text} {middle}"], line.until) > before:
            high = middle
        else:
            low = middle
    return f"{text} {high}"


def shown(question: Question, found: Found) -> Shown:
    """The schedule of a run, which the program runs and judges."""
    try:
        written = numbered(lines_of(found))
        lines: List[str] = []
        for it in written:
            lines.append(with_steps(question, lines, it) if it.until else text_of(it))
    except Unwritten:
        return Shown([])
    output = question.run(lines)
    number = question.broken_at(output)
    return Shown(lines, number, item(output, number) if number else "")
