"""Runs of many schedules of one deployment, by one process for all where that goes: the lines that all begin with are
performed once, and each schedule goes on from there in a world of its own (the program's command `batch`).
"""

from __future__ import annotations

import os
import re
from functools import lru_cache
from typing import TYPE_CHECKING, Iterator, List, Optional, Sequence

from sancus.model.asking import Answer
from sancus.model.texts import MARK

if TYPE_CHECKING:
    from sancus.app import App

# What `run` ends with if it is whole, and if a line of the schedule breaks a rule.
WHOLE, BROKEN_OFF = 0, 3
END = b"end\n"
LAST_LINE = re.compile(rb"(?m)^(?:end|fault schedule .*)\n")
# The answers to so many beginnings are kept.
MOST_BEGINNINGS = 8


def answers(app: App, schedules: Sequence[bytes]) -> Iterator[Answer]:
    """What `run` prints of schedules, which are of whole lines, in order. If one process can't answer all of them, since
    one takes too long or wants too much memory, or their common lines break a rule, each has a process of its own."""
    together = answered_together(app, schedules) if len(schedules) > 1 else None
    if together is None:
        yield from (app.program.answer(["run"], app.input(it)) for it in schedules)
    else:
        yield from together


def answered_together(app: App, schedules: Sequence[bytes]) -> Optional[List[Answer]]:
    common = common_lines(schedules)
    begun = beginning(app, common)
    if begun is None:
        return None
    parts = [common, *(it[len(common) :] for it in schedules)]
    answer = app.program.answer(["batch"], app.input((MARK + b"\n").join(parts)))
    found = list(single(begun, answer.output))
    # (a schedule with a line %% is two)
    return found if answer.status == WHOLE and len(found) == len(schedules) else None


def common_lines(schedules: Sequence[bytes]) -> bytes:
    """The lines that all schedules begin with."""
    common = os.path.commonprefix(schedules) or b""
    return common[: common.rfind(b"\n") + 1]


@lru_cache(maxsize=MOST_BEGINNINGS)
def beginning(app: App, common: bytes) -> Optional[bytes]:
    """What `run` prints of lines before its end; None if they break a rule or can't be run."""
    answer = app.program.answer(["run"], app.input(common))
    return answer.output[: -len(END)] if answer.status == WHOLE else None


def single(begun: bytes, output: bytes) -> Iterator[Answer]:
    """What `run` prints of each schedule, of what `batch` does of all and `run` of the common lines."""
    at = 0
    for last in LAST_LINE.finditer(output):
        yield Answer(WHOLE if last[0] == END else BROKEN_OFF, begun + output[at : last.end()])
        at = last.end()
