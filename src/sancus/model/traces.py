"""What the program writes of a run, taken apart: images, items and how it ended."""

from __future__ import annotations

from typing import Dict, List, Tuple

from sancus.model.asking import Answer
from sancus.model.shown import text_of
from sancus.records import dataclass


@dataclass(frozen=True)
class Trace:
    """A run's images, the text of each item, and the line that ended it."""

    images: Dict[str, bytes]
    texts: List[str]
    last: str


def trace_of(output: bytes) -> Trace:
    """The output of `run`."""
    lines = text_of(output).split("\n")[:-1]
    at = lines.index("trace") if "trace" in lines else len(lines)
    words = [it.split(" ") for it in lines[:at] if it.startswith("image ")]
    images = {it[1]: bytes.fromhex(it[2]) for it in words}
    return Trace(images, lines[at + 1 : -1], lines[-1] if lines else "")


def of_drive(answer: Answer) -> Tuple[bytes, Answer]:
    """Of what `drive` writes the schedule, and what `run` would write of it."""
    schedule = b"".join(it[2:] + b"\n" for it in answer.lines if it.startswith(b"> "))
    kept = [it for it in answer.lines if not it.startswith((b"> ", b"steps "))]
    begin = next((at for at, it in enumerate(kept) if not it.startswith(b"image ")), len(kept))
    is_trace = not any(it.startswith(b"fault deployment ") for it in kept)
    kept[begin:begin] = [b"trace"] if is_trace else []
    return schedule, Answer(answer.status, b"".join(it + b"\n" for it in kept))
