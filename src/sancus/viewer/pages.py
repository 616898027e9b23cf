"""The page that holds a run and draws it, made of what the program answers."""

from __future__ import annotations

import base64
import json
from typing import Dict

from sancus.model.asking import Program
from sancus.model.deployment import tables_of
from sancus.model.texts import Input
from sancus.model.traces import of_drive
from sancus.records import dataclass
from sancus.viewer.join import joined

SLOT = '<script type="text/plain" id="data">'
Texts = Dict[str, bytes]


@dataclass
class Drawn:
    """A run to draw: the program's output, how it ended, what is to be said of it, and its trace alone."""

    texts: Texts
    last: str = ""
    status: int = 0
    trace: bytes = b""


def drawn(data: Input, program: Program, command: str) -> Drawn:
    """A run by a command whose output has the lines of the schedule, and its causes."""
    answer = program.answer([command], data.data)
    _, trace = of_drive(answer)
    texts = {"input": data.data, "output": answer.output, "causes": causes_of(program, data.head, trace.output)}
    return Drawn({**texts, **read_of(data.head, program)}, answer.last, answer.status, trace.output)


def read_of(head: bytes, program: Program) -> Texts:
    """What `describe` prints of a deployment, and the modules' sources; nothing of one that is refused."""
    answer, tables = program.answer(["describe"], head + b"%%\n"), tables_of(head)
    if answer.status:
        return {}
    sources = {str(it["name"]): it["source"] for it in tables.modules} if tables else {}
    return {"described": answer.output, "sources": json.dumps(sources).encode()}


def causes_of(program: Program, head: bytes, trace: bytes) -> bytes:
    """What `explain` says of a trace, if it says anything."""
    answer = program.answer(["explain"], head + b"%%\n" + trace)
    return answer.output if answer.status in (0, 8) else b""


def of_run(data: Input, program: Program) -> Drawn:
    """A run of a schedule."""
    return drawn(data, program, "lines")


def of_readings(data: Input, program: Program) -> Drawn:
    """An honest run of readings."""
    return drawn(data, program, "drive")


def page_of(texts: Texts) -> str:
    """The page, with texts that it holds in base64, so that none can end the script element."""
    held = "\n".join(f"{name} {base64.b64encode(text).decode()}" for name, text in texts.items() if text)
    return joined().replace(SLOT, SLOT + held, 1)


def is_page(text: str) -> bool:
    """Whether a file is such a page, which `view` or the page itself wrote."""
    return text.startswith("<!doctype html>") and SLOT in text
