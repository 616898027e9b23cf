"""`--json`: the words of the program with their output as JSON."""

from __future__ import annotations

import os
from typing import List, Optional

from sancus.cli import jsonlines
from sancus.cli.commands import Given
from sancus.cli.context import Context
from sancus.cli.people import as_schedule
from sancus.cli.program import Sink
from sancus.cli.reading import file_part, is_regular, read_all
from sancus.cli.running import gathered, parts_of, run_program, words_for_program
from sancus.cli.telling import tell
from sancus.model.described import described
from sancus.model.faults import Teller
from sancus.model.lines import run_by_line
from sancus.model.texts import find_mark


def head_of(files: List[str]) -> Optional[bytes]:
    """The deployment of a call whose first file can be read twice."""
    if files[0] == "-" and not is_regular(0):
        return None
    data = read_all(files[0], 1 << 24) if files[0] != "-" else os.pread(0, 1 << 20, os.lseek(0, 0, os.SEEK_CUR))
    found = find_mark(data)
    return data[: found[0]] if found else data


def as_json(context: Context, given: Given, files: List[str]) -> int:
    if given.command.name == "run":
        return run_as_json(context, given, files)
    kinds = {"check": jsonlines.CheckSink, "explain": jsonlines.ExplainSink}
    sink = kinds.get(given.command.name, jsonlines.JsonSink)(Sink())
    sink.has_images = not given.has("no_images")
    head = head_of(files)
    if head is None:
        # (a pipe is read whole first, since its deployment tells the nodes of items)
        kept, data = gathered(parts_of(given, files, context) or [file_part(files[0])])
        sink.deployment = described(context.program, data.head)
        ran = context.program.ran_of(words_for_program(given), data.data, sink)
        ran.kept = kept
    else:
        sink.deployment = described(context.program, head)
        ran = run_program(context, given, files, sink)
    told = tell(context, given, ran)
    sink.finish(told)
    context.voice.say(*told)
    return ran.status


def run_as_json(context: Context, given: Given, files: List[str]) -> int:
    """A run as JSON, with the line of each item."""
    parts = parts_of(given, files, context) or [file_part(files[0])]
    kept, data, refusal = as_schedule(*gathered(parts), context)
    if refusal:
        raise refusal
    sink = jsonlines.JsonSink(Sink(), deployment=described(context.program, data.head))
    run = run_by_line(data.data, context.program)
    if not given.has("no_images") and not run.last.startswith("fault deployment "):
        images = context.program.answer(["run"], data.head + b"%%\n").lines[:-2]
        sink.write(b"".join(it + b"\n" for it in images))
    for sink.line_now, item in run.items:
        sink.write(item + b"\n")
    sink.write(f"{run.last}\n".encode(errors="surrogateescape"))
    told = Teller(kept, "run", context.program.ask).told(run.last)
    sink.finish(told)
    context.voice.say(*told)
    return run.status
