"""`snap` of lines for people: a query's L is one of those, and so is that of its answer."""

from __future__ import annotations

from typing import List

from sancus.cli.context import Context
from sancus.cli.people import Written, lines_of, written
from sancus.cli.program import Collected, Ran, Sink
from sancus.model.numbers import number
from sancus.model.shown import text_of
from sancus.model.texts import MARK, MOST_LINES, Input, Kept, is_act

# As docs/FORMATS.md has them.
MOST_QUERIES = 64
QUERY_FAULT = 11


def in_schedule(query: str, made: Written) -> List[str]:
    """A query with lines of the schedule; one for items becomes several."""
    words = query.split()
    line = number(words[-1]) if len(words) > 1 else None
    if not line:
        return [query]
    # (a line that isn't there is none of the schedule either)
    first, last = made.spans[line - 1] if line <= len(made.spans) else (MOST_LINES + 1, MOST_LINES + 1)
    if words[0] != "items" or first > MOST_LINES:
        return [" ".join([*words[:-1], str(last)])]
    return [f"items {at}" for at in range(first, last + 1) if is_act(made.lines[at - 1].encode())]


def of_people(answer: str, query: str) -> str:
    """An answer, with the line for people that its query names."""
    words, line = answer.split(" "), number(query.split()[-1])
    at = {"regs": 2, "bytes": 3, "item": 1}[words[0]]
    return " ".join([*words[:at], str(line), *words[at + 1 :]])


def asked(context: Context, text: bytes, query: str) -> List[str]:
    """The lines that `snap` prints of a schedule and a query, without images."""
    whole = text + f"%%\n{query}\n".encode(errors="surrogateescape")
    answer = text_of(context.program.ask(["snap"], whole)).split("\n")
    return [it for it in answer if it and not it.startswith("image ")]


def snap(context: Context, kept: Kept, data: Input, sink: Sink) -> Ran:
    """Answers the queries that follow lines for people."""
    lines = data.schedule
    cut = lines.index(MARK) if MARK in lines else len(lines)
    head = data.head + b"%%\n"
    made = written(lines_of(kept, Input(head + b"".join(it + b"\n" for it in lines[:cut]))), context)
    context.voice.say(*made.notes)
    images = Collected()
    context.program.ran_of(["snap"], head + made.text + b"%%\n", images)
    sink.write(images.data()[: -len(b"end\n")])
    last = "end"
    for at, query in enumerate(map(text_of, lines[cut + 1 :]), 1):
        answers = [it for some in in_schedule(query, made) for it in asked(context, head + made.text, some)]
        fault = next((it for it in answers if it.startswith("fault ")), "") if at <= MOST_QUERIES else "fault query Y2 1"
        if fault:
            last = f"{fault.rpartition(' ')[0]} {at}"
            break
        sink.write("".join(f"{of_people(it, query)}\n" for it in answers if it != "end").encode())
    sink.write(f"{last}\n".encode())
    sink.close()
    return Ran(0 if last == "end" else QUERY_FAULT, last, kept)
