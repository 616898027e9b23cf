"""`sancus place`: a deployment with free addresses filled in."""

from __future__ import annotations

from sancus.cli.commands import Given
from sancus.cli.context import Context
from sancus.cli.output import write
from sancus.cli.reading import read_all
from sancus.model.deployment import tables_of
from sancus.model.described import Deployment, described
from sancus.model.faults import Teller
from sancus.model.placing import NoPlace, filled_in, memory_map, place
from sancus.model.texts import MARK, Input, kept_of
from sancus.status import BAD_TEXT, Ended


def answer(context: Context, given: Given) -> int:
    name = given.text("DEPLOYMENT") or "-"
    data = Input(read_all(name))
    head = data.head if data.head.endswith(b"\n") or not data.head else data.head + b"\n"
    tables = tables_of(head)
    try:
        made = filled_in(head, place(tables)) if tables else head
    except NoPlace as error:
        raise Ended(BAD_TEXT, str(error)) from None
    deployment = accepted(context, made, name)
    write(made + (MARK + b"\n" + data.rest if data.has_mark else b""))
    context.voice.say(*memory_map(deployment))
    return 0


def accepted(context: Context, head: bytes, name: str) -> Deployment:
    """A deployment as the program read it. Ends with the fault of one that it refuses."""
    made = described(context.program, head)
    if not made.is_accepted:
        told = Teller(kept_of(head + MARK + b"\n", name), "check", context.program.ask).told(made.last)
        raise Ended(BAD_TEXT, made.last, *told)
    return made
