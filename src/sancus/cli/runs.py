"""Runs that a command makes first: the trace of a schedule that was given in place of one."""

from __future__ import annotations

import os

from sancus.cli.context import Context
from sancus.cli.joining import joined, trace_part
from sancus.cli.people import as_schedule
from sancus.cli.program import Collected, Program
from sancus.cli.reading import Part, read_all, text_part
from sancus.cli.running import gathered
from sancus.cli.say import Voice
from sancus.cli.sinks import TraceOnly
from sancus.model.acts import ACTS
from sancus.model.described import described
from sancus.model.faults import Teller
from sancus.model.inspection import are_readings
from sancus.model.people import PEOPLE
from sancus.model.shown import text_of
from sancus.model.texts import Input, first_word, is_act


def is_schedule(name: str, deployment: str, program: Program) -> bool:
    """Whether a file has lines of a schedule, for people, or readings, and no trace."""
    if name == "-" or not os.path.isfile(name):
        return False
    data = Input(read_all(name))
    lines = data if data.has_mark else Input(b"%%\n" + data.data)
    first = text_of(first_word(next((it for it in lines.schedule if is_act(it)), b"")))
    if first in ACTS or first in PEOPLE or not os.path.isfile(deployment):
        return first in ACTS or first in PEOPLE
    return are_readings(described(program, Input(read_all(deployment)).head), lines)


def trace_for(deployment: str, name: str, context: Context) -> Part:
    """A trace by its file's name, or that of the run of a schedule."""
    if not is_schedule(name, deployment, context.program):
        return trace_part(name, context.voice)
    kept, data = gathered(joined([deployment, name], Voice(True)))
    deployed = described(context.program, data.head)
    if not deployed.is_accepted:
        # (the program says which rule the deployment breaks)
        return trace_part(name, context.voice)
    trace = Collected()
    if are_readings(deployed, data):
        ran = context.program.ran_of(["drive"], data.data, TraceOnly(trace))
        told = Teller(kept, "drive", context.program.ask).told(ran.last)
    else:
        kept, data, refusal = as_schedule(kept, data, context)
        if refusal:
            raise refusal
        ran = context.program.ran_of(["run"], data.data, trace)
        told = Teller(kept, "run", context.program.ask).told(ran.last)
    if ran.status:
        context.voice.say(ran.last, *told, "what came before is judged")
    return text_part(trace.data(), f"the run of {name}", 1)
