"""Reads the files of a call whose schedule is looked into."""

from __future__ import annotations

from typing import List, Tuple

from sancus.cli.context import Context
from sancus.cli.joining import joined
from sancus.cli.people import lines_of, written_so_far
from sancus.cli.reading import file_part
from sancus.cli.running import gathered
from sancus.model.asking import Program
from sancus.model.described import Deployment, described
from sancus.model.faults import Teller
from sancus.model.inspection import Inspected, Line, are_readings, driven, marked_lines, readings_of
from sancus.model.people import are_for_people
from sancus.model.texts import Input, Kept
from sancus.status import BAD_TEXT, Ended


def accepted(kept: Kept, data: Input, name: str, program: Program) -> Deployment:
    if not data.has_mark:
        raise Ended(
            BAD_TEXT, f"{name} has no line %%, so there is no schedule; a schedule of its own file comes after {name}"
        )
    made = described(program, data.head)
    if not made.is_accepted:
        told = Teller(kept, "run").told(made.last)
        raise Ended(BAD_TEXT, f"{name} has no deployment that is accepted: {made.last}", *told)
    return made


def put_together(files: List[str], context: Context) -> Tuple[Kept, Input]:
    """The input of one file, or of a deployment and what comes after its mark."""
    return gathered(joined(files, context.voice) if len(files) > 1 else [file_part(files[0])])


def inspected(files: List[str], is_driven: bool, context: Context) -> Inspected:
    """The input of some files. Of readings the schedule is the one that `drive` makes, and of lines for people the one
    that they become."""
    kept, data = put_together(files, context)
    deployment = accepted(kept, data, files[0], context.program)
    seen = Inspected(files[0], data.head, deployment, [], [], context.program)
    seen.is_driven = is_driven or are_readings(deployment, data)
    if seen.is_driven:
        if not is_driven:
            context.voice.say(f"{files[-1]} has readings: the lines are those that `drive` makes of them")
        seen.lines = driven(kept, data, context.program)
        seen.given = [Line("", it, at, at) for at, it in enumerate(seen.lines, 1)]
        seen.marked = readings_of(lines_of(kept, data).lines, seen.lines)
        return seen
    given = lines_of(kept, data)
    if are_for_people(data):
        made = written_so_far(given, context)
        context.voice.say(*made.notes)
        if made.refusal:
            context.voice.must_say(*made.refusal.lines, "the lines before it are looked into")
        spans, seen.lines, seen.is_for_people = made.spans, made.lines, True
    else:
        seen.kept, seen.lines = kept, [text for _, text in given.lines]
        spans = [(at, at) for at in range(1, len(seen.lines) + 1)]
        seen.marked = marked_lines(seen.lines)
    seen.given = [Line(at, text.strip(), *span) for (at, text), span in zip(given.lines, spans)]
    return seen
