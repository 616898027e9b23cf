"""Which traces and schedules are explained, and `sancus why`."""

from __future__ import annotations

import os
from typing import List, Tuple

from sancus.cli.commands import Given, Usage
from sancus.cli.context import Context
from sancus.cli.inspecting import inspected
from sancus.cli.joining import explained, trace_part
from sancus.cli.output import print_lines
from sancus.cli.program import Program
from sancus.cli.reading import Part, look_at, look_at_standard_input
from sancus.cli.running import gathered
from sancus.cli.runs import is_schedule
from sancus.model.causes import Explained, chosen, judged, must_be_judged, others_named, why
from sancus.model.items import ITEMS
from sancus.model.lines import run_by_line
from sancus.model.numbers import number
from sancus.model.texts import Input, kept_of


def explain(deployment: str, trace: Part, program: Program) -> Explained:
    """Has the program judge a trace, and takes apart what it says."""
    return judged(*gathered(explained(deployment, trace)), program)


def explain_run(files: List[str], context: Context) -> Explained:
    """Runs the schedule, or lines for people, of some files, and has the trace judged."""
    seen = inspected(files, False, context)
    lines = "".join(f"{it}\n" for it in seen.lines).encode(errors="surrogateescape")
    run = run_by_line(seen.head + b"%%\n" + lines, context.program)
    if run.last != "end":
        context.voice.say(*seen.fault_told(run.last), "what came before is judged")
    text = seen.head + b"%%\n" + b"\n".join([b"trace", *(it for _, it in run.items), b"end", b""])
    made = judged(kept_of(text, ""), Input(text), context.program)
    made.seen, made.lines = seen, [at for at, _ in run.items]
    return made


def is_file(word: str) -> bool:
    return word == "-" or os.path.exists(word) and not os.path.isdir(word)


def files_and_item(given: Given) -> Tuple[List[str], str]:
    """The files of a call after the deployment, and the item that is asked about."""
    words = [*given.texts("TRACE"), *given.texts("ITEM")]
    is_item = bool(words) and (number(words[0]) is not None or words[0].split(" ")[0] in ITEMS)
    files = words[:1] if words and (is_file(words[0]) or not is_item) else []
    while files and words[len(files) :] and is_file(words[len(files)]):
        files.append(words[len(files)])
    return files, " ".join(words[len(files) :])


def explained_of(deployment: str, files: List[str], context: Context, given: Given) -> Explained:
    """What is asked about: a trace, which comes on standard input if no file is named, or a schedule, which may be behind
    the deployment's own mark."""
    if len(files) > 1 or files and is_schedule(files[0], deployment, context.program):
        return explain_run([deployment, *files], context)
    if not files and not look_at_standard_input():
        if is_file(deployment) and deployment != "-" and Input(look_at(deployment)).schedule:
            return explain_run([deployment], context)
        raise Usage("`why` takes SCHEDULE or TRACE, or a trace in a pipe", given.command)
    return explain(deployment, trace_part(files[0] if files else "-", context.voice), context.program)


def answer(context: Context, given: Given) -> int:
    files, words = files_and_item(given)
    made = explained_of(given.text("DEPLOYMENT"), files, context, given)
    must_be_judged(made)
    at = chosen(made, words)
    context.voice.say(*others_named(made, words))
    print_lines(*why(made, at))
    return 0
