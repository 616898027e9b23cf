"""`sancus watch` and `sancus holds`: from files to what they print."""

from __future__ import annotations

import json
import os
import time
from typing import Any, Dict, List, Optional

from sancus.cli.commands import Given, Usage
from sancus.cli.context import Context
from sancus.cli.output import print_lines
from sancus.cli.question import BROKEN, HELD, UNCONFIRMED, UNKNOWN, Question, Refused, asked, refused
from sancus.cli.question import watch as watch_trace
from sancus.cli.showing import Shown, shown
from sancus.cli.vacuity import unreached
from sancus.model import language, precedence, solvers, warnings
from sancus.model.counterexample import moves_said
from sancus.model.deployment import Tables, tables_of
from sancus.model.described import Deployment
from sancus.model.numbers import number
from sancus.model.property import Property
from sancus.model.search import Found, Search
from sancus.model.shown import quoted
from sancus.records import dataclass, field
from sancus.status import NO_FILE, Ended

SECONDS, SCHEDULE = 20, "counterexample.txt"
# How long the front end's own search takes before other engines are asked, where they are installed.
SECONDS_BEFORE = 5.0
# What the comment of a schedule begins with that `holds` wrote, and may write again.
BEGUN = "# A run that breaks "
PROGRESS_AFTER, PROGRESS_EVERY = 1.0, 5.0


@dataclass
class Answer:
    """An answer: its first word, by what it was found, and what is known of a run that breaks the property."""

    kind: str
    by: str
    seconds: float = 0.0
    found: Optional[Found] = None
    shown: Optional[Shown] = None
    schedule: str = ""
    # why there is no schedule, which is told after the answer
    unwritten: Optional[Ended] = None
    # what another engine says of its proof
    how: str = ""
    notes: List[str] = field(default_factory=list)

    @property
    def status(self) -> int:
        return {"holds": HELD, "fails": BROKEN, "unknown": UNKNOWN, "unconfirmed": UNCONFIRMED}[self.kind]


# --- Warnings ---------------------------------------------------------------------------------------------------------


def of_outputs(deployment: Deployment, property: Property) -> List[str]:
    """A property that sees what a module writes, and not what other code writes to the same device."""
    lines = []
    for kind, module in sorted(property.watched):
        device = deployment.modules[module].device if kind == "out" else None
        if device and not property.sees("raw", device.name):
            lines.append(
                f"note: {property.name} watches `out {module}` and not `raw {device.name}`: other code may write "
                f"{device.name} while {module} is absent"
            )
    return lines


def of_comparisons(property: Property) -> List[str]:
    """A property that compares with more than it seems to."""
    found = sorted(precedence.places(property.tree))
    return [f"note: {property.name}:{language.place_of(property.source, at)[0]}: {what}" for at, _, what in found]


def of_keys(tables: Tables) -> List[str]:
    found = warnings.of_keys(tables)
    return [*found, "so anybody may make a `forged` here, after which nothing is said"] if found else []


# --- The answer -------------------------------------------------------------------------------------------------------


@dataclass
class Progress:
    """Says how far a search is, if it takes longer than a second."""

    context: Context
    began: float = field(default_factory=time.monotonic)
    said: float = 0.0

    def __call__(self, states: int) -> None:
        gone = time.monotonic() - self.began
        if gone > PROGRESS_AFTER and gone - self.said > PROGRESS_EVERY:
            self.said = gone
            self.context.voice.say(f"looking for a run that breaks it: {states:,} states, {gone:.0f} s")


def first_comment(question: Question, line: Optional[int]) -> str:
    at = f":{line}" if line else ""
    return f"{BEGUN}{os.path.basename(question.name)}{at}, at its last item that the property sees."


def write_schedule(question: Question, made: Shown, line: Optional[int], path: str) -> None:
    """Writes the deployment with the schedule, where nothing else is that anybody wrote."""
    head = question.head if question.head.endswith(b"\n") or not question.head else question.head + b"\n"
    lines = [first_comment(question, line), *made.lines]
    text = head + b"%%\n" + "".join(f"{it}\n" for it in lines).encode(errors="surrogateescape")
    try:
        with open(path, "wb") as file:
            file.write(text)
    except OSError as error:
        why = os.strerror(error.errno or 0)
        raise Ended(NO_FILE, f"{path} can't be written: {why}; `--schedule FILE` names another") from None


def must_be_free(path: str) -> None:
    """The file that is taken if none is named is only written over if it was written so."""
    try:
        with open(path, "rb") as file:
            if f"\n{BEGUN}".encode() not in file.read():
                raise Ended(NO_FILE, f"{path} is there, and is no counterexample: `--schedule FILE` names another")
    except FileNotFoundError:
        return
    except OSError as error:
        raise Ended(NO_FILE, f"{path} can't be read: {os.strerror(error.errno or 0)}") from None


def line_of(found: Found) -> Optional[int]:
    """The line of the property at which a run breaks it."""
    return found.property.judged(it for step in found.steps for it in step.items)


def of_found(question: Question, found: Found, by: str, path: str) -> Answer:
    """A run that breaks the property: the program shows it, or the sources alone allow it."""
    made = shown(question, found)
    if made.item is None:
        return Answer("unconfirmed", by, found=found, shown=made)
    answer = Answer("fails", by, found=found, shown=made, schedule=path)
    try:
        write_schedule(question, made, line_of(found), path)
    except Ended as error:
        answer.schedule, answer.unwritten = "", error
    return answer


def searched(question: Question, seconds: float, most_moves: int, path: str) -> Answer:
    """Looks for a run that breaks the property by the front end's own search."""
    found = Search(question.deployment, question.property(), most_moves).run(seconds, Progress(question.context))
    return of_found(question, found, "search", path) if found else Answer("unknown", "search")


def solved(question: Question, seconds: float, path: str) -> Answer:
    """Asks the engines that are installed."""
    deployment, property = question.deployment, question.property()
    question.context.voice.say(f"asking {solvers.ABC} and {solvers.CADICAL}, for {seconds:.0f} s at most")
    proof = solvers.proof(deployment, property, seconds)
    if proof.is_proved:
        return Answer("holds", solvers.ABC, how=proof.told())
    found = solvers.refutation(deployment, property, seconds) if proof.is_broken else None
    return of_found(question, found, solvers.ABC, path) if found else Answer("unknown", solvers.ABC, how=proof.told())


def answered(question: Question, seconds: float, most_moves: int, path: str) -> Answer:
    began = time.monotonic()
    has_solvers = solvers.are_there() and not most_moves
    if question.is_proved():
        made = Answer("holds", "proved", notes=[f"note: {question.name}: {it}" for it in unreached(question)])
    else:
        made = searched(question, min(seconds, SECONDS_BEFORE) if has_solvers else seconds, most_moves, path)
        if made.kind == "unknown" and has_solvers:
            made = solved(question, seconds, path)
        elif made.kind == "unknown" and not solvers.are_there():
            made.notes.append(f"note: {solvers.INSTALL}")
    made.seconds = time.monotonic() - began
    return made


# --- What is printed --------------------------------------------------------------------------------------------------


def of_run(question: Question, answer: Answer) -> List[str]:
    """A run that breaks the property, a move a line."""
    found = answer.found
    assert found
    names = "all" if found.names == list(question.deployment.modules) else " ".join(found.names)
    first = f"after `deploy {names}`:" if found.deploying else "from power-on:"
    return [first, *(f"    {it}" for it in moves_said(found))]


def written_told(schedule: str, size: int) -> List[str]:
    """Where a schedule is, unless it couldn't be written."""
    return [f"schedule: {schedule} ({size} lines); `sancus view {quoted(schedule)}` draws it"] if schedule else []


def told(question: Question, answer: Answer) -> List[str]:
    took = f"({answer.seconds:.1f} s)"
    if answer.kind == "holds":
        return [
            f"holds ({answer.by})",
            f"{question.name}: no legal run breaks it, so no schedule does before its first `forged`",
            f"for all readings, and any number of events on their way {took}",
            *([answer.how] if answer.how else []),
        ]
    if answer.kind == "unknown":
        known = f"; {answer.how}" if answer.how else ""
        return ["unknown", f"{question.name}: it isn't proved, and no run was found that breaks it{known} {took}"]
    assert answer.found and answer.shown
    if answer.kind == "unconfirmed":
        why = "the sources allow a run that breaks it, and no schedule was found that shows one"
        return ["unconfirmed", f"{question.name}:{line_of(answer.found)}: {why} {took}", *of_run(question, answer)]
    return [
        "fails",
        f"{question.name}:{line_of(answer.found)}: broken at item {answer.shown.item}, `{answer.shown.text}` {took}",
        *of_run(question, answer),
        *written_told(answer.schedule, len(answer.shown.lines)),
    ]


def as_object(question: Question, answer: Answer) -> Dict[str, Any]:
    made: Dict[str, Any] = {"kind": answer.kind, "by": answer.by, "property": question.name}
    if answer.found and answer.shown:
        words = [it.split(" ") for it in moves_said(answer.found)]
        made["deployed"] = answer.found.names if answer.found.deploying else []
        made["moves"] = [
            {"kind": it[0], "name": it[1], **({"value": int(it[2])} if it[2:] else {})} for it in words
        ]
        made["line"] = line_of(answer.found)
        if answer.shown.item:
            made.update(item=answer.shown.item, text=answer.shown.text, schedule=answer.schedule)
    return {**made, "notes": answer.notes, "seconds": round(answer.seconds, 2)}


# --- The commands -----------------------------------------------------------------------------------------------------


def watch(context: Context, given: Given) -> int:
    trace = given.text("TRACE") or "-"
    if trace == "-" and os.isatty(0):
        raise Usage("`watch` takes TRACE, or a trace in a pipe", given.command)
    return watch_trace(context, given.text("DEPLOYMENT"), given.text("PROPERTY"), trace)


def least(given: Given, option: str, otherwise: int) -> int:
    """The number of an option, from 1."""
    text = given.text(option)
    found = number(text) if text else otherwise
    if found is None or text and not found:
        raise Usage(f"--{option} takes a number from 1, and not `{text}`", given.command)
    return found


def holds(context: Context, given: Given) -> int:
    """Answers whether no legal run breaks a property."""
    seconds, moves = least(given, "seconds", SECONDS), least(given, "moves", 0)
    path = given.text("schedule") or SCHEDULE
    question = asked(context, given.text("DEPLOYMENT"), given.text("PROPERTY"))
    try:
        tables = tables_of(question.head)
        if tables:
            context.voice.say(*of_keys(tables))
        if not given.text("schedule"):
            must_be_free(path)
        answer = answered(question, seconds, moves, path)
    except Refused as error:
        return refused(context, error)
    property = question.property()
    context.voice.say(*of_outputs(question.deployment, property), *of_comparisons(property), *answer.notes)
    lines = [json.dumps(as_object(question, answer))] if given.has("json") else told(question, answer)
    print_lines(*lines)
    if answer.unwritten:
        raise answer.unwritten
    return answer.status
