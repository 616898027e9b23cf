"""Schedules that say what they expect, in comments, so that `run` takes the same file:

    #: deployment lighting.txt      if the file has no deployment of its own; a path from this file's folder
    sample eye 120
    #> read eye 120                 the line above gives these items in this order, perhaps with others between
    carry eye logic
    #> take logic up 0 120
    #> !out lamp                    and none that begins so
    #: never out lamp 0             no line gives such an item
    #: legal                        the sources allow the whole run
    #: keeps bright.property        the run doesn't break this property, up to its first `forged`
    #: holds bright.property        the program proves that no run does

`#> -` means that the line gives nothing.
"""

from __future__ import annotations

import time
from dataclasses import dataclass, field
from pathlib import Path
from typing import List, Optional, Sequence
from xml.sax.saxutils import escape, quoteattr

from sancus.app import App
from sancus.errors import Fault, Refused
from sancus.model.asking import Program
from sancus.model.rules import near
from sancus.model.shown import text_of
from sancus.model.texts import Input, split_lines
from sancus.schedule import Schedule

WANTED, RULE = "#>", "#:"
NOTHING, NOT = "-", "!"
RULES = ("deployment", "never", "legal", "keeps", "holds")


@dataclass(frozen=True)
class Comment:
    """An expectation, without its mark, and its line in the file."""

    line: int
    text: str


@dataclass
class Step:
    """A line of the schedule with its place, and what it is to give."""

    line: int
    text: str
    wanted: List[Comment] = field(default_factory=list)


@dataclass
class Case:
    """A file: its deployment, if that is its own, its lines, and what is expected of the whole run."""

    path: Path
    own: Optional[bytes]
    steps: List[Step] = field(default_factory=list)
    rules: List[Comment] = field(default_factory=list)
    # the lines before the schedule, as they are
    head: List[str] = field(default_factory=list)


@dataclass(frozen=True)
class Failure:
    """An expectation that isn't met, and where it stands."""

    place: str
    what: str

    def __str__(self) -> str:
        return f"{self.place}: {self.what}"


@dataclass
class Result:
    """How a file was tried: how many expectations it has, and which aren't met."""

    path: Path
    expectations: int = 0
    failures: List[Failure] = field(default_factory=list)
    seconds: float = 0.0
    # for each line of the schedule the items that it gave
    gave: List[List[str]] = field(default_factory=list)

    def fail(self, line: int, what: str) -> None:
        self.failures.append(Failure(f"{self.path}:{line}", what))


def read_case(path: Path) -> Case:
    """The expectations of a file."""
    data = Input(path.read_bytes())
    text = data.rest if data.has_mark else data.data
    has_own = data.has_mark and any(it.strip() and not it.strip().startswith(b"#") for it in data.head.split(b"\n"))
    case = Case(path, data.head if has_own else None)
    if data.has_mark:
        case.head = [*map(text_of, split_lines(data.head)), "%%"]
    for at, line in enumerate(map(text_of, split_lines(text)), len(case.head) + 1):
        if line.startswith(RULE):
            case.rules.append(Comment(at, line[len(RULE) :].strip()))
        if line.startswith(WANTED) and case.steps:
            case.steps[-1].wanted.append(Comment(at, line[len(WANTED) :].strip()))
        elif line.strip() and not line.startswith("#"):
            case.steps.append(Step(at, line))
    return case


def begins(item: str, wanted: str) -> bool:
    words = wanted.split()
    return item.split()[: len(words)] == words


# --- Trying ---


def app_of(case: Case, program: Optional[Program]) -> App:
    """The application of a file, or of the one that it names."""
    if case.own is not None:
        return App(case.own, str(case.path), program=program)
    named = next((it.text.partition(" ")[2] for it in case.rules if it.text.startswith("deployment ")), "")
    if not named:
        raise FileNotFoundError("it has no deployment, and no line `#: deployment FILE`")
    path = case.path.parent / named
    return App(Input(path.read_bytes()).head, str(path), program=program)


def try_file(path: Path, program: Optional[Program] = None) -> Result:
    """Runs a file, and compares."""
    made, begun = Result(path), time.perf_counter()
    try:
        case = read_case(path)
        with app_of(case, program).schedule() as schedule:
            if all(try_step(schedule, it, made) for it in case.steps):
                try_rules(case, schedule, made)
    except Fault as error:
        made.fail(1, str(error))
    except OSError as error:
        made.fail(1, f"{error.filename} can't be read: {error.strerror}" if error.filename else str(error))
    made.seconds = time.perf_counter() - begun
    return made


def try_step(schedule: Schedule, step: Step, made: Result) -> bool:
    """Does a line, and compares what it gives; false if it can't be done."""
    try:
        gave = [it.text for it in schedule.line(step.text)]
    except Refused as error:
        made.fail(step.line, str(error))
        return False
    made.gave.append(gave)
    left = gave
    for it in step.wanted:
        made.expectations += 1
        left = compared(it, step.text, gave, left, made)
    return True


def compared(wanted: Comment, line: str, gave: List[str], left: List[str], made: Result) -> List[str]:
    """Compares what a line gave with one expectation, and returns the items that are left for the next."""
    shown = ", ".join(gave) or "nothing"
    if wanted.text == NOTHING:
        if gave:
            made.fail(wanted.line, f"`{line}` gives {shown}, and nothing was expected")
    elif wanted.text.startswith(NOT):
        found = next((it for it in gave if begins(it, wanted.text[len(NOT) :])), None)
        if found:
            made.fail(wanted.line, f"`{line}` gives `{found}`")
    else:
        at = next((at for at, it in enumerate(left) if begins(it, wanted.text)), None)
        if at is not None:
            return left[at + 1 :]
        made.fail(wanted.line, f"`{line}` gives no `{wanted.text}` here, but {shown}")
    return left


def try_rules(case: Case, schedule: Schedule, made: Result) -> None:
    """Compares the whole run with what is expected of it."""
    for it in case.rules:
        kind, _, rest = it.text.partition(" ")
        made.expectations += kind in RULES[1:]
        match kind:
            case "deployment":
                pass
            case "never":
                try_never(it, rest, case, made)
            case "legal":
                verdict = schedule.run().explain()
                if not verdict or verdict.forged:
                    made.fail(it.line, "; ".join(verdict.words[-2:]))
            case "keeps" | "holds":
                try_property(it, rest, case, schedule, made)
            case _:
                made.fail(it.line, f"`{it.text}` is no expectation: {', '.join(RULES)}{near(kind, list(RULES))}")


def try_never(rule: Comment, wanted: str, case: Case, made: Result) -> None:
    items = ((step, item) for step, gave in zip(case.steps, made.gave) for item in gave)
    found = next(((step, item) for step, item in items if begins(item, wanted)), None)
    if found:
        step, item = found
        made.fail(rule.line, f"line {step.line}, `{step.text}`, gives `{item}`")


def try_property(rule: Comment, name: str, case: Case, schedule: Schedule, made: Result) -> None:
    """Asks the program about a property, whose path is from the file's folder."""
    try:
        text = (case.path.parent / name).read_bytes()
        if rule.text.startswith("holds"):
            if not schedule.app.holds(text):
                made.fail(rule.line, f"it isn't proved that no run breaks {name}: `sancus holds` looks for one")
            return
        run = schedule.run()
        broken = run.broken_at(text)
        if broken:
            made.fail(rule.line, f"item {broken}, `{run.texts[broken - 1]}`, breaks {name}")
    except OSError as error:
        made.fail(rule.line, f"{name} can't be read: {error.strerror}")
    except Fault as fault:
        made.fail(rule.line, f"{name}: {fault}")


# --- Writing ---


def updated(path: Path, result: Result) -> str:
    """The file with the items of each line that has expectations in their place."""
    case, lines = read_case(path), []
    gave = {step.line: items for step, items in zip(case.steps, result.gave)}
    replaced = {it.line for step in case.steps if step.line in gave for it in step.wanted}
    first = {step.wanted[0].line: gave[step.line] for step in case.steps if step.wanted and step.line in gave}
    for at, line in enumerate(map(text_of, split_lines(path.read_bytes())), 1):
        if at in first:
            lines += [f"{WANTED} {it}" for it in first[at] or [NOTHING]]
        if at not in replaced:
            lines.append(line)
    return "".join(f"{it}\n" for it in lines)


def junit(results: Sequence[Result]) -> str:
    """The results in the form that servers for tests read."""
    failed = sum(bool(it.failures) for it in results)
    lines = [
        '<?xml version="1.0" encoding="utf-8"?>',
        f'<testsuite name="sancus" tests="{len(results)}" failures="{failed}">',
        *(line for it in results for line in testcase(it)),
        "</testsuite>",
    ]
    return "".join(f"{it}\n" for it in lines)


def testcase(result: Result) -> List[str]:
    head = f'<testcase classname="sancus" name={quoteattr(str(result.path))} time="{result.seconds:.3f}">'
    if not result.failures:
        return [f"  {head}</testcase>"]
    said = "\n".join(map(str, result.failures))
    failure = f"<failure message={quoteattr(str(result.failures[0]))}>{escape(said)}</failure>"
    return [f"  {head}", f"    {failure}", "  </testcase>"]
