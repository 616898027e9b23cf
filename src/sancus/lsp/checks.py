"""What is wrong with a text: the program's faults and what is noted of lines, in words, each at its place."""

from __future__ import annotations

import os
import select
from contextlib import contextmanager
from dataclasses import dataclass
from signal import SIGKILL
from threading import Timer
from typing import Any, Dict, Iterator, List, Optional

from sancus import records
from sancus.app import App
from sancus.errors import Refused
from sancus.lsp.documents import Document
from sancus.lsp.text import Range
from sancus.model import precedence, warnings
from sancus.model.deployment import Tables
from sancus.model.described import Deployment, described
from sancus.model.faults import Teller
from sancus.model.inspection import are_readings
from sancus.model.kinds import Kind
from sancus.model.language import place_of
from sancus.model.people import are_for_people
from sancus.model.property import Property
from sancus.model.shown import text_of
from sancus.model.texts import MARK, Input, first_word, is_act
from sancus.runner import Runner
from sancus.schedule import Schedule
from sancus.status import Ended

Diagnostic = Dict[str, Any]
ERROR, WARNING, INFORMATION = 1, 2, 3
# How many seconds an editor waits for an answer: a line of a schedule may take a million steps.
PATIENCE = 1.0


class TooLong(Exception):
    """The program was ended, since it took too long."""


@dataclass(frozen=True)
class Limited(Runner):
    """The program, which is ended if somebody waits too long for it, on a busy machine too. (Only on Linux a process can
    be waited for so.)"""

    patience: float = PATIENCE

    def ended(self, process: int) -> int:
        if hasattr(os, "pidfd_open") and not is_ended_within(process, self.patience):
            os.kill(process, SIGKILL)
            super().ended(process)
            raise TooLong
        return super().ended(process)


def is_ended_within(process: int, seconds: float) -> bool:
    watched = os.pidfd_open(process)
    try:
        return bool(select.select([watched], [], [], seconds)[0])
    finally:
        os.close(watched)


@dataclass(frozen=True)
class Place:
    """A place of an input: a line, and in it perhaps a byte column from 1 with a length."""

    line: int
    column: Optional[int] = None
    length: int = 1


@records.dataclass
class Placed(Teller):
    """Finds words for a fault, and keeps the places that these are about in place of showing them."""

    places: List[Place] = records.field(default_factory=list)

    def with_caret(self, line: int, column: Optional[int], length: int) -> List[str]:
        self.places.append(Place(line, column, length))
        return []

    def told_entry(self, kind: str, index: int) -> str:
        at = self.entry_line(kind, index)
        self.places += [Place(at)] if at else []
        return super().told_entry(kind, index)

    def best(self) -> Place:
        """The first place within a line, or else the first line."""
        return next((it for it in self.places if it.column), self.places[0] if self.places else Place(1))


def diagnostic(where: Range, message: str, severity: int, code: str = "") -> Diagnostic:
    made = {"range": where, "severity": severity, "source": "sancus", "message": message}
    return {**made, "code": code} if code else made


def command_of(deployment: Deployment, data: Input) -> str:
    """The command that an input is for, by what follows its mark."""
    if MARK in data.schedule:
        return "snap"
    first = next(filter(is_act, data.schedule), b"")
    if first_word(first) in (b"image", b"trace"):
        return "explain"
    return "drive" if are_readings(deployment, data) else "run"


@contextmanager
def limited(schedule: Schedule, seconds: float) -> Iterator[None]:
    """Ends a run that takes too long."""
    timer = Timer(seconds, lambda: schedule.writer.session.process.kill())
    timer.start()
    try:
        yield
    except Ended:
        raise TooLong from None
    finally:
        timer.cancel()


def noted_of(it: Document) -> Iterator[Diagnostic]:
    """What `sancus holds` notes of a property by its text alone."""
    property = Property(it.name, text_of(it.text.data))
    if not property.failing:
        yield diagnostic(it.text.span(1), "it has no `fail`, so nothing can break it", WARNING)
    for at, length, what in sorted(precedence.places(property.tree)):
        yield diagnostic(it.text.span(*place_of(property.source, at), length), what, WARNING)


@dataclass
class Checker:
    """Has texts judged by the program."""

    program: Limited

    def check(self, it: Document) -> List[Diagnostic]:
        made: List[Diagnostic] = []
        if it.kind is Kind.OTHER:
            return made
        try:
            made += self.of_deployment(it)
            if not any(found["severity"] == ERROR for found in made):
                made += self.of_property(it) if it.kind is Kind.PROPERTY else self.of_lines(it)
        except TooLong:
            words = f"this takes longer than {self.program.patience:g} s, so the editor doesn't wait: `sancus run` does"
            made.append(diagnostic(it.text.span(it.first), words, INFORMATION))
        return made

    def last(self, word: str, text: bytes) -> str:
        lines = self.program.answer([word], text).lines
        return text_of(lines[-1]) if lines else ""

    def of_fault(self, it: Document, word: str, fault: str) -> List[Diagnostic]:
        """What a fault line, or an illegal item, means, at its place; none if the line is neither."""
        teller = Placed(it.kept(), word, self.program.ask)
        told = teller.told(fault)
        if not told:
            return []
        place = teller.best()
        own, code = it.own_line(place.line), fault.split(" ")[2:3]
        where = it.text.span(own, place.column, place.length) if own else it.text.span(1)
        return [diagnostic(where, "\n".join(told), ERROR, "".join(code))]

    # --- Deployments ---

    def of_deployment(self, it: Document) -> List[Diagnostic]:
        if not it.deployment:
            mark = "//:" if it.kind is Kind.PROPERTY else "#:"
            words = f"no deployment is known: a line `{mark} deployment FILE` names one"
            return [diagnostic(it.text.span(1), words, INFORMATION)]
        made = it.deployment.read = described(self.program, it.head)
        if not made.is_accepted and it.kind is not Kind.DEPLOYMENT:
            return [diagnostic(it.text.span(1), f"{it.deployment.name}: {made.last}", ERROR)]
        if not made.is_accepted:
            return self.of_fault(it, "check", made.last) or [diagnostic(it.text.span(1), made.last, ERROR)]
        return self.warnings(it, it.tables) if it.kind is Kind.DEPLOYMENT and it.tables else []

    def warnings(self, it: Document, tables: Tables) -> List[Diagnostic]:
        teller, made = Placed(it.kept(), "check"), []
        for about in (*warnings.about_keys(tables), *warnings.about_ports(tables)):
            line = teller.entry_line(about.kind, about.index) if about.kind else 1
            made.append(diagnostic(it.text.span(line or 1), about.what, WARNING))
        for value in warnings.about_values(tables):
            source = str(tables.modules[value.index]["source"])
            found = teller.source_place(value.index, *place_of(source, value.at))
            where = it.text.span(*found, value.length) if found else it.text.span(1)
            made.append(diagnostic(where, value.what, WARNING))
        return made

    # --- What follows ---

    def of_property(self, it: Document) -> List[Diagnostic]:
        fault = text_of(self.program.answer(["watch"], it.whole).output.partition(b"\n")[0])
        # (without a deployment, names are of nothing)
        is_of_names = fault.startswith(("fault property P3", "fault property P4"))
        made = [] if is_of_names and not it.deployment else self.of_fault(it, "watch", fault)
        return made or list(noted_of(it))

    def of_lines(self, it: Document) -> List[Diagnostic]:
        data = Input(it.whole)
        if not it.deployment or not it.deployment.read or not any(map(is_act, data.schedule)):
            return []
        if are_for_people(data):
            return self.of_people(it, data)
        word = command_of(it.deployment.read, data)
        return self.of_fault(it, word, self.last(word, it.whole))

    def of_people(self, it: Document, data: Input) -> List[Diagnostic]:
        """What can't be done, and what is noted of lines, as they are done one by one."""
        made: List[Diagnostic] = []
        lines = data.schedule[: data.schedule.index(MARK)] if MARK in data.schedule else data.schedule
        app = App(it.head, it.name, program=self.program)
        with app.schedule() as schedule, limited(schedule, self.program.patience):
            for number, line in enumerate(map(text_of, lines), it.first):
                noted = len(schedule.notes)
                try:
                    schedule.line(line)
                except Refused as error:
                    return [*made, diagnostic(it.text.span(number), "\n".join(error.words), ERROR)]
                finally:
                    notes = schedule.notes[noted:]
                    made += [diagnostic(it.text.span(number), words, INFORMATION) for words in notes]
        return made
