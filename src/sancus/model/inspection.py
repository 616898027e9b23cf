"""An input that is looked into: its deployment, the lines of its schedule, and the line that is asked about."""

from __future__ import annotations

import os
import re
from typing import List, Optional, Tuple

from sancus.model.asking import Program
from sancus.model.described import Deployment
from sancus.model.faults import Teller
from sancus.model.numbers import number
from sancus.model.rules import near
from sancus.model.schedule import spelled
from sancus.model.shown import plain, text_of
from sancus.model.texts import Input, Kept, is_act, kept_of
from sancus.records import dataclass, field
from sancus.status import BAD_TEXT, Ended


@dataclass(frozen=True)
class Line:
    """A line as it was given: its file and number there, its text, and the first and last line of the schedule that it
    is or became."""

    place: str
    text: str
    first: int
    last: int

    def is_at(self, place: str) -> bool:
        """Whether a word `FILE:LINE` means this line; the file's folder may be left out. In a mark it is spelled as one
        word."""
        own = spelled(self.place)
        return spelled(place) in (own, os.path.basename(own))


@dataclass
class Inspected:
    """An input: its deployment, the lines of its schedule, and the lines that were given for them."""

    name: str
    head: bytes
    deployment: Deployment
    lines: List[str]
    given: List[Line]
    program: Program
    # whether the lines that were given are for people, or readings
    is_for_people: bool = False
    is_driven: bool = False
    # the lines for people, or readings, of which `sancus schedule`, or `drive`, made the schedule
    marked: List[Line] = field(default_factory=list)
    # what is kept of the input, if its own lines are the schedule's
    kept: Optional[Kept] = None

    def line(self, word: str) -> Line:
        """The line that is asked about, by its number after the mark or its place in a file."""
        value = number(word)
        if value == 0:
            return Line("", "power-on", 0, 0)
        if value is not None and value <= len(self.given):
            return self.given[value - 1]
        found = [it for it in [*self.marked, *self.given] if it.is_at(word)] if value is None else []
        if found:
            return found[0]
        begins = next((it.place for it in [*self.marked, *self.given] if ":" in it.place), "")
        raise Ended(
            BAD_TEXT,
            f"{word} is no line of the schedule: it has {len(self.given)}, counted from 1 after %%"
            + (f"; the first is {begins}" if begins else ""),
        )

    def end(self) -> Line:
        """The last line."""
        return self.given[-1] if self.given else self.line("0")

    def said(self, at: int) -> str:
        """A line of the schedule by its number, or by the line for people, or the reading, that it was made of."""
        made_of = self.given if self.is_for_people else self.marked if self.is_driven else []
        return plain(next((it.place for it in made_of if it.first <= at <= it.last), f"line {at}"))

    def headed(self, line: Line) -> str:
        """The line that is asked about, as the first line of an answer."""
        is_own = not self.is_for_people and line.first == line.last and line not in self.marked
        return plain(f"line {line.first}: {line.text}" if is_own else f"{line.place}: {line.text}")

    def fault_told(self, fault: str) -> List[str]:
        """A fault of the schedule, and what it means."""
        text = self.head + b"%%\n" + "".join(f"{it}\n" for it in self.lines).encode(errors="surrogateescape")
        kept = self.kept or kept_of(text, self.name)
        return [fault, *Teller(kept, "run", self.program.ask).told(fault)]

    def module(self, name: str) -> str:
        known = self.deployment.names("module")
        if name not in known:
            raise Ended(BAD_TEXT, f"there is no module {name}; the modules: {' '.join(known) or 'none'}{near(name, known)}")
        return name


MARK_OF_PEOPLE = re.compile(r"#= (\S+:[0-9]+) (.*)")


def marked_lines(lines: List[str]) -> List[Line]:
    """The lines for people of which a schedule was made, each with what follows up to the next."""
    found = [(at, it) for at, it in enumerate((MARK_OF_PEOPLE.fullmatch(it) for it in lines), 1) if it]
    ends = [at - 1 for at, _ in found[1:]] + [len(lines)]
    return [Line(it[1], it[2], at, end) for (at, it), end in zip(found, ends)]


def are_readings(deployment: Deployment, data: Input) -> bool:
    """Whether the lines after the mark are readings, and not lines of a schedule."""
    first = next((it for it in data.schedule if is_act(it)), b"").split()
    return len(first) == 2 and first[0].decode(errors="replace") in deployment.devices


def driven(kept: Kept, data: Input, program: Program) -> List[str]:
    """The schedule that `drive` makes of readings."""
    lines = program.answer(["drive"], data.data).lines
    last = text_of(lines[-1]) if lines else ""
    if last.startswith("fault reading"):
        raise Ended(BAD_TEXT, last, *Teller(kept, "drive", program.ask).told(last))
    return [text_of(it[2:]) for it in lines if it.startswith(b"> ")]


def readings_of(lines: List[Tuple[str, str]], schedule: List[str]) -> List[Line]:
    """Readings with what `drive` made of each, from its `sense` up to the next; of a comment it made nothing."""
    begins = [at for at, it in enumerate(schedule, 1) if it.startswith("sense ")] + [len(schedule) + 1]
    made, which = [], 0
    for place, text in lines:
        is_reading = is_act(text.encode(errors="surrogateescape"))
        end = begins[min(which + is_reading, len(begins) - 1)] - 1
        made.append(Line(place, text.strip(), begins[which] if is_reading else end + 1, end))
        which += is_reading
    return made


def broken(seen: Inspected, fault: str) -> Ended:
    """The schedule broke a rule on the way."""
    return Ended(BAD_TEXT, f"the schedule breaks off: {fault}", *seen.fault_told(fault)[1:])
