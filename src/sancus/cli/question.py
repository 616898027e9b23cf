"""What is asked of a deployment and a property, and what the program says of it."""

from __future__ import annotations

import re
from typing import List, Optional

from sancus.cli.context import Context
from sancus.cli.joining import deployment_alone, trace_part
from sancus.cli.output import print_lines
from sancus.cli.program import Collected, Ran, Sink
from sancus.cli.reading import Part, file_part, text_part
from sancus.cli.running import gathered
from sancus.cli.say import Voice
from sancus.cli.telling import words_of
from sancus.model.described import described
from sancus.model.faults import Teller
from sancus.model.property import Property, watched_of
from sancus.model.shown import text_of
from sancus.model.texts import MARK, Input, Kept
from sancus.records import dataclass
from sancus.status import NO_ANSWER, USAGE, Ended

HELD, BROKEN, UNKNOWN, UNCONFIRMED = 0, 12, 13, 14


class Refused(Exception):
    """The program answered with a fault: its line, its status, and what it means."""

    def __init__(self, ran: Ran, told: List[str]) -> None:
        super().__init__(ran.last)
        self.ran, self.told = ran, told


def mark() -> Part:
    return text_part(MARK + b"\n")


def head_parts(deployment: str, property: str, voice: Voice) -> List[Part]:
    """A deployment, a property, and a mark after each."""
    return [*deployment_alone(deployment, voice), file_part(property), mark()]


def must_know(ran: Ran, command: str) -> None:
    if ran.status == USAGE and ran.last == "fault usage":
        raise Ended(NO_ANSWER, f"the program that is started has no command `{command}`: it is an older one")


@dataclass
class Question:
    """A deployment and a property that are here whole, with their places."""

    context: Context
    name: str
    kept: Kept
    data: bytes

    def __post_init__(self) -> None:
        whole = Input(self.data)
        self.head = whole.head
        self.text = Input(whole.rest).head
        self.deployment = described(self.context.program, self.head)

    def property(self) -> Property:
        """The property, which the program has accepted."""
        return Property(self.name, text_of(self.text.replace(b"\r\n", b"\n")))

    def told(self, ran: Ran, command: str) -> List[str]:
        return words_of(lambda: Teller(self.kept, command, self.context.program.ask).told(ran.last))

    def is_proved(self) -> bool:
        """Whether the program proves it."""
        return self.proves(self.text)

    def proves(self, text: bytes) -> bool:
        """Whether the program proves another property of the same deployment."""
        ran = self.context.program.ran_of(["holds"], self.head + b"%%\n" + text + b"%%\n", Collected())
        must_know(ran, "holds")
        if ran.status not in (HELD, UNKNOWN):
            raise Refused(ran, self.told(ran, "holds"))
        return ran.status == HELD

    def run(self, lines: List[str]) -> bytes:
        """What the program prints of a schedule."""
        return self.context.program.ask(["run"], self.head + b"%%\n" + "".join(f"{it}\n" for it in lines).encode())

    def broken_at(self, output: bytes) -> Optional[int]:
        """The item of a run at which the program says that the property is broken."""
        sink = Collected()
        text = self.head + b"%%\n" + self.text + b"%%\n" + output
        ran = self.context.program.ran_of(["watch"], text, sink)
        must_know(ran, "watch")
        if ran.last.startswith("fault property "):
            raise Refused(ran, self.told(ran, "watch"))
        found = re.match(rb"broken ([0-9]+)\n", sink.data())
        return int(found[1]) if found else None


def asked(context: Context, deployment: str, property: str) -> Question:
    kept, data = gathered(head_parts(deployment, property, Voice(True)))
    return Question(context, property, kept, data.data)


def item(output: bytes, number: int) -> str:
    """An item of a run by its number."""
    lines = output.split(b"\n")
    at = lines.index(b"trace") if b"trace" in lines else -1
    return text_of(lines[at + number]) if 0 <= at + number < len(lines) else ""


def refused(context: Context, error: Refused) -> int:
    """Passes on the program's fault, with what it means."""
    print_lines(error.ran.last)
    context.voice.say(*error.told)
    return error.ran.status


# --- `watch` ----------------------------------------------------------------------------------------------------------


@dataclass
class Verdict(Sink):
    """Passes on what `watch` prints, and keeps it."""

    text: bytes = b""

    def write(self, data: bytes) -> None:
        self.text += data
        super().write(data)

    def number(self, word: bytes) -> Optional[int]:
        found = re.search(rb"(?m)^" + word + rb" ([0-9]+)$", self.text)
        return int(found[1]) if found else None


def watch(context: Context, deployment: str, property: str, trace: str) -> int:
    """Judges a trace by a property."""
    sink = Verdict()
    parts = [*head_parts(deployment, property, Voice(True)), trace_part(trace, context.voice)]
    ran = context.program.run_parts(["watch"], parts, sink)
    must_know(ran, "watch")
    teller = Teller(ran.kept, "watch", context.program.ask)
    teller.trace_mark = teller.second_mark() or teller.mark
    broken, forged = sink.number(b"broken"), sink.number(b"forged")
    if broken:
        which = broken
        context.voice.say(*words_of(lambda: broken_said(teller, which)))
    elif forged:
        context.voice.say(f"item {forged} is the first `forged`: nothing is said of it and of what comes after it")
    elif ran.status != HELD:
        context.voice.say(*words_of(lambda: teller.told(ran.last)))
    return ran.status


def broken_said(teller: Teller, number: int) -> List[str]:
    """The item that breaks a property, and the line of the property that says so; less if the trace isn't kept
    whole."""
    kept = teller.kept
    second = teller.line_after(MARK, teller.mark) or 0
    start = teller.line_after(b"trace", second)
    if not kept.is_whole() or not start:
        return []
    source = b"".join((kept.line(it) or b"") + b"\n" for it in range(teller.mark + 1, second))
    items = [watched_of(text_of(kept.line(start + it) or b"")) for it in range(1, number + 1)]
    line = Property("", text_of(source)).judged(items)
    told = ["the property is broken at this item", *teller.shown(start + number)]
    return told + (["by this line of the property", *teller.shown(teller.mark + line)] if line else [])
