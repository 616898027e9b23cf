"""A run whose lines may be for people, and are done one by one as they come: from files, a pipe or a terminal.

At a terminal a line that can't be done is explained, and the run goes on with what it had. Elsewhere it ends the run,
after the items of the lines before it.
"""

from __future__ import annotations

from typing import Iterator, List

from sancus.cli.context import Context
from sancus.cli.people import Lines, begun, do_line, place
from sancus.cli.program import Collected, Ran, Sink
from sancus.cli.reading import Part
from sancus.model.items import Item
from sancus.model.schedule import Writer
from sancus.model.session import Stopped
from sancus.model.shown import text_of
from sancus.model.texts import MARK, Kept, Origin, kept_of, without_return
from sancus.records import dataclass, field
from sancus.status import BAD_TEXT, Ended


@dataclass
class Coming:
    """The lines of an input as they come."""

    parts: List[Part]
    kept: Kept = field(default_factory=Kept)
    count: int = 0

    def lines(self) -> Iterator[bytes]:
        for part in self.parts:
            self.kept.origins.append(Origin(self.count + 1, part.name, part.line, part.line_of))
            yield from self.lines_of(part)

    def lines_of(self, part: Part) -> Iterator[bytes]:
        left, piece = b"", part.read()
        while piece or left:
            *whole, left = (left + piece).split(b"\n")
            if not piece:
                whole, left = [left], b""
            for it in whole:
                self.count += 1
                self.kept.add(it + b"\n")
                yield without_return(it)
            piece = part.read() if piece else b""

    @property
    def place(self) -> str:
        """The place of the line that came last."""
        return place(self.kept, self.count)


class Answering(Writer):
    """A writer that prints the items of each line when it was done."""

    sink: Sink
    # whether each line is judged before it is done, since one that breaks a rule would end the run
    is_careful = False

    def put(self, *words: str) -> List[Item]:
        if self.is_careful:
            self.judge(" ".join(words))
        items = super().put(*words)
        self.sink.write(b"".join(it.text.encode(errors="surrogateescape") + b"\n" for it in items))
        return items

    def judge(self, text: str) -> None:
        """Has the program judge a line by itself: rules look at no other line."""
        act = text.encode(errors="surrogateescape")
        answer = self.program.ask(["run"], self.deployment.head + b"%%\n" + act + b"\n").strip()
        last = text_of(answer.rpartition(b"\n")[2])
        if last.startswith("fault schedule "):
            raise Stopped(last)


def run_live(context: Context, parts: List[Part], is_typed: bool, sink: Sink) -> Ran:
    """Runs an input line by line, and returns what is kept of the schedule that it became."""
    coming = Coming(parts)
    lines = coming.lines()
    has_mark = any(it == MARK for it in lines)
    first = bytes(coming.kept.first)
    judged = Collected()
    ran = context.program.ran_of(["run"], first, judged)
    if not has_mark or ran.status:
        sink.write(judged.data())
        sink.close()
        return Ran(ran.status, ran.last, coming.kept)
    sink.write(judged.data()[: -len(b"end\n")])
    made = Lines(first[: -len(b"%%\n")], [], coming.kept)
    writer = begun(made, context, Answering)
    writer.sink, writer.is_careful = sink, is_typed
    try:
        for it in lines:
            answer_line(writer, coming.place, text_of(it), made, context)
    finally:
        writer.session.close()
    sink.write(b"end\n")
    sink.close()
    text = first + "".join(f"{it}\n" for it in writer.lines).encode(errors="surrogateescape")
    return Ran(0, "end", kept_of(text, ""))


def answer_line(writer: Answering, at: str, text: str, made: Lines, context: Context) -> None:
    """Does a line, and says what is to be noted of it; one that was typed and can't be done only says why."""
    try:
        context.voice.say(*do_line(writer, at, text, made, context))
    except Ended as error:
        if not writer.is_careful or error.status != BAD_TEXT:
            raise
        context.voice.must_say(*error.lines)
