"""`sancus schedule` and `sancus marks`: from files to what they print."""

from __future__ import annotations

import os
from itertools import accumulate
from typing import List, Optional, Tuple, Type, TypeVar

from sancus.cli.commands import Given
from sancus.cli.context import Context
from sancus.cli.joining import joined
from sancus.cli.output import print_lines, write
from sancus.cli.program import Program
from sancus.cli.reading import file_part
from sancus.cli.running import gathered, parts_of
from sancus.model.described import described
from sancus.model.faults import Teller, of_line
from sancus.model.people import are_for_people
from sancus.model.schedule import Mistake, Writer
from sancus.model.session import Stopped, start
from sancus.model.shown import plain, quoted, short, text_of
from sancus.model.texts import MARK, MOST_LINES, Input, Kept, kept_of, split_lines
from sancus.records import dataclass, field
from sancus.status import BAD_TEXT, Ended

W = TypeVar("W", bound=Writer)


@dataclass
class Lines:
    """Lines for people: the deployment, and each line with its file and number there."""

    head: bytes
    lines: List[Tuple[str, str]]
    kept: Kept


@dataclass
class Written:
    """The schedule that lines for people become, what is to be said of it, and for each line the first and the last of
    those that it became."""

    lines: List[str]
    notes: List[str] = field(default_factory=list)
    spans: List[Tuple[int, int]] = field(default_factory=list)
    # why it ends before a line that can't be done
    refusal: Optional[Ended] = None

    @property
    def text(self) -> bytes:
        return "".join(f"{it}\n" for it in self.lines).encode(errors="surrogateescape")


def place(kept: Kept, line: int) -> str:
    name, number = kept.place(line)
    return f"{plain(name)}:{number}" if name not in ("", "-") else f"line {number}" if number else name


def lines_of(kept: Kept, data: Input) -> Lines:
    first = data.head.count(b"\n") + 1
    return Lines(data.head, [(place(kept, first + at), text_of(it)) for at, it in enumerate(data.schedule, 1)], kept)


def as_schedule(kept: Kept, data: Input, context: Context) -> Tuple[Kept, Input, Optional[Ended]]:
    """An input whose lines are those of a schedule: lines for people become one, up to the first that can't be done,
    with why it can't."""
    if not are_for_people(data):
        return kept, data, None
    made = written_so_far(lines_of(kept, data), context)
    context.voice.say(*made.notes)
    text = data.head + b"%%\n" + made.text
    return kept_of(text, ""), Input(text), made.refusal


def read_lines(files: List[str], context: Context) -> Lines:
    parts = joined(files, context.voice) if len(files) > 1 else [file_part(files[0])]
    kept, data = gathered(parts)
    if not data.has_mark:
        name, file = ("the input", "DEPLOYMENT") if files[0] == "-" else (files[0], quoted(files[0]))
        raise Ended(
            BAD_TEXT,
            f"{name} has no line %%, so there are no lines: `sancus schedule {file} LINES` takes them from a file of "
            "their own",
        )
    return lines_of(kept, data)


def refused(error: Stopped, made: Lines, at: str, text: str, program: Program) -> Ended:
    """A plain line that breaks a rule of a schedule, told with the people's own place."""
    return Ended(BAD_TEXT, f"{at}: {short(text)}", *of_line(made.head, error.fault, text, program.ask))


def noted(writer: Writer, at: str, text: str) -> List[str]:
    """What a line showed that it does, or does not do."""
    return [f"{at}: {short(text.strip())}: {it}" for it in writer.notes]


def begun(made: Lines, context: Context, kind: Type[W]) -> W:
    """A writer of lines, with the program beside it."""
    try:
        session = start(context.program, made.head)
    except Stopped as error:
        raise Ended(BAD_TEXT, error.fault, *Teller(made.kept, "run", context.program.ask).told(error.fault)) from None
    return kind(described(context.program, made.head), session, context.program)


def do_line(writer: Writer, at: str, text: str, made: Lines, context: Context) -> List[str]:
    """Does a line, and returns what is to be noted of it; a line that can't be done ends the command."""
    before = len(writer.lines)
    try:
        writer.line(text, at)
        return noted(writer, at, text)
    except Mistake as error:
        raise Ended(BAD_TEXT, *noted(writer, at, text), f"{at}: {short(text.strip())}: {error}") from None
    except Stopped as error:
        act = writer.lines[-1] if len(writer.lines) > before else text
        raise refused(error, made, at, act, context.program) from None
    except (IndexError, KeyError):
        raise Ended(BAD_TEXT, f"{at}: {short(text.strip())}: too few words") from None
    finally:
        writer.notes.clear()


def written_so_far(made: Lines, context: Context) -> Written:
    """The schedule of lines for people, up to the first that can't be done."""
    writer = begun(made, context, Writer)
    found = Written(writer.lines)
    try:
        for at, text in made.lines:
            before = len(writer.lines)
            try:
                found.notes += do_line(writer, at, text, made, context)
            except Ended as error:
                del writer.lines[before:]
                found.refusal = error
                break
            found.spans.append((before + 1, len(writer.lines)))
    finally:
        writer.session.close()
    return fitted(found)


def written(made: Lines, context: Context) -> Written:
    """The schedule of lines for people, all of which can be done."""
    found = written_so_far(made, context)
    if found.refusal:
        raise Ended(found.refusal.status, *found.notes, *found.refusal.lines)
    return found


def fitted(made: Written) -> Written:
    """The schedule without its marks, if it has more lines with them than a run takes."""
    if len(made.lines) <= MOST_LINES:
        return made
    kept = list(accumulate((not it.startswith("#= ") for it in made.lines), initial=0))
    lines = [it for it in made.lines if not it.startswith("#= ")]
    note = f"the comments `#= FILE:LINE ..` are left out: with them there are more than {MOST_LINES:,} lines"
    spans = [(kept[first - 1] + 1, kept[last]) for first, last in made.spans]
    return Written(lines, [*made.notes, note], spans, made.refusal)


def answer(context: Context, given: Given) -> int:
    files = [*given.texts("DEPLOYMENT"), *given.texts("LINES")] or ["-"]
    made = read_lines(files, context)
    found = written(made, context)
    context.voice.say(*found.notes)
    text = found.text if given.has("lines") else made.head + b"%%\n" + found.text
    if os.isatty(1):
        print_lines(*map(text_of, split_lines(text)))
    else:
        write(text)
    return 0


def print_marked(context: Context, given: Given) -> int:
    """Prints a run with the line of the schedule before the items that it gave."""
    files = [*given.texts("DEPLOYMENT"), *given.texts("SCHEDULE")] or ["-"]
    kept, data, refusal = as_schedule(*gathered(parts_of(given, files, context) or [file_part(files[0])]), context)
    answer = context.program.answer(["lines"], data.data)
    head = [*split_lines(data.head), MARK] if given.has("input") else []
    print_lines(*map(text_of, [*head, *answer.lines[: -1 if refusal else None]]))
    if refusal:
        raise refusal
    context.voice.say(*Teller(kept, "run", context.program.ask).told(answer.last))
    return answer.status
