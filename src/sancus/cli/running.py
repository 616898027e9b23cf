"""The words of the program: hands it its input, passes on its output, and says in words what went wrong."""

from __future__ import annotations

import os
import re
from typing import List, Optional, Tuple

from sancus.cli.commands import Given, Usage
from sancus.cli.context import Context
from sancus.cli.joining import explained, joined, snap_parts, with_mark
from sancus.cli.output import print_lines
from sancus.cli.program import Ran, Sink
from sancus.cli.reading import MOST_INPUT, Part, can_be_read, file_part, is_regular, look_at_standard_input, open_file
from sancus.cli.sinks import ForgedSeen, NoImages, ScheduleOnly, ShortImages, TraceOnly
from sancus.cli.spotting import begins_for_people, has_lines_for_people
from sancus.model.numbers import number, within
from sancus.model.texts import MOST_HEAD, Input, Kept, Origin, find_mark
from sancus.status import NO_FILE, Ended


def files_of(given: Given) -> List[str]:
    """The files of a call; standard input if there is none."""
    return [it for of in given.command.arguments if of.is_file for it in given.texts(of.name)] or ["-"]


def words_for_program(given: Given) -> List[str]:
    """What the program itself is given as words."""
    made = [given.command.name]
    if given.command.name == "gen":
        if not within(given.text("SAMPLES"), 1, 8000):
            raise Usage(f"{given.text('SAMPLES')} is no number of samples: 1 to 8,000", given.command)
        made.append(given.text("SAMPLES"))
    if given.command.name in ("asm", "dis"):
        if not within(given.text("ADDRESS"), 0, 65535):
            raise Usage(f"{given.text('ADDRESS')} is no address: 0 to 65,535, or 0x0 to 0xffff", given.command)
        made.append(given.text("ADDRESS"))
    return made


def sink_of(given: Given) -> Sink:
    """What of the output is passed on."""
    sink: Sink = Sink()
    if given.has("schedule"):
        return ScheduleOnly(sink)
    if given.has("no_images"):
        sink = NoImages(sink)
    elif os.isatty(1) and not given.has("images"):
        sink = ShortImages(sink)
    return TraceOnly(sink) if given.has("trace") else sink


def has_no_mark(fd: int) -> bool:
    """Whether a file ends without a line `%%`, as far as a deployment goes."""
    at, seen = os.lseek(fd, 0, os.SEEK_CUR), b""
    size = os.fstat(fd).st_size
    if size - at > 1 << 20:
        return False
    seen = os.pread(fd, 1 << 20, at)
    return find_mark(seen) is None


def parts_of(given: Given, files: List[str], context: Context) -> Optional[List[Part]]:
    """The parts of an input that is put together; None if one file is the whole input."""
    word = given.command.name
    if word == "explain" and (len(files) == 2 or is_trace_in_pipe(files)):
        return explained(files[0], trace_of(files, context))
    if word == "snap" and len(files) > 1:
        return snap_parts(files, context.voice)
    if len(files) > 1:
        return joined(files, context.voice)
    fd = open_file(files[0])
    if word in ("check", "describe") and (has_no_mark(fd) if is_regular(fd) else not is_direct(fd)):
        return with_mark(files[0])
    return None


def trace_of(files: List[str], context: Context) -> Part:
    """The trace of a call of `explain`, which may come in a pipe, or be the run of a schedule."""
    from sancus.cli.runs import trace_for

    return trace_for(files[0], files[1] if len(files) > 1 else "-", context)


def is_trace_in_pipe(files: List[str]) -> bool:
    """Whether the one file of an `explain` has no trace, and there is one on standard input."""
    if len(files) != 1 or files[0] == "-":
        return False
    fd = open_file(files[0])
    text = os.pread(fd, MOST_HEAD + (1 << 20), 0) if is_regular(fd) else b"%%\ntrace\n"
    os.close(fd)
    found = find_mark(text)
    has_trace = bool(found and re.search(rb"(?m)^(trace\r?$|image |> )", text[found[1] :]))
    return not has_trace and bool(look_at_standard_input())


def is_direct(fd: int) -> bool:
    """Whether the program reads by itself: a file, a terminal, answered line by line, or what can't be read."""
    return is_regular(fd) or os.isatty(fd) or not can_be_read(fd)


def run_program(context: Context, given: Given, files: List[str], sink: Sink) -> Ran:
    """Runs the program on the files of a call."""
    words = words_for_program(given)
    if given.command.name == "gen":
        with open(os.devnull, "rb") as nothing:
            return context.program.run_file(words, nothing.fileno(), "-", sink)
    if given.command.name in ("run", "snap") and context.program.is_fast:
        return run_of_people(context, given, files, sink)
    return run_parts(context, given, files, parts_of(given, files, context), sink)


def run_of_people(context: Context, given: Given, files: List[str], sink: Sink) -> Ran:
    """Answers `run` or `snap`: line by line if lines are typed, or if some are for people. Of a pipe only the first line
    is known."""
    is_typed = "-" in files and os.isatty(0)
    # (looked at before parts of files are read)
    has_people = any(map(has_lines_for_people, files[1:] or files))
    parts = parts_of(given, files, context)
    if given.command.name == "snap":
        if not has_people:
            return run_parts(context, given, files, parts, sink)
        from sancus.cli.snapping import snap

        return snap(context, *gathered(parts or [file_part(files[0])]), sink)
    if is_typed or has_people or any(map(begins_for_people, (parts or [])[1:])):
        from sancus.cli.answering import run_live

        return run_live(context, parts or [file_part(files[0])], is_typed, sink)
    return run_parts(context, given, files, parts, sink)


def run_parts(context: Context, given: Given, files: List[str], parts: Optional[List[Part]], sink: Sink) -> Ran:
    """Runs the program on the parts of an input, or on its one file."""
    words = words_for_program(given)
    if parts is not None:
        return context.program.run_parts(words, parts, sink)
    fd = open_file(files[0])
    if is_direct(fd):
        return context.program.run_file(words, fd, files[0], sink)
    return context.program.run_parts(words, [file_part(files[0])], sink)


def answer(context: Context, given: Given) -> int:
    """Answers a word of the program, and returns the program's own status."""
    files = files_of(given)
    if given.has("json"):
        from sancus.cli.asjson import as_json

        return as_json(context, given, files)
    if given.has("words"):
        return explain_in_words(context, given, files)
    if given.command.name == "dis":
        return list_code(context, given, files)
    watch = ForgedSeen(sink_of(given))
    ran = run_program(context, given, files, watch)
    if not context.voice.is_quiet:
        # (imported where it is needed, here and elsewhere, since imports are most of what a call takes)
        from sancus.cli.telling import say_of

        say_of(context, given, files, ran, watch.is_seen)
    return ran.status


def list_code(context: Context, given: Given, files: List[str]) -> int:
    """Lists bytes as code, among them an image's line."""
    from sancus.cli import images
    from sancus.cli.telling import tell

    words = words_for_program(given)
    looked = images.look(files[0])
    lines = images.listing(context.program, number(words[1]) or 0, looked.code) if looked.code else None
    if lines:
        images.print_listing(lines)
        return 0
    if looked.code:
        ran = context.program.ran_of(words, looked.code.hex("\n", 1024).encode(), Sink())
    elif looked.part:
        ran = context.program.run_parts(words, [looked.part], Sink())
    else:
        ran = run_program(context, given, files, Sink())
    context.voice.say(*tell(context, given, ran))
    return ran.status


def explain_in_words(context: Context, given: Given, files: List[str]) -> int:
    if len(files) < 2 and not is_trace_in_pipe(files):
        raise Usage("`explain --words` takes DEPLOYMENT and TRACE", given.command)
    from sancus.cli.why import explain
    from sancus.model.causes import in_words

    made = explain(files[0], trace_of(files, context), context.program)
    print_lines(*in_words(made))
    context.voice.say(*made.about_fault)
    return made.status


def gathered(parts: List[Part]) -> Tuple[Kept, Input]:
    """An input put together, as it is kept and whole."""
    kept, pieces, size = Kept(), [], 0
    is_whole = True
    for part in parts:
        if not is_whole:
            kept.add(b"\n")
            pieces.append(b"\n")
            is_whole = True
        kept.origins.append(Origin(kept.lines_so_far() + 1, part.name, part.line, part.line_of))
        while True:
            piece = part.read()
            if not piece:
                break
            is_whole = piece.endswith(b"\n")
            kept.add(piece)
            pieces.append(piece)
            size += len(piece)
            if size > MOST_INPUT:
                raise Ended(NO_FILE, f"{part.name} is larger than any input that the program takes")
    return kept, Input(b"".join(pieces))
