"""Puts an input together from files: a deployment, the line %% if it is missing, and what comes after it."""

from __future__ import annotations

import os
from array import array
from typing import Callable, List, Optional

from sancus.cli.reading import PIECE, Part, file_part, text_part
from sancus.cli.say import Voice
from sancus.model.texts import MARK, MOST_HEAD, find_mark
from sancus.records import dataclass, field

# The first line of a longer text isn't looked for further than this.
MOST_LOOK = MOST_HEAD + PIECE


@dataclass
class Begun:
    """A part of which the first bytes were read, to look at them; the rest comes as it did."""

    part: Part
    seen: bytes = b""
    is_at_end: bool = False

    def look(self, enough: Callable[[bytes], bool]) -> bytes:
        """Reads until there is enough, or as far as is looked."""
        while not self.is_at_end and len(self.seen) < MOST_LOOK and not enough(self.seen):
            piece = self.part.read()
            self.is_at_end = not piece
            self.seen += piece
        return self.seen

    def rest(self, skipped: int, lines: int) -> Part:
        """The part after the bytes, and lines, that are left out."""
        left = [self.seen[skipped:]] if self.seen[skipped:] else []

        def read() -> bytes:
            if left:
                return left.pop()
            return b"" if self.is_at_end else self.part.read()

        fd = None if self.is_at_end else self.part.fd
        return Part(self.part.name, read, fd, 1 + lines, ahead=lambda: left[0] if left else self.part.ahead())


def deployment_alone(name: str, voice: Voice) -> List[Part]:
    """The lines of a file before its mark, and a mark; what comes after its own is left out, which is said."""
    begun = Begun(file_part(name))
    data = begun.look(lambda it: find_mark(it) is not None)
    found = find_mark(data)
    if not found:
        return [text_part(data, name, 1), text_part(MARK + b"\n")]
    if data[found[1] :].strip():
        voice.say(f"of {name} the deployment alone is taken: the lines after its %% are left out")
    return [text_part(data[: found[0]], name, 1), text_part(MARK + b"\n")]


def is_comment(line: bytes) -> bool:
    return not line.strip() or line.strip().startswith(b"#")


def after_mark(name: str, voice: Voice) -> Part:
    """The lines of a file that come after the mark: without its own mark, and without its own deployment. Lines that are
    typed have neither, and aren't waited for."""
    if name == "-" and os.isatty(0):
        return file_part(name)
    begun = Begun(file_part(name))
    data = begun.look(lambda it: find_mark(it) is not None or not may_have_mark(it))
    found = find_mark(data) if may_have_mark(data) else None
    if not found:
        return begun.rest(0, 0)
    if not all(is_comment(it) for it in data[: found[0]].split(b"\n")):
        voice.say(f"of {name} the lines after its %% are taken, and its own deployment is left out")
    return begun.rest(found[1], data.count(b"\n", 0, found[1]))


def may_have_mark(data: bytes) -> bool:
    """Whether a mark may still come: so far there are comments, the mark, or lines of a deployment."""
    lines = data.split(b"\n")
    for it in lines[:-1] + ([lines[-1]] if len(lines[-1]) > 2 else []):
        if is_comment(it):
            continue
        # a schedule's own lines have no `=`, and begin with no bracket
        return it.rstrip(b"\r") == MARK or b"=" in it or it.lstrip().startswith(b"[")
    return True


def joined(files: List[str], voice: Voice) -> List[Part]:
    """An input of a deployment, and of the lines of other files."""
    return [*deployment_alone(files[0], voice), *(after_mark(it, voice) for it in files[1:])]


def snap_parts(files: List[str], voice: Voice) -> List[Part]:
    """The input of `snap`: a deployment, a schedule and queries, with a mark before each."""
    parts = joined(files[:2], voice)
    if len(files) > 2:
        parts += [text_part(MARK + b"\n"), after_mark(files[2], voice)]
    return parts


def with_mark(name: str) -> Optional[List[Part]]:
    """A deployment for `check`, with a mark at its end if it has none; None if the file has one."""
    begun = Begun(file_part(name))
    data = begun.look(lambda it: find_mark(it) is not None)
    whole = begun.rest(0, 0)
    if find_mark(data) or not begun.is_at_end:
        return [whole]
    return [whole, text_part(MARK + b"\n")]


# --- Traces -----------------------------------------------------------------------------------------------------------


@dataclass
class TraceReader:
    """A trace as it is read: that of `run` as it is, and what `drive` wrote without its lines of the schedule and its
    count of steps."""

    part: Part
    voice: Voice
    left: bytes = b""
    # None until the first line that is no image has been seen
    is_driven: Optional[bool] = None
    lines: int = 0
    kept: "array[int]" = field(default_factory=lambda: array("L"))

    def read(self) -> bytes:
        while True:
            piece = self.part.read()
            if self.is_driven is False and not self.left:
                return piece
            self.left += piece
            if self.is_driven is None and len(self.left) > MOST_LOOK:
                # (no line of a trace is so long: the program says so)
                self.is_driven = False
            is_cut = not piece or self.is_driven is False
            cut = len(self.left) if is_cut else self.left.rfind(b"\n") + 1
            ready, self.left = self.left[:cut], self.left[cut:]
            made = self.lines_of(ready)
            if made or not piece:
                return made

    def lines_of(self, text: bytes) -> bytes:
        made: List[bytes] = []
        at = 0
        while at < len(text):
            if self.is_driven is False:
                return b"".join(made) + text[at:]
            end = text.find(b"\n", at) + 1 or len(text)
            made += self.line(text[at:end])
            at = end
        return b"".join(made)

    def line(self, line: bytes) -> List[bytes]:
        self.lines += 1
        if self.is_driven is None and not line.startswith(b"image "):
            self.is_driven = line.startswith((b"> ", b"steps "))
            if self.is_driven:
                self.voice.say("the trace is what `drive` wrote: its lines of the schedule are left out")
                self.kept.append(self.lines)
                self.kept.append(self.lines)
                return [b"trace\n"] + ([] if line.startswith((b"> ", b"steps ")) else [line])
        if self.is_driven and line.startswith((b"> ", b"steps ")):
            return []
        self.kept.append(self.lines)
        return [line]

    def line_of(self, number: int) -> int:
        """The line of the file that a line of the trace was."""
        if self.is_driven:
            return self.kept[min(number, len(self.kept)) - 1] if self.kept else number
        return number


def trace_part(name: str, voice: Voice) -> Part:
    part = file_part(name)
    reader = TraceReader(part, voice)
    return Part(name, reader.read, part.fd, 1, reader.line_of, part.ahead)


def explained(deployment: str, trace: Part) -> List[Part]:
    """The input of `explain`: the deployment of a file, and a trace."""
    return [*deployment_alone(deployment, Voice(True)), trace]
