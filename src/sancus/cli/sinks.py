"""What of the program's output is passed on, if not all of it is asked for."""

from __future__ import annotations

from typing import List

from sancus.cli.program import Sink
from sancus.records import dataclass, field

# So many digits of an image are shown in short.
FIRST_DIGITS = 32


@dataclass
class Lines(Sink):
    """Takes an output line by line."""

    to: Sink
    left: bytes = b""

    def write(self, data: bytes) -> None:
        first, *rest = data.split(b"\n")
        if not rest:
            self.left += data
            return
        lines = [self.left + first, *rest[:-1]]
        self.left = rest[-1]
        made = b"".join(self.line(it) for it in lines)
        if made:
            self.to.write(made)

    def line(self, line: bytes) -> bytes:
        """What is passed on in place of a line."""
        return line + b"\n"

    def close(self) -> None:
        # (a line that wasn't whole: the program could write no more)
        if self.left:
            self.to.write(self.left)
        self.to.close()


@dataclass
class NoImages(Sink):
    """Leaves out the lines of images. They are long, so they aren't put together first."""

    to: Sink
    start: bytes = b""
    # whether the line that goes on is an image's, None if that isn't known yet
    is_image: bool = False
    is_known: bool = False

    def write(self, data: bytes) -> None:
        made: List[bytes] = []
        for at, piece in enumerate(data.split(b"\n")):
            if at:
                self.end_line(made, True)
            self.more(piece, made)
        if made:
            self.to.write(b"".join(made))

    def more(self, piece: bytes, made: List[bytes]) -> None:
        if not self.is_known:
            self.start += piece
            if len(self.start) < len(b"image ") and b"image ".startswith(self.start):
                return
            self.is_known, self.is_image, piece, self.start = True, self.start.startswith(b"image "), self.start, b""
        if not self.is_image:
            made.append(piece)

    def end_line(self, made: List[bytes], has_newline: bool) -> None:
        if not self.is_image:
            made.append(self.start + (b"\n" if has_newline else b""))
        self.start, self.is_image, self.is_known = b"", False, False

    def close(self) -> None:
        if self.start:
            self.to.write(self.start)
        self.to.close()


@dataclass
class ShortImages(Lines):
    """Shortens the lines of images to their first bytes and their length."""

    def line(self, line: bytes) -> bytes:
        return short_image(line) + b"\n"


def is_image(line: bytes) -> bool:
    return line.startswith(b"image ")


def short_image(line: bytes) -> bytes:
    words = line.split(b" ")
    if not is_image(line) or len(words) != 3 or len(words[2]) <= FIRST_DIGITS:
        return line
    return b"image %s %s.. (%s bytes)" % (words[1], words[2][:FIRST_DIGITS], f"{len(words[2]) // 2:,}".encode())


@dataclass
class ForgedSeen(Sink):
    """Passes an output on, and sees whether it has an item `forged`."""

    to: Sink
    is_seen: bool = False
    last: bytes = b"\n"

    def write(self, data: bytes) -> None:
        self.is_seen = self.is_seen or b"\nforged " in self.last + data
        self.last = (self.last + data)[-8:]
        self.to.write(data)

    def close(self) -> None:
        self.to.close()


@dataclass
class ScheduleOnly(Lines):
    """Of what `drive` writes the lines of the schedule, as `run` takes them. A fault isn't one: it becomes a
    comment."""

    def line(self, line: bytes) -> bytes:
        if line.startswith(b"> "):
            return line[2:] + b"\n"
        return b"# " + line + b"\n" if line.startswith(b"fault ") else b""


@dataclass
class TraceOnly(Lines):
    """Of what `drive` writes what `run` would write of that schedule."""

    has_begun: bool = False

    def line(self, line: bytes) -> bytes:
        if (
            line.startswith((b"image ", b"fault deployment"))
            or line == b"fault read"
            and not self.has_begun
        ):
            return line + b"\n"
        begin = b"" if self.has_begun else b"trace\n"
        self.has_begun = True
        return begin + (b"" if line.startswith((b"> ", b"steps ")) else line + b"\n")


@dataclass
class Kept(Lines):
    """Keeps the lines of an output."""

    lines: List[bytes] = field(default_factory=list)

    def line(self, line: bytes) -> bytes:
        self.lines.append(line)
        return b""
