"""The bytes of an input: its lines, its deployment and its schedule, and what is kept of it for words.

An input has no bound, so what is kept is the first part, which has the deployment, and what came last, which has the
line of a fault.
"""

from __future__ import annotations

from sancus.records import dataclass, field


TYPE_CHECKING = False
if TYPE_CHECKING:
    from collections.abc import Callable

# The most bytes of a deployment, and one more: there the program stops reading (rule D1).
MOST_HEAD = 262_145
# What is kept of the last that came. The program reads 4,096 bytes ahead, and a pipe holds as many.
WINDOW = 256 * 1024
MARK = b"%%"
# The most lines of a schedule.
MOST_LINES = 65536


def without_return(line: bytes) -> bytes:
    return line[:-1] if line.endswith(b"\r") else line


def split_lines(data: bytes) -> list[bytes]:
    """The lines of a text, each without its newline and one carriage return before it."""
    lines = data.split(b"\n")
    if lines[-1] == b"":
        lines.pop()
    return [without_return(it) for it in lines]


def find_mark(data: bytes) -> tuple[int, int] | None:
    """Where the first line `%%` of a text begins, and where the line after it does."""
    at = 0
    while True:
        found = data.find(MARK, at)
        if found < 0:
            return None
        end = data.find(b"\n", found)
        line = data[found : end if end >= 0 else len(data)]
        begins = found == 0 or data[found - 1 : found] == b"\n"
        if begins and (line == MARK or (line == MARK + b"\r" and end >= 0)):
            return found, end + 1 if end >= 0 else len(data)
        at = found + 1


def first_word(line: bytes) -> bytes:
    return (line.split() or [b""])[0]


def is_act(line: bytes) -> bool:
    """Whether a line does something: it is neither blank nor a comment."""
    return bool(first_word(line)) and not first_word(line).startswith(b"#")


@dataclass
class Origin:
    """Where lines of the input come from: from this line on, those of a file from its own line on."""

    first: int
    name: str
    line: int | None
    line_of: Callable[[int], int] | None = None

    def place(self, number: int) -> tuple[str, int | None]:
        if self.line is None:
            return self.name, None
        if self.line_of:
            return self.name, self.line_of(number - self.first + 1)
        return self.name, number - self.first + self.line


@dataclass
class Kept:
    """What is kept of an input: its first bytes, its last, and where its lines come from."""

    first: bytearray = field(default_factory=bytearray)
    last: bytearray = field(default_factory=bytearray)
    # how many lines, and bytes, come before `last`
    lines_before: int = 0
    bytes_before: int = 0
    origins: list[Origin] = field(default_factory=list)
    # the lines of both, as they were split last, and of how much that was
    split: tuple[int, list[bytes], list[bytes]] = (-1, [], [])

    def add(self, piece: bytes) -> None:
        room = MOST_HEAD + WINDOW - len(self.first)
        if room > 0:
            self.first += piece[:room]
        self.last += piece
        if len(self.last) > 2 * WINDOW:
            cut = len(self.last) - WINDOW
            self.lines_before += self.last.count(b"\n", 0, cut)
            self.bytes_before += cut
            del self.last[:cut]

    def is_whole(self) -> bool:
        """Whether `first` is all of the input."""
        return self.bytes_before + len(self.last) == len(self.first)

    def lines_so_far(self) -> int:
        return self.lines_before + self.last.count(b"\n")

    def both(self) -> tuple[list[bytes], list[bytes]]:
        size = self.bytes_before + len(self.last)
        if self.split[0] != size:
            self.split = (size, bytes(self.first).split(b"\n"), bytes(self.last).split(b"\n"))
        return self.split[1], self.split[2]

    def line(self, number: int) -> bytes | None:
        """A line of the input by its number from 1, or None if it isn't kept."""
        first, last = self.both()
        # (the last of the first ones may be cut, or nothing)
        if 1 <= number < len(first) or (number == len(first) and self.is_whole()):
            return without_return(first[number - 1])
        at = number - self.lines_before - 1
        # (the first of the last ones may be cut)
        return without_return(last[at]) if (1 if self.bytes_before else 0) <= at < len(last) else None

    def place(self, number: int) -> tuple[str, int | None]:
        """The file of a line, and its number there."""
        found = [it for it in self.origins if it.first <= number]
        return found[-1].place(number) if found else ("-", number)


def kept_of(data: bytes, name: str = "-") -> Kept:
    """A whole text as it is kept, of one file."""
    kept = Kept(origins=[Origin(1, name, 1)])
    for at in range(0, len(data), WINDOW):
        kept.add(data[at : at + WINDOW])
    return kept


@dataclass
class Input:
    """An input that is here whole: its deployment, its mark, and the lines after it."""

    data: bytes

    def __post_init__(self) -> None:
        found = find_mark(self.data)
        self.head = self.data[: found[0]] if found else self.data
        self.rest = self.data[found[1] :] if found else b""
        self.has_mark = found is not None

    @property
    def schedule(self) -> list[bytes]:
        return split_lines(self.rest)
