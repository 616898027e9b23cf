"""What the program reads: one input, put together from parts of files, none of which is held whole."""

from __future__ import annotations

import os
import select
import stat
from typing import Callable, Dict, List, Optional

from sancus.records import dataclass
from sancus.status import NO_FILE, Ended

PIECE = 4096
# More bytes than any input has of which the program reads all.
MOST_INPUT = 512 * 1024 * 1024


@dataclass
class Part:
    """A piece of the input: some lines of a file."""

    name: str
    # the next bytes, none at the end
    read: Callable[[], bytes]
    # where a read may have to wait
    fd: Optional[int] = None
    # the line of its file with which it begins; None if it is of no file
    line: Optional[int] = 1
    # tells the file's line of a line of the part, if lines are left out between
    line_of: Optional[Callable[[int], int]] = None
    # the next bytes, if they were read ahead
    ahead: Callable[[], bytes] = bytes

    def waits_for(self) -> Optional[int]:
        """The descriptor that the next read may have to wait for; None if it need not."""
        return None if self.ahead() else self.fd


def why_not(name: str, error: OSError) -> Ended:
    return Ended(NO_FILE, f"{name or 'a file without a name'} can't be read: {os.strerror(error.errno or 0)}")


def open_file(name: str) -> int:
    """A file by its name, - being the standard input."""
    if name == "-":
        return 0
    try:
        fd = os.open(name, os.O_RDONLY)
        if stat.S_ISDIR(os.fstat(fd).st_mode):
            os.close(fd)
            raise Ended(NO_FILE, f"{name} can't be read: it is a folder")
        return fd
    except OSError as error:
        raise why_not(name, error) from None
    except ValueError:
        raise Ended(NO_FILE, f"{name!r} is no name of a file") from None


# What was read of standard input to look at it: it is read once more, before the rest.
AHEAD: List[bytes] = []
# Pipes that were read whole to look at them, by their names: they can't be read twice.
HELD: Dict[str, bytes] = {}


def look_at_standard_input() -> bytes:
    """The first bytes of standard input, and none if it is empty, closed or a terminal."""
    if not AHEAD and not os.isatty(0) and can_be_read(0):
        piece = read_piece(0, "-")
        AHEAD.extend([piece] if piece else [])
    return AHEAD[0] if AHEAD else b""


def look_at(name: str) -> bytes:
    """All of a file, or the first bytes of standard input; they are read once more after that."""
    if name == "-":
        return look_at_standard_input()
    fd = open_file(name)
    is_file = is_regular(fd)
    os.close(fd)
    text = read_all(name)
    if not is_file:
        HELD[name] = text
    return text


def read_piece(fd: int, name: str, size: int = PIECE) -> bytes:
    if fd == 0 and AHEAD:
        return AHEAD.pop()
    try:
        return os.read(fd, size)
    except BlockingIOError:
        select.select([fd], [], [])
        return read_piece(fd, name, size)
    except OSError as error:
        raise why_not("standard input" if name == "-" else name, error) from None


def is_regular(fd: int) -> bool:
    try:
        return stat.S_ISREG(os.fstat(fd).st_mode)
    except OSError:
        return False


def can_be_read(fd: int) -> bool:
    """Whether a read of a descriptor is possible at all."""
    try:
        os.read(fd, 0)
    except OSError:
        return False
    return True


def read_all(name: str, most: int = MOST_INPUT) -> bytes:
    """All of a file, for the commands that need it whole; no more than the largest input that the program takes."""
    if name in HELD:
        return HELD.pop(name)
    fd, pieces, size = open_file(name), [], 0
    while True:
        piece = read_piece(fd, name, 1 << 20)
        if not piece:
            break
        pieces.append(piece)
        size += len(piece)
        if size > most:
            raise Ended(NO_FILE, f"{name} is larger than any input that the program takes")
    if fd:
        os.close(fd)
    return b"".join(pieces)


def file_part(name: str) -> Part:
    if name in HELD:
        return text_part(HELD.pop(name), name, 1)
    fd = open_file(name)
    return Part(name, lambda: read_piece(fd, name), fd, ahead=lambda: AHEAD[0] if fd == 0 and AHEAD else b"")


def text_part(data: bytes, name: str = "", line: Optional[int] = None) -> Part:
    """A part of bytes that are here already."""
    left = [data[at : at + PIECE] for at in range(0, len(data), PIECE)][::-1]
    return Part(name, lambda: left.pop() if left else b"", None, line)
