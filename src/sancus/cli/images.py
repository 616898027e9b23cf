"""Lists images as code: a line `image MODULE BYTES` is taken whole, though it is longer than the lines and the
code that `dis` takes.
"""

from __future__ import annotations

import os
import re
from typing import List, Optional

from sancus.cli.joining import Begun
from sancus.cli.output import write
from sancus.cli.program import Program
from sancus.cli.reading import Part, can_be_read, file_part, is_regular, open_file
from sancus.records import dataclass

IMAGE = re.compile(rb"image [a-z][a-z0-9_]* ([0-9a-f]+)\r?\n?")
HEX = re.compile(rb"[0-9A-Fa-f]*\r?\n?")
# No image has more digits, its name and word counted.
MOST = 131_136
MOST_LINE, MOST_CODE = 4096, 8192


@dataclass
class Looked:
    """What `dis` was given: an image's bytes; or of a pipe what was read, as a part that goes on with the rest."""

    code: Optional[bytes] = None
    part: Optional[Part] = None


def bytes_of(text: bytes) -> Optional[bytes]:
    """The bytes of an image's line, or of a long line of digits; None if the text is neither."""
    found = IMAGE.fullmatch(text)
    line = found[1] if found else text.rstrip(b"\r\n")
    if not found and (len(line) <= MOST_LINE or not HEX.fullmatch(text)):
        return None
    return bytes.fromhex(line.decode()) if len(line) % 2 == 0 else None


def look(name: str) -> Looked:
    fd = open_file(name)
    if is_regular(fd):
        text = os.pread(fd, MOST + 1, os.lseek(fd, 0, os.SEEK_CUR))
        return Looked(bytes_of(text) if len(text) <= MOST else None)
    if os.isatty(fd) or not can_be_read(fd):
        return Looked()
    begun = Begun(file_part(name))
    # (one line that is an image, or anything else)
    text = begun.look(lambda it: len(it) > MOST or b"\n" in it[:-1] or not may_be(it))
    code = bytes_of(text) if begun.is_at_end else None
    return Looked(code, None if code else begun.rest(0, 0))


def may_be(text: bytes) -> bool:
    """Whether this begins an image's line, or one of digits alone."""
    return text.startswith((b"image ", b"image "[: len(text)])) or bool(HEX.fullmatch(text))


def listing(program: Program, at: int, code: bytes) -> Optional[List[bytes]]:
    """The listing of code, piece by piece, each from the instruction where the one before ended; None if the program
    refuses it."""
    if at % 2 or at + len(code) > 0x10000:
        return None
    lines: List[bytes] = []
    done = 0
    while done < len(code):
        piece = code[done : done + MOST_CODE]
        answer = program.ask(["dis", str(at + done)], b"\n".join(digits(piece)) + b"\n").split(b"\n")
        listed = [it for it in answer if it.startswith(b"0x")]
        if not listed:
            return None
        if done + len(piece) < len(code):
            # (the last instruction may be cut)
            listed.pop()
        lines += listed
        last = listed[-1].split(b" ")
        done = int(last[0], 16) - at + len(last[1]) // 2
    return lines


def print_listing(lines: List[bytes]) -> None:
    write(b"".join(it + b"\n" for it in lines) + b"end\n")


def digits(code: bytes) -> List[bytes]:
    return [code[at : at + 1024].hex().encode() for at in range(0, len(code), 1024)]
