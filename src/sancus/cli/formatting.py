"""`sancus fmt`: lays out the sources of deployments, and properties. A file is written only if its tokens and comments
stay, and if the program compiles the same images of it.
"""

from __future__ import annotations

import os
import stat
import tempfile
from difflib import unified_diff
from typing import List

from sancus.cli.commands import Given, Usage
from sancus.cli.context import Context
from sancus.cli.output import print_lines, write
from sancus.cli.reading import read_all
from sancus.model.formatting import formatted
from sancus.model.layout import CantLayOut
from sancus.model.shown import text_of
from sancus.records import dataclass
from sancus.status import BAD_TEXT, NO_FILE, Ended

WOULD_CHANGE = 1


@dataclass(frozen=True)
class File:
    """A file, as it is and as it is laid out."""

    name: str
    old: bytes
    new: bytes

    @property
    def is_changed(self) -> bool:
        return self.old != self.new


def laid_out(context: Context, name: str) -> File:
    text = read_all(name)
    try:
        return File(name, text, formatted(context.program, name, text))
    except CantLayOut as error:
        first, *more = error.words
        raise Ended(BAD_TEXT, f"{name} stays as it is: {first}", *more) from None


def replace(name: str, text: bytes) -> None:
    """Writes a file beside, and puts it in the place of the old one when it is whole."""
    path = os.path.realpath(name)
    try:
        fd, beside = tempfile.mkstemp(prefix=f".{os.path.basename(path)}.", dir=os.path.dirname(path))
        try:
            with os.fdopen(fd, "wb") as file:
                file.write(text)
                file.flush()
                os.fsync(fd)
            os.chmod(beside, stat.S_IMODE(os.stat(path).st_mode))
            os.replace(beside, path)
        except BaseException:
            os.unlink(beside)
            raise
    except OSError as error:
        raise Ended(NO_FILE, f"{name} can't be written, and stays as it is: {os.strerror(error.errno or 0)}") from None


def difference(it: File) -> List[str]:
    old, new = (text_of(text).splitlines() for text in (it.old, it.new))
    return list(unified_diff(old, new, it.name, it.name, lineterm=""))


def done(it: File, given: Given) -> None:
    """Prints or writes a file as the call has it."""
    if given.has("diff"):
        print_lines(*difference(it))
    elif given.has("check"):
        print_lines(*([it.name] if it.is_changed else []))
    elif it.name == "-":
        write(it.new)
    elif it.is_changed:
        replace(it.name, it.new)
        print_lines(it.name)


def answer(context: Context, given: Given) -> int:
    names = given.texts("FILE")
    if not names:
        raise Usage("`fmt` takes files, or - for standard input", given.command)
    status = 0
    for name in names:
        try:
            file = laid_out(context, name)
            done(file, given)
            if file.is_changed and (given.has("check") or given.has("diff")):
                status = status or WOULD_CHANGE
        except Ended as error:
            context.voice.must_say(*error.lines)
            status = error.status
    return status
