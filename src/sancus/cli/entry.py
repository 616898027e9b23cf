"""Where a call begins. If it has `--quiet`, one file, and nothing else for the front end to do, the program is executed in its place, which takes a
third of what the front end takes.
"""

from __future__ import annotations

import os
import stat
import sys

from sancus.builds import Builds, home
from sancus.model.people import PEOPLE, are_for_people
from sancus.model.texts import Input
from sancus.status import INTERRUPTED, Ended

TYPE_CHECKING = False
if TYPE_CHECKING:
    from typing import NoReturn

# In a larger file nothing is looked for.
MOST_LOOKED = 1 << 24


def has_plain_lines(data: Input) -> bool:
    """Whether no line of a schedule is for people."""
    words = {*(it.encode() for it in PEOPLE), b"as"}
    return data.has_mark and (words.isdisjoint(data.rest.split()) or not are_for_people(data))


def has_mark(data: Input) -> bool:
    return data.has_mark


def has_trace(data: Input) -> bool:
    return b"\ntrace\n" in b"\n" + data.rest


# The commands that read one file, each with what tells that the program is all that answers it.
ENOUGH = {"run": has_plain_lines, "drive": has_mark, "check": has_mark, "describe": has_mark, "explain": has_trace}


def words_of(call: list[str]) -> list[str]:
    """The command and the file of a quiet call that has no other option; nothing of others."""
    words = [it for it in call if it not in ("-q", "--quiet")]
    is_quiet = len(words) < len(call)
    is_plain = words[:1] and words[0] in ENOUGH and not any(it.startswith("-") and it != "-" for it in words)
    return [*words, "-"][:2] if is_quiet and is_plain and len(words) < 3 else []


def is_enough(fd: int, command: str) -> bool:
    """Whether the program is all that answers a command on a file."""
    seen = os.fstat(fd)
    if not stat.S_ISREG(seen.st_mode) or seen.st_size > MOST_LOOKED:
        return False
    return ENOUGH[command](Input(os.pread(fd, MOST_LOOKED, os.lseek(fd, 0, os.SEEK_CUR))))


def become_program(call: list[str], top: str) -> None:
    """Executes the program in place of this process, or returns if the front end has something to do."""
    words = words_of(call)
    if not words or os.isatty(1) or not os.get_blocking(1):
        return
    try:
        fd = os.open(words[1], os.O_RDONLY) if words[1] != "-" else 0
        if is_enough(fd, words[0]):
            build = Builds(top, os.environ.get("SANCUS_PROGRAM")).choose()
            if build.is_fast:
                os.dup2(fd, 0)
                os.execv(build.command[0], [*build.command, words[0]])
    except (OSError, ValueError, Ended):
        # (the front end says it in words)
        return


def keep_streams_open() -> None:
    """Puts something in place of a standard stream that is closed, on which reads and writes fail as before: no file
    that is opened becomes it."""
    for fd, mode in ((0, os.O_WRONLY), (1, os.O_RDONLY), (2, os.O_RDONLY)):
        try:
            os.fstat(fd)
        except OSError:
            os.set_inheritable(os.open(os.devnull, mode), True)


def main() -> NoReturn:
    """The command `sancus`. (What was printed went straight out, so nothing is left to be written.)"""
    try:
        keep_streams_open()
        become_program(sys.argv[1:], home())
        from sancus.cli.main import run

        os._exit(run(sys.argv[1:], home()))
    except KeyboardInterrupt:
        os._exit(INTERRUPTED)
