"""Looks for lines for people in the files of a call, before they are read."""

from __future__ import annotations

import os
import re

from sancus.cli.joining import may_have_mark
from sancus.cli.reading import Part, is_regular, open_file
from sancus.model.people import PEOPLE, are_for_people, is_for_people
from sancus.model.shown import text_of
from sancus.model.texts import Input, find_mark, is_act

# In a larger file no lines for people are looked for.
MOST_LOOKED = 1 << 24
# What a text has that has lines for people.
LIKE_PEOPLE = re.compile(rb"(?m)^[ \t]*(?:%s)(?:[ \t\r]|$)|[ \t]as[ \t]" % "|".join(PEOPLE).encode())


def has_lines_for_people(name: str) -> bool:
    """Whether a file has a line for people, after its deployment if it has one."""
    if name != "-" and not os.path.isfile(name):
        return False
    fd = open_file(name)
    try:
        if not is_regular(fd) or os.fstat(fd).st_size > MOST_LOOKED:
            return False
        text = os.pread(fd, MOST_LOOKED, os.lseek(fd, 0, os.SEEK_CUR))
    finally:
        if fd:
            os.close(fd)
    if not LIKE_PEOPLE.search(text):
        return False
    return are_for_people(Input(text if may_have_mark(text) and find_mark(text) else b"%%\n" + text))


def begins_for_people(part: Part) -> bool:
    """Whether the first line of a part that does something, as far as it was read ahead, is for people."""
    first = next((it for it in part.ahead().split(b"\n") if is_act(it)), b"")
    return bool(first) and is_for_people([text_of(it) for it in first.split()])
