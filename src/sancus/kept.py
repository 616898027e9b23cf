"""A choice of the build that is kept from call to call, with the look of all that it depends on.

Sums over the sources take far longer than a run, so a later call that finds every place looking as it did starts the same build. A place's look is
its size, its number on the disk and its time of change, which nobody can set back, as the time of the last write can be.
"""

from __future__ import annotations

import os
import time
from struct import error, pack

from sancus.records import dataclass, field


# What was changed within so many nanoseconds may change again with no later time of change.
TICK = 1_000_000_000


@dataclass
class Build:
    """A build as it is started: its command, what kind it is, and what is to be said of it."""

    command: list[str]
    kind: str
    notes: list[str] = field(default_factory=list)

    @property
    def is_fast(self) -> bool:
        return self.kind != "tried"


def look(top: str, places: list[bytes]) -> bytes:
    """What the system, and these places of a checkout, look like; nothing if one isn't there. (A copy of a checkout has
    a copy of what that keeps.)"""
    try:
        looks = [number for it in map(os.stat, places) for number in (it.st_size, it.st_ino, it.st_ctime_ns)]
        return f"{pack(f'{len(looks)}Q', *looks).hex()} {top!r} {os.uname()!r}".encode(errors="backslashreplace")
    except (OSError, error):
        return b""


def kept_choice(top: str, path: str) -> Build | None:
    """The build that a file keeps, if every place looks as it did, and it can be started."""
    try:
        with open(path, "rb") as file:
            seen, places, *texts = file.read().split(b"\n")
        if not seen or look(top, places.split(b"\0")) != seen:
            return None
        kind, command, notes = map(os.fsdecode, texts)
    except (OSError, ValueError):
        return None
    words = command.split("\0")
    return Build(words, kind, notes.split("\0") if notes else []) if os.access(words[0], os.X_OK) else None


class Choosing:
    """A choice that is being made: what it depends on looked so before."""

    def __init__(self, top: str, places: list[bytes]) -> None:
        self.places, self.begun, self.seen = places, time.time_ns(), look(top, places)

    def keep(self, path: str, build: Build) -> None:
        """Keeps what was chosen, if that is possible, and if nothing changed since then or shortly before."""
        texts = [build.kind, *("\0".join(it) for it in (build.command, build.notes))]
        lines = [self.seen, b"\0".join(self.places), *map(os.fsencode, texts)]
        try:
            if all(os.stat(it).st_ctime_ns < self.begun - TICK for it in self.places):
                keep(path, b"\n".join(lines))
        except OSError:
            pass


def keep(path: str, data: bytes) -> None:
    """Writes a file whole or not at all."""
    os.makedirs(os.path.dirname(path), exist_ok=True)
    new = f"{path}.{os.getpid()}"
    with open(new, "wb") as file:
        file.write(data)
    os.replace(new, path)
