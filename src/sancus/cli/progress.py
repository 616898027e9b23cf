"""How far a long command is, on standard error: a bar on a terminal, and else a line now and then."""

from __future__ import annotations

import os
import time

from sancus.cli.say import Voice
from sancus.model.numbers import counted
from sancus.records import dataclass, field

BAR, BAR_EVERY, LINE_EVERY = 24, 0.1, 30.0
TO_THE_END = "\x1b[K"


def duration(seconds: float) -> str:
    """A time in the greatest two units that it has."""
    left = round(seconds)
    if left < 60:
        return f"{left} s"
    if left < 3600:
        return f"{left // 60} min {left % 60} s"
    return f"{left // 3600} h {left % 3600 // 60} min"


def line(done: int, total: int, wrong: int, seconds: float) -> str:
    """So many of all runs that are due were made in some seconds."""
    rate = done / seconds if seconds > 0 else 0.0
    left = f", {duration((total - done) / rate)} left" if rate else ""
    return f"{done:,} of {counted(total, 'run')}, {rate:,.0f} a second{left}, {wrong:,} wrong"


@dataclass
class Progress:
    """The progress of some runs."""

    voice: Voice
    total: int
    done: int = 0
    wrong: int = 0
    begun: float = field(default_factory=time.monotonic)
    said: float = field(default_factory=time.monotonic)

    def __post_init__(self) -> None:
        self.is_bar = os.isatty(2)

    def add(self, done: int, wrong: int) -> None:
        self.done, self.wrong = self.done + done, self.wrong + wrong
        now = time.monotonic()
        if now - self.said >= (BAR_EVERY if self.is_bar else LINE_EVERY):
            self.said = now
            self.show()

    def show(self) -> None:
        text = line(self.done, self.total, self.wrong, time.monotonic() - self.begun)
        if not self.is_bar:
            self.voice.say(text)
        elif not self.voice.is_quiet:
            full = BAR * self.done // max(1, self.total)
            os.write(2, f"\r[{'#' * full}{'.' * (BAR - full)}] {text}{TO_THE_END}".encode())

    def close(self) -> None:
        """Leaves the last bar, and begins a line."""
        if self.is_bar and not self.voice.is_quiet:
            self.show()
            os.write(2, b"\n")
