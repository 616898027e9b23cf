"""What the front end says to people: lines on standard error, without anything that a terminal would obey."""

from __future__ import annotations

import os

from sancus.model.shown import plain
from sancus.records import dataclass

# A longer line is cut: it may come from an input.
LONGEST = 2000


@dataclass
class Voice:
    """Speaks on standard error, and holds its tongue if it was asked to."""

    is_quiet: bool = False
    name: str = "sancus"

    def say(self, *lines: str) -> None:
        if not self.is_quiet:
            self.must_say(*lines)

    def must_say(self, *lines: str) -> None:
        """Says what also `--quiet` doesn't keep back: why there is no answer."""
        text = "".join(f"{self.name}: {plain(it[:LONGEST])[:LONGEST]}\n" for it in lines)
        try:  # noqa: SIM105 (contextlib takes a while to load)
            os.write(2, text.encode(errors="backslashreplace"))
        except OSError:
            # (nobody listens)
            pass
