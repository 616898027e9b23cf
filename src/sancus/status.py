"""The statuses that the front end itself ends with, and how it ends early. Those of the program are in
docs/FORMATS.md.
"""

from __future__ import annotations

USAGE = 2
WRITE_FAILED = 5
# A player's lines don't reach their goal, or aren't allowed.
NOT_REACHED = 15
# A file can't be opened or read.
NO_FILE = 121
# A text isn't what a command of the front end takes: a schedule for people, a program in hexadecimal.
BAD_TEXT = 122
# There is no answer of the program: no build, or one that was ended.
NO_ANSWER = 125
INTERRUPTED = 130

# The statuses that a fault line of the program comes with, and those after which nothing was wrong with the input.
WITH_A_FAULT = (1, 3, 7, 8, 9, 10, 11)


class Ended(Exception):
    """The command ends here with a status, and with lines for people."""

    def __init__(self, status: int, *lines: str) -> None:
        super().__init__(*lines)
        self.status = status
        self.lines = list(lines)
