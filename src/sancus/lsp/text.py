"""Places of a text: in bytes, as the program counts them, and in lines and UTF-16 units, as an editor does."""

from __future__ import annotations

import re
from bisect import bisect_right
from typing import Any, Dict, Optional

Position = Dict[str, int]
Range = Dict[str, Position]
BREAK = re.compile(rb"\r\n|\n|\r")


class Text:
    """A text. Its places are bytes from 0."""

    def __init__(self, text: str) -> None:
        # (half of a pair of surrogates is no letter, and one unit)
        self.data = text.encode(errors="replace")
        # where lines begin: an editor's, and the program's
        self.rows = [0, *(it.end() for it in BREAK.finditer(self.data))]
        self.lines = [0, *(it.end() for it in re.finditer(b"\n", self.data))]
        # the text as the program reads it, in which no line ends in a carriage return
        self.plain = self.data.replace(b"\r\n", b"\n")

    def in_plain(self, at: int) -> int:
        """The place in the plain text of a place."""
        return at - self.data.count(b"\r\n", 0, at)

    def of_plain(self, at: int) -> int:
        """The place of a place in the plain text."""
        return self.lines[self.plain.count(b"\n", 0, at)] + at - self.plain.rfind(b"\n", 0, at) - 1

    def position(self, at: int) -> Position:
        row = bisect_right(self.rows, at) - 1
        before = self.data[self.rows[row] : at].decode(errors="replace")
        return {"line": row, "character": len(before.encode("utf-16-le")) // 2}

    def place(self, position: Any) -> int:
        """The place of an editor's position; one past the end of its line is that end."""
        row, units = int(position["line"]), int(position["character"])
        if row >= len(self.rows):
            return len(self.data)
        end = self.rows[row + 1] if row + 1 < len(self.rows) else len(self.data)
        text = self.data[self.rows[row] : end].rstrip(b"\r\n").decode(errors="replace")
        before = text.encode("utf-16-le")[: 2 * units].decode("utf-16-le", errors="ignore")
        return self.rows[row] + len(before.encode())

    def range(self, begin: int, end: int) -> Range:
        return {"start": self.position(begin), "end": self.position(end)}

    def whole(self) -> Range:
        return self.range(0, len(self.data))

    # --- The program's lines, from 1 ---

    def line_of(self, at: int) -> int:
        return bisect_right(self.lines, at)

    def line(self, number: int) -> bytes:
        """A line without its end."""
        begin = self.lines[number - 1]
        end = self.lines[number] - 1 if number < len(self.lines) else len(self.data)
        return self.data[begin:end].removesuffix(b"\r")

    def span(self, number: int, column: Optional[int] = None, length: int = 1) -> Range:
        """Some bytes of a line, from a column from 1 on; without one, all but the blanks around it."""
        number = max(1, min(number, len(self.lines)))
        begin, line = self.lines[number - 1], self.line(number)
        if column is None:
            return self.range(begin + len(line) - len(line.lstrip()), begin + len(line.rstrip()))
        first = min(column - 1, len(line))
        return self.range(begin + first, begin + min(first + length, len(line)))
