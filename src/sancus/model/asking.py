"""What the model asks of the program, which somebody else starts."""

from __future__ import annotations

from typing import List, NamedTuple, Protocol

from sancus.model.shown import text_of


class Answer(NamedTuple):
    """How the program ended, and what it wrote."""

    status: int
    output: bytes

    @property
    def lines(self) -> List[bytes]:
        """The lines that are whole."""
        return self.output.split(b"\n")[:-1]

    @property
    def last(self) -> str:
        """The last whole line, if there is one."""
        return text_of(self.lines[-1]) if self.lines else ""


class Program(Protocol):
    """The program, as it is started somewhere."""

    @property
    def is_fast(self) -> bool:
        """Whether it answers at once, line by line; a build without its proof doesn't."""

    def command(self, words: List[str]) -> List[str]:
        """The command that starts it with some words."""

    def answer(self, words: List[str], text: bytes) -> Answer:
        """Starts it with some words on a text."""

    def ask(self, words: List[str], text: bytes) -> bytes:
        """What it writes to a text."""
