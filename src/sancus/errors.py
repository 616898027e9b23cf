"""What the API raises."""

from __future__ import annotations

from typing import Sequence


class Fault(Exception):
    """What the program refused: its fault line, of which `of`, `rule` and `place` are the words, and in `words` what
    that means."""

    def __init__(self, text: str, words: Sequence[str] = ()) -> None:
        super().__init__("\n".join([text, *words]))
        self.text, self.words = text, list(words)
        _, self.of, self.rule, self.place, *_ = [*text.split(" ", 3), "", "", ""]


class Refused(Exception):
    """A line that can't be done, and in `words` what is missing."""

    def __init__(self, line: str, *words: str) -> None:
        super().__init__("\n".join([f"{line}: {words[0]}", *words[1:]]))
        self.line, self.words = line, list(words)


class NoProgram(Exception):
    """There is no program that answers here, or it was ended; `words` say why."""

    def __init__(self, *words: str) -> None:
        super().__init__("\n".join(words))
        self.words = list(words)


class NoCampaign(Exception):
    """A campaign can't begin or go on; `words` say why."""

    def __init__(self, *words: str) -> None:
        super().__init__("\n".join(words))
        self.words = list(words)
