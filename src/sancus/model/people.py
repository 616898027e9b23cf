"""Which lines of a schedule are for people."""

from __future__ import annotations

from sancus.model.shown import text_of
from sancus.model.texts import Input, is_act

# The first words of lines for people.
PEOPLE = ("deploy", "sample", "carry", "flow", "settle", "windows", "packets", "boots")
# The acts whose packet may get a name.
NAMING = ("take", "forge", "ask")


def are_for_people(data: Input) -> bool:
    """Whether one of the lines after the mark is for `sancus schedule`."""
    return any(is_for_people([text_of(word) for word in it.split()]) for it in data.schedule if is_act(it))


def is_for_people(words: list[str]) -> bool:
    return words[0] in PEOPLE or words[0] in NAMING and words[-2:-1] == ["as"]
