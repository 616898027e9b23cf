"""What a file is, by its name and its text."""

from __future__ import annotations

import re
from enum import Enum
from pathlib import PurePath

from sancus.model.acts import ACTS
from sancus.model.people import PEOPLE
from sancus.model.texts import Input, first_word, is_act, split_lines


class Kind(Enum):
    """A deployment, perhaps with lines after a mark; lines without a deployment; a property; or something else."""

    DEPLOYMENT = "deployment"
    LINES = "lines"
    PROPERTY = "property"
    OTHER = "other"


BY_ENDING = {
    ".property": Kind.PROPERTY,
    ".schedule": Kind.LINES,
    ".people": Kind.LINES,
    ".readings": Kind.LINES,
}
# A table or a key that only a deployment has: there are many other files in TOML.
OF_DEPLOYMENT = re.compile(rb"(?m)^[ \t]*(\[\[[ \t]*)?(secret|node|device|module|connection)\b")
# The first words of a property.
BEGINNINGS = (b"var", b"array", b"on")


def kind_of(name: str, text: bytes) -> Kind:
    """What a text is; its name's ending says so first."""
    data = Input(text)
    if data.has_mark:
        return Kind.DEPLOYMENT if any(map(is_act, split_lines(data.head))) else Kind.LINES
    ending = PurePath(name).suffix
    if ending == ".toml":
        return Kind.DEPLOYMENT if OF_DEPLOYMENT.search(text) or not text.strip() else Kind.OTHER
    if ending in BY_ENDING:
        return BY_ENDING[ending]
    lines = [it.strip() for it in split_lines(text) if it.strip()]
    begins = first_word(next(filter(is_act, lines), b""))
    if lines[:1] and lines[0].startswith(b"//") or begins in BEGINNINGS:
        return Kind.PROPERTY
    word = begins.decode(errors="replace")
    return Kind.LINES if word in ACTS or word in PEOPLE else Kind.DEPLOYMENT
