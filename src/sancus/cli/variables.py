"""`sancus vars`."""

from __future__ import annotations

import os
import re
from typing import List

from sancus.cli.commands import Given, Usage
from sancus.cli.context import Context
from sancus.cli.inspecting import inspected
from sancus.cli.output import print_lines
from sancus.model.numbers import number
from sancus.model.variables import changes, told


def ends_with_line(words: List[str]) -> bool:
    """Whether the last of some words is LINE, and not MODULE: it is a number or FILE:LINE, or a module's name comes
    before it."""
    if number(words[-1]) is not None or re.search(r":[0-9]+$", words[-1]):
        return True
    return bool(words[1:] and re.fullmatch(r"[a-z][a-z0-9_]*", words[-2])) and not os.path.exists(words[-2])


def answer(context: Context, given: Given) -> int:
    words = [*given.texts("SCHEDULE"), *given.texts("MODULE")]
    line = words.pop() if ends_with_line(words) else ""
    if not words:
        raise Usage("missing: MODULE", given.command)
    module = words.pop()
    seen = inspected([given.text("INPUT"), *words], given.has("drive"), context)
    asked = seen.line(line) if line else seen.end()
    print_lines(*(changes if given.has("changes") else told)(seen, seen.module(module), asked))
    return 0
