"""`sancus new`: a small application to begin with."""

from __future__ import annotations

import re
import secrets
from pathlib import Path

from sancus.builds import PACKAGE
from sancus.cli.commands import Given
from sancus.cli.context import Context
from sancus.cli.output import print_lines
from sancus.cli.writing import write_file
from sancus.model.shown import quoted
from sancus.status import NO_FILE, Ended

TEMPLATES = Path(PACKAGE, "templates")
FILES = ("app.toml", "day.schedule", "test_app.sancus")


def answer(context: Context, given: Given) -> int:
    folder = Path(given.text("FOLDER"))
    there = next((folder / it for it in FILES if (folder / it).exists()), None)
    if there:
        raise Ended(NO_FILE, f"{there} is there already")
    try:
        folder.mkdir(parents=True, exist_ok=True)
    except OSError as error:
        raise Ended(NO_FILE, f"{folder} is no folder that can be made: {error.strerror}") from None
    for name in FILES:
        # (each application has keys of its own)
        text = re.sub("KEY", lambda _: secrets.token_hex(16), (TEMPLATES / name).read_text())
        write_file(folder / name, text)
        print_lines(str(folder / name))
    where, app, day = (quoted(str(it)) for it in (folder, folder / FILES[0], folder / FILES[1]))
    context.voice.say(f"`sancus test {where}` runs its test, and `sancus run {app} {day}` a day")
    return 0
