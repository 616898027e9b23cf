"""Writes files of its own, and over no other: what was there stays unless it is an earlier output of the same kind."""

from __future__ import annotations

import os
from pathlib import Path
from typing import Callable, Iterable, Optional, Sequence

from sancus.status import NO_FILE, Ended

FORCE = "--force writes over it"


def is_one_of(path: Path, inputs: Iterable[str]) -> bool:
    """Whether a path is one of these files, by whatever name."""
    return path.exists() and any(os.path.exists(it) and os.path.samefile(path, it) for it in inputs if it != "-")


def must_be_free(
    path: Path, inputs: Sequence[str], is_own: Callable[[str], bool], is_forced: Optional[bool], what: str, advice: str
) -> None:
    """Refuses to write over an input, and unless it is forced over a file that is no earlier output. `is_forced` is None
    where there is no --force."""
    if is_one_of(path, inputs):
        raise Ended(NO_FILE, f"{path} is an input, and isn't written over: {advice}")
    if is_forced or not path.is_file():
        return
    try:
        text = path.read_text(errors="replace")
    except OSError as error:
        raise Ended(NO_FILE, f"{path} is there, and can't be read: {error.strerror}") from None
    if text and not is_own(text):
        force = "" if is_forced is None else f"{FORCE}, or "
        raise Ended(NO_FILE, f"{path} is there, and is no {what}: {force}{advice}")


def write_file(path: Path, text: str) -> None:
    try:
        path.write_text(text)
    except OSError as error:
        raise Ended(NO_FILE, f"{error.filename or path} can't be written: {error.strerror}") from None
