"""`sancus test`: runs schedules that say what they expect."""

from __future__ import annotations

from pathlib import Path
from typing import List

from sancus.cli.commands import Given
from sancus.cli.context import Context
from sancus.cli.output import print_lines
from sancus.cli.writing import write_file
from sancus.expect import Result, junit, try_file, updated
from sancus.status import NO_FILE, Ended

PATTERN = "test_*.sancus"
NOT_MET = 1


def files_of(given: Given) -> List[Path]:
    """The files of a call, and of its folders those whose names say that they are tests."""
    found: List[Path] = []
    for it in map(Path, given.texts("FILE") or ["."]):
        found += sorted(it.rglob(PATTERN)) if it.is_dir() else [it]
    if not found:
        raise Ended(NO_FILE, f"there is no {PATTERN} in {' or '.join(given.texts('FILE')) or 'this folder'}")
    return found


def told(result: Result) -> List[str]:
    count = f"{result.expectations} expectation{'' if result.expectations == 1 else 's'}"
    return [
        f"{'FAILED' if result.failures else 'ok'} {result.path}: {count}",
        *(f"  {line}" for it in result.failures for line in str(it).split("\n")),
    ]


def answer(context: Context, given: Given) -> int:
    results = []
    for path in files_of(given):
        result = try_file(path, context.program)
        if given.has("update"):
            write_file(path, updated(path, result))
            result = try_file(path, context.program)
        results.append(result)
        print_lines(*told(result))
    if given.text("junit"):
        write_file(Path(given.text("junit")), junit(results))
    return NOT_MET if any(it.failures for it in results) else 0
