"""What the slow tests share: what all tests do, what a call of the program takes, and a path with commands of a test's
own."""

from __future__ import annotations

import os
import re
import resource
import shutil
import subprocess
import sys
import unittest
from dataclasses import dataclass
from pathlib import Path
from typing import Dict, Sequence

sys.path.insert(0, str(Path(__file__).resolve().parent.parent))

from support import EXAMPLES, LIGHTING, MEASURE, PROGRAM, SANCUS, TOP, Room, needs_program, program  # noqa: E402

__all__ = [
    "EXAMPLES", "LIGHTING", "MEASURE", "PROGRAM", "SANCUS", "TOOLS", "TOP",
    "Room", "Taken", "instructions", "needs_program", "needs_valgrind", "program", "taken", "with_commands",
]  # fmt: skip

TOOLS = TOP / "tools"


@dataclass
class Taken:
    """What a call of the program wrote, how it ended, and the seconds of a processor that it took."""

    status: int
    out: bytes
    seconds: float

    @property
    def lines(self) -> Sequence[str]:
        return self.out.decode().splitlines()


def taken(*words: str, text: bytes = b"") -> Taken:
    before = resource.getrusage(resource.RUSAGE_CHILDREN)
    ended = subprocess.run([PROGRAM, *words], input=text, capture_output=True)
    after = resource.getrusage(resource.RUSAGE_CHILDREN)
    return Taken(ended.returncode, ended.stdout, after.ru_utime + after.ru_stime - before.ru_utime - before.ru_stime)


needs_valgrind = unittest.skipIf(shutil.which("valgrind") is None, "there is no valgrind")


def instructions(*words: str, text: bytes = b"") -> int:
    """The processor's instructions of a call of the program, which valgrind counts."""
    call = ["valgrind", "--tool=callgrind", "--callgrind-out-file=/dev/null", PROGRAM, *words]
    ended = subprocess.run(call, input=text, capture_output=True, check=True)
    return int(re.search(rb"Collected : ([0-9]+)", ended.stderr).group(1))


def with_commands(folder: Path, **more: str) -> Dict[str, str]:
    """An environment in which a folder's commands go before others."""
    return {**os.environ, "PATH": f"{folder}:{os.environ['PATH']}", **more}
