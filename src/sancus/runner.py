"""Starts the program for the API, once for each question and as cheaply as that goes: input and output are files in
memory, and nothing of this process is copied.
"""

from __future__ import annotations

import os
import resource
import tempfile
from contextlib import contextmanager, suppress
from dataclasses import dataclass, field
from functools import lru_cache
from typing import Dict, Iterator, List

from sancus.builds import Builds, home
from sancus.errors import NoProgram
from sancus.model.asking import Answer
from sancus.status import Ended


@contextmanager
def file_in_memory() -> Iterator[int]:
    """A file without a name, of the descriptor given."""
    if not hasattr(os, "memfd_create"):
        with tempfile.TemporaryFile() as file:
            yield file.fileno()
        return
    descriptor = os.memfd_create("sancus")
    try:
        yield descriptor
    finally:
        os.close(descriptor)


@dataclass(frozen=True)
class Runner:
    """The program as the API starts it."""

    words: List[str]
    is_fast: bool = True
    # how many seconds of a processor it may take for an answer, on Linux; 0 for as many as it needs
    processor_seconds: int = 0
    # (which takes a while to put together)
    environment: Dict[bytes, bytes] = field(default_factory=lambda: dict(os.environb), repr=False, compare=False)

    def command(self, words: List[str]) -> List[str]:
        return [*self.words, *words]

    def answer(self, words: List[str], text: bytes) -> Answer:
        with file_in_memory() as given, file_in_memory() as written:
            os.write(given, text)
            os.lseek(given, 0, os.SEEK_SET)
            status = self.spawned(words, given, written)
            size = os.fstat(written).st_size
            return Answer(status, os.pread(written, size, 0))

    def spawned(self, words: List[str], given: int, written: int) -> int:
        command = self.command(words)
        streams = [(os.POSIX_SPAWN_DUP2, given, 0), (os.POSIX_SPAWN_DUP2, written, 1)]
        try:
            process = os.posix_spawn(command[0], command, self.environment, file_actions=streams)
        except OSError as error:
            raise NoProgram(f"{command[0]} can't be started: {os.strerror(error.errno or 0)}") from None
        if self.processor_seconds:
            limit(process, self.processor_seconds)
        return self.ended(process)

    def ended(self, process: int) -> int:
        """How a process ended, which is waited for."""
        _, status = os.waitpid(process, 0)
        return os.waitstatus_to_exitcode(status)

    def ask(self, words: List[str], text: bytes) -> bytes:
        return self.answer(words, text).output


def limit(process: int, seconds: int) -> None:
    """Has a process ended by SIGXCPU after so many seconds of a processor."""
    if hasattr(resource, "prlimit"):
        # (it may have ended already)
        with suppress(ProcessLookupError):
            resource.prlimit(process, resource.RLIMIT_CPU, (seconds, seconds + 1))


@lru_cache(maxsize=4)
def runner_of(named: str) -> Runner:
    try:
        build = Builds(home(), named or None).choose()
    except Ended as error:
        raise NoProgram(*error.lines) from None
    if not build.is_fast:
        raise NoProgram("the API needs a build that answers at once: `./sancus build` makes the proved one")
    return Runner(build.command)


def runner() -> Runner:
    """The program that is found here: SANCUS_PROGRAM, or the one that `sancus version` names."""
    return runner_of(os.environ.get("SANCUS_PROGRAM", ""))
