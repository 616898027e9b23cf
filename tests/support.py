"""What the tests share: the program, calls of ./sancus, and the lighting application.

The program is SANCUS_PROGRAM, else the build that ./sancus would start. If that isn't a native program (a build without
proof takes minutes a call), what needs a program is passed over, with a word on standard error.
"""

from __future__ import annotations

import os
import signal
import subprocess
import sys
import tempfile
import traceback
import unittest
from dataclasses import dataclass
from pathlib import Path
from typing import Callable, Iterable, List, NoReturn, Optional, Tuple, Union

TOP = Path(__file__).resolve().parent.parent
sys.path.insert(0, str(TOP / "src"))

import importlib  # noqa: E402
import pkgutil  # noqa: E402

from sancus import cli, model  # noqa: E402
from sancus.builds import Builds  # noqa: E402
from sancus.cli.main import run  # noqa: E402
from sancus.model.texts import Input  # noqa: E402
from sancus.status import Ended  # noqa: E402

# (so that a fork has them)
for package in (cli, model):
    for found in pkgutil.iter_modules(package.__path__, f"{package.__name__}."):
        importlib.import_module(found.name)

SANCUS = TOP / "sancus"
EXAMPLES = TOP / "examples"
LIGHTING = (EXAMPLES / "lighting.txt").read_bytes()
HEAD = Input(LIGHTING).head
FAKE = """#!/bin/sh
echo "ran $*"; cat; echo '{last}'; exit {status}
"""
# Runs a command, and says its peak of memory in KiB, children's not counted.
MEASURE = """
import os, resource, sys
pid = os.posix_spawn(sys.argv[1], sys.argv[1:], os.environ)
_, status, used = os.wait4(pid, 0)
sys.stderr.write(f"peak {used.ru_maxrss}")
sys.stderr.flush()
os._exit(os.waitstatus_to_exitcode(status))
"""


def found_program() -> str:
    try:
        build = Builds(TOP, os.environ.get("SANCUS_PROGRAM")).choose()
    except Ended:
        return ""
    return build.command[0] if len(build.command) == 1 else ""


PROGRAM = found_program()
if not PROGRAM:
    print(
        "tests: there is no native program (SANCUS_PROGRAM, or a build), so what needs one is passed over",
        file=sys.stderr,
    )
needs_program = unittest.skipUnless(PROGRAM, "there is no native program")


@dataclass
class Result:
    """How a call ended, and what it wrote."""

    status: int
    out: bytes
    said: str

    @property
    def lines(self) -> List[str]:
        return self.out.decode(errors="replace").splitlines()


Text = Union[bytes, str]


def as_bytes(text: Text) -> bytes:
    return text.encode() if isinstance(text, str) else text


def sancus(
    *words: Union[str, Path], text: Text = b"", program: Optional[str] = None, cwd: Optional[Path] = None
) -> Result:
    """A call of ./sancus, with a text on a pipe as its standard input. It is a fork of this process, which spares
    Python's start."""
    data = as_bytes(text)
    read, write = os.pipe()
    with tempfile.TemporaryFile() as out, tempfile.TemporaryFile() as said:
        child = os.fork()
        if child == 0:
            answer_as_child(list(map(str, words)), (read, out.fileno(), said.fileno()), write, program or PROGRAM, cwd)
        os.close(read)
        hand_over(write, data)
        _, status = os.waitpid(child, 0)
        out.seek(0)
        said.seek(0)
        return Result(os.waitstatus_to_exitcode(status), out.read(), said.read().decode(errors="replace"))


def answer_as_child(
    words: List[str], streams: Tuple[int, int, int], write: int, program: str, cwd: Optional[Path]
) -> NoReturn:
    try:
        for to, fd in enumerate(streams):
            os.dup2(fd, to)
        os.closerange(3, 256)
        os.environ["SANCUS_PROGRAM"] = program
        if cwd:
            os.chdir(cwd)
        status = run(words, str(TOP))
    except BaseException:  # noqa: BLE001 (whatever it is, its status says so)
        traceback.print_exc()
        status = 99
    os._exit(status)


def hand_over(write: int, data: bytes) -> None:
    try:
        left = memoryview(data)
        while left:
            left = left[os.write(write, left) :]
    except BrokenPipeError:
        pass
    os.close(write)


def usual_signals(*ignored: int) -> None:
    """For a process that is started: signals end it, but for those that it is to ignore, although this process may
    ignore them, as all do that a script starts with `&`."""
    for it in (signal.SIGINT, signal.SIGTERM, signal.SIGHUP, signal.SIGPIPE):
        signal.signal(it, signal.SIG_IGN if it in ignored else signal.SIG_DFL)


def program(*words: str, text: Text = b"") -> Result:
    """A call of the program itself."""
    ran = subprocess.run([PROGRAM, *words], input=as_bytes(text), capture_output=True, timeout=120)
    return Result(ran.returncode, ran.stdout, ran.stderr.decode(errors="replace"))


def whole_examples() -> List[Path]:
    """The examples that are inputs by themselves."""
    return [it for it in sorted(EXAMPLES.rglob("*.txt")) if Input(it.read_bytes()).has_mark]


def one_by_one(work: Callable[[object], object], over: Iterable[object]) -> List[object]:
    return [work(it) for it in over]


class Room(unittest.TestCase):
    """A test with a folder of its own."""

    def setUp(self) -> None:
        folder = tempfile.TemporaryDirectory()
        self.addCleanup(folder.cleanup)
        self.room = Path(folder.name)

    def file(self, name: str, text: Text) -> Path:
        path = self.room / name
        path.write_bytes(as_bytes(text))
        return path

    def fake(self, last: str = "end", status: int = 0) -> str:
        """A program that prints its words and its input, and ends so."""
        path = self.file("program", FAKE.format(last=last, status=status))
        path.chmod(0o755)
        return str(path)

    def says(self, result: Result, *words: str) -> None:
        for it in words:
            self.assertIn(it, result.said)
