"""Starts the program: hands it its input as that comes, passes on what it writes as that comes, and keeps what words
about the run need.
"""

from __future__ import annotations

import os
import select
import signal
import subprocess
from typing import IO, Any, List, Optional

from sancus.builds import Builds
from sancus.cli import output
from sancus.cli.reading import Part, is_regular
from sancus.cli.say import Voice
from sancus.kept import Build
from sancus.model.asking import Answer
from sancus.model.texts import Kept, Origin
from sancus.records import dataclass, field
from sancus.status import INTERRUPTED, NO_ANSWER, Ended

# How long a build that isn't proved may run, in seconds.
SECONDS_AT_MOST = "86400"
# The longest last line that is kept: a fault, or an illegal item.
LONGEST_LAST = 4096
OUTPUT_PIECE = 1 << 16
SMALL_PIPE = 4096
F_SETPIPE_SZ = 1031


@dataclass
class Ran:
    """How a run ended: its status, the last line that it wrote, and what is kept of its input."""

    status: int
    last: str
    kept: Kept


class Sink:
    """Takes what the program writes. This one passes it on as it is."""

    def write(self, data: bytes) -> None:
        output.write(data)

    def close(self) -> None:
        """The program has ended."""


@dataclass
class Collected(Sink):
    """Keeps what the program writes."""

    pieces: List[bytes] = field(default_factory=list)

    def write(self, data: bytes) -> None:
        self.pieces.append(data)

    def data(self) -> bytes:
        return b"".join(self.pieces)


class Feeder:
    """Hands parts to the program, a piece at a time, each when the one before was taken: so little more is read than
    the program reads."""

    def __init__(self, parts: List[Part], to: int, kept: Kept) -> None:
        self.parts, self.to, self.kept = list(parts), to, kept
        self.waiting = b""
        self.is_open = True
        self.ends_whole = True
        self.begin_part()

    def begin_part(self) -> None:
        if self.parts:
            part = self.parts[0]
            self.kept.origins.append(Origin(self.kept.lines_so_far() + 1, part.name, part.line, part.line_of))

    def watched(self) -> Optional[int]:
        """The descriptor to wait for, with whether it is to be written."""
        return self.to if self.waiting else (self.parts[0].waits_for() if self.parts else None)

    def advance(self) -> None:
        """Reads the next piece, or writes what waits."""
        if self.waiting:
            try:
                self.waiting = self.waiting[os.write(self.to, self.waiting) :]
            except BlockingIOError:
                return
            except OSError:
                # (the program has read enough, and ended)
                self.close()
            return
        if not self.parts:
            self.close()
            return
        piece = self.parts[0].read()
        if piece:
            self.ends_whole = piece.endswith(b"\n")
            self.take(piece)
            return
        self.parts.pop(0)
        if self.parts and not self.ends_whole:
            # (the next part begins a line)
            self.ends_whole = True
            self.take(b"\n")
        self.begin_part()

    def take(self, piece: bytes) -> None:
        self.kept.add(piece)
        self.waiting += piece

    def close(self) -> None:
        if self.is_open:
            self.is_open = False
            os.close(self.to)


@dataclass
class Program:
    """The program as it is started here."""

    builds: Builds
    voice: Voice
    chosen: Optional[Build] = None

    def build(self) -> Build:
        if not self.chosen:
            self.chosen = self.builds.choose()
            self.voice.say(*self.chosen.notes)
        return self.chosen

    def command(self, words: List[str]) -> List[str]:
        build = self.build()
        if build.is_fast:
            return [*build.command, *words]
        seconds = os.environ.get("SANCUS_SECONDS", SECONDS_AT_MOST)
        return [*build.command, "--seconds", seconds, "--", *words]

    @property
    def is_fast(self) -> bool:
        return self.build().is_fast

    def answer(self, words: List[str], text: bytes) -> Answer:
        """What the program answers to a text, for questions that the front end has of its own."""
        sink = Collected()
        ran = self.ran_of(words, text, sink)
        return Answer(ran.status, sink.data())

    def ask(self, words: List[str], text: bytes) -> bytes:
        return self.answer(words, text).output

    def ran_of(self, words: List[str], text: bytes, sink: Sink) -> Ran:
        from tempfile import TemporaryFile

        with TemporaryFile() as file:
            file.write(text)
            file.seek(0)
            return self.run_file(words, file.fileno(), "-", sink)

    def run_file(self, words: List[str], fd: int, name: str, sink: Sink) -> Ran:
        """Runs on a file or a terminal, which the program reads by itself."""
        kept = Kept(origins=[Origin(1, name, 1)])
        start = os.lseek(fd, 0, os.SEEK_CUR) if is_regular(fd) else None
        ran = self.run(words, fd, [], kept, sink)
        if start is not None:
            read_again(fd, start, kept)
        return ran

    def run_parts(self, words: List[str], parts: List[Part], sink: Sink) -> Ran:
        """Runs on parts that are handed over one after the other."""
        return self.run(words, None, parts, Kept(), sink)

    def run(self, words: List[str], fd: Optional[int], parts: List[Part], kept: Kept, sink: Sink) -> Ran:
        if self.is_fast:
            return self.pumped(self.command(words), fd, parts, kept, sink, None)
        from tempfile import TemporaryFile

        held = Collected()
        with TemporaryFile() as messages:
            ran = self.pumped(self.command(words), fd, parts, kept, held, messages)
            messages.seek(0)
            text = messages.read().decode(errors="surrogateescape")
        sink.write(held.data())
        sink.close()
        return self.tried(ran, text)

    def pumped(
        self,
        command: List[str],
        fd: Optional[int],
        parts: List[Part],
        kept: Kept,
        sink: Sink,
        messages: Optional[IO[Any]],
    ) -> Ran:
        folder = None if self.is_fast else self.builds.crate
        try:
            process = subprocess.Popen(
                command,
                stdin=subprocess.PIPE if fd is None else fd,
                stdout=subprocess.PIPE,
                stderr=messages,
                cwd=folder,
                bufsize=0,
            )
        except OSError as error:
            raise Ended(NO_ANSWER, f"{command[0]} can't be started: {os.strerror(error.errno or 0)}") from None
        try:
            last = self.pump(process, parts, kept, sink)
            status = process.wait()
        except KeyboardInterrupt:
            process.kill()
            process.wait()
            raise Ended(INTERRUPTED) from None
        except Ended:
            # (nobody takes what it writes, so it ends by itself; if its input can't be read, it is ended)
            process.kill()
            process.wait()
            raise
        if status < 0:
            raise Ended(NO_ANSWER, f"the program was ended by signal {-status} ({signal.Signals(-status).name})")
        if self.is_fast:
            sink.close()
        return Ran(status, last, kept)

    def pump(self, process: "subprocess.Popen[bytes]", parts: List[Part], kept: Kept, sink: Sink) -> str:
        assert process.stdout
        out = process.stdout.fileno()
        feeder = None
        if process.stdin:
            make_small(process.stdin.fileno())
            feeder = Feeder(parts, os.dup(process.stdin.fileno()), kept)
            process.stdin.close()
            os.set_blocking(feeder.to, False)
        last = b""
        while True:
            ready = wait_for(out, feeder)
            if feeder and feeder.is_open and "in" in ready:
                feeder.advance()
            if "out" not in ready:
                continue
            data = os.read(out, OUTPUT_PIECE)
            if not data:
                break
            last = (last + data)[-2 * LONGEST_LAST :]
            sink.write(data)
        if feeder:
            feeder.close()
        process.stdout.close()
        return last_line(last)

    def tried(self, ran: Ran, messages: str) -> Ran:
        """How a run of a build without a proof ended: rt ends its messages with a line `run=`."""
        how = [it for it in messages.split("\n") if it.startswith("run=")][-1:] or [""]
        if how[0].startswith("run=ended "):
            return ran
        lines = [it for it in messages.split("\n") if it]
        what = "the program wasn't built, or it stopped: the messages are above"
        if how[0].startswith("run=no-answer"):
            seconds = os.environ.get("SANCUS_SECONDS", SECONDS_AT_MOST)
            what = f"the program was ended early, after {seconds} seconds or 1 MiB of output: what it wrote isn't whole"
        raise Ended(NO_ANSWER, *lines, what)


def wait_for(out: int, feeder: Optional[Feeder]) -> List[str]:
    """Which of the two has something to do: the program's output, or its input."""
    poll = select.poll()
    poll.register(out, select.POLLIN)
    watched = feeder.watched() if feeder and feeder.is_open else None
    is_ready = bool(feeder and feeder.is_open and watched is None)
    if feeder and watched is not None:
        poll.register(watched, select.POLLOUT if watched == feeder.to else select.POLLIN)
        if watched != feeder.to:
            # (a program that has ended closes its end)
            poll.register(feeder.to, 0)
    found = {fd for fd, _ in poll.poll(0 if is_ready else None)}
    if feeder and watched != feeder.to and feeder.is_open and feeder.to in found:
        feeder.close()
        found.discard(watched)  # type: ignore[arg-type]
        is_ready = False
    return (["in"] if is_ready or watched in found else []) + (["out"] if out in found else [])


def make_small(pipe: int) -> None:
    """Lets a pipe hold little, so that little more is read than the program reads."""
    try:
        import fcntl

        fcntl.fcntl(pipe, F_SETPIPE_SZ, SMALL_PIPE)
    except (ImportError, OSError):
        pass


def read_again(fd: int, start: int, kept: Kept) -> None:
    """Keeps what the program read of a file, without moving on in it."""
    end, at = os.lseek(fd, 0, os.SEEK_CUR), start
    while at < end:
        try:
            piece = os.pread(fd, min(1 << 16, end - at), at)
        except OSError:
            return
        if not piece:
            return
        kept.add(piece)
        at += len(piece)


def last_line(data: bytes) -> str:
    lines = data.rstrip(b"\n").rsplit(b"\n", 1)
    return lines[-1].decode(errors="surrogateescape")
