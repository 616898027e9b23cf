"""A run that goes on line by line: each line is given to the program when the items of the one before were seen."""

from __future__ import annotations

import subprocess
from threading import Thread
from typing import List, Optional, Sequence, Tuple

from sancus.model.asking import Program
from sancus.model.texts import MOST_LINES, is_act
from sancus.records import dataclass, field
from sancus.status import NO_ANSWER, Ended

# `snap` keeps a copy of the run after so many lines, and performs the lines after it again for each query.
BETWEEN_COPIES = 8192
MOST_QUERIES = 64


class Stopped(Exception):
    """The program ended with a fault line, at the line that was given last."""

    def __init__(self, fault: str) -> None:
        super().__init__(fault)
        self.fault = fault


@dataclass
class Session:
    """A run of the program's `lines`, which waits for the next line. A blank line is given after each act: the program
    prints it after the act's items."""

    command: List[str]
    head: bytes
    # the lines that were given, without blank ones
    lines: List[str] = field(default_factory=list)
    # how many lines the program was given, with blank ones, and how many it printed
    given: int = 0
    printed: int = 0

    def __post_init__(self) -> None:
        self.start()

    def start(self) -> None:
        """Starts the program, up to where the schedule begins."""
        try:
            self.process = subprocess.Popen(self.command, stdin=subprocess.PIPE, stdout=subprocess.PIPE)
        except OSError as error:
            raise Ended(NO_ANSWER, f"{self.command[0]} can't be started: {error.strerror}") from None
        self.given = self.printed = 0
        self.give(self.head + b"%%\n")

    @property
    def has_room(self) -> bool:
        """Whether the run takes a further line and a blank one."""
        return self.given + 2 <= MOST_LINES

    def read(self) -> bytes:
        """A line of the output; a fault's ends the session."""
        assert self.process.stdout
        line = self.process.stdout.readline()
        if not line.endswith(b"\n"):
            raise Ended(NO_ANSWER, "the program ended before its time")
        if line.startswith(b"fault "):
            raise Stopped(line[:-1].decode(errors="replace"))
        return line[:-1]

    def items(self) -> List[str]:
        """The items up to where the program prints the next line, or to the end."""
        items = []
        while not (line := self.read()).startswith(b"> ") and line != b"end":
            items.append(line.decode(errors="surrogateescape"))
        self.printed += 1
        return items

    def pass_to(self, number: int) -> None:
        """Passes over the output before the items of a line that was given."""
        while self.printed < number:
            self.items()

    def give(self, text: bytes) -> None:
        assert self.process.stdin
        try:
            self.process.stdin.write(text)
            self.process.stdin.flush()
        except BrokenPipeError:
            # (it ended with a fault, which is read next)
            pass

    def give_lines(self, *lines: bytes) -> None:
        self.given += len(lines)
        self.give(b"".join(it + b"\n" for it in lines))

    def do(self, line: str) -> List[str]:
        """The items that a line gives."""
        self.lines.append(line)
        act = as_act(line)
        if not is_act(act):
            return []
        if not self.has_room:
            self.start_again()
        at = self.given + 1
        if self.has_room:
            self.give_lines(act, b"")
        else:
            self.end_with(act)
        self.pass_to(at)
        return self.items()

    def start_again(self) -> None:
        """Has all lines but the last done once more, without blank ones, which leaves room for further ones."""
        self.close()
        self.start()
        self.perform(self.lines[:-1])

    def end_with(self, act: bytes) -> None:
        """Gives the last line that a run takes, after which no blank one has room."""
        self.give_lines(act)
        assert self.process.stdin
        self.process.stdin.close()

    def perform(self, lines: Sequence[str]) -> None:
        """Gives lines while their items are passed over: neither pipe takes all of them."""
        acts = [it for it in map(as_act, lines) if is_act(it)]
        self.given += len(acts)
        writer = Thread(target=self.give, args=(b"".join(it + b"\n" for it in acts),), daemon=True)
        writer.start()
        self.pass_to(self.given)
        writer.join()

    def skip(self, lines: Sequence[str]) -> None:
        """Has lines done whose items nobody asks for."""
        self.lines += lines
        self.perform(lines)

    def step(self, node: str) -> Tuple[List[str], bool]:
        """The items of a step of a node, and whether a module runs there then: a `put` past the end of memory changes
        nothing and tells."""
        line, at = f"run {node} 1", self.given + 1
        self.lines.append(line)
        self.give_lines(line.encode(), f"put {node} 0xffff 0000".encode())
        self.pass_to(at)
        return self.items(), self.read().startswith(b"busy ")

    def close(self) -> None:
        self.process.kill()
        self.process.wait()
        for it in (self.process.stdin, self.process.stdout):
            if it:
                it.close()


def as_act(line: str) -> bytes:
    return line.encode(errors="surrogateescape")


def start(program: Program, head: bytes) -> Session:
    """A run of a deployment whose schedule is still to come."""
    if not program.is_fast:
        raise Ended(NO_ANSWER, "this runs the program line by line, and needs a fast build: `./sancus build` makes one")
    checked = program.answer(["check"], head + b"%%\n")
    if checked.status:
        raise Stopped(checked.last)
    return Session(program.command(["lines"]), head)


def snapped(program: Program, head: bytes, lines: List[str], queries: List[str]) -> List[str]:
    """The answers of `snap` to queries of registers and bytes, as many as there are."""
    answers: List[str] = []
    for at in range(0, len(queries), MOST_QUERIES):
        performed, some = near_a_copy(lines, queries[at : at + MOST_QUERIES])
        schedule = "".join(f"{it}\n" for it in performed).encode(errors="surrogateescape")
        text = head + b"%%\n" + schedule + b"%%\n" + "".join(f"{it}\n" for it in some).encode()
        answer = program.ask(["snap"], text).decode(errors="surrogateescape").split("\n")
        last: Optional[str] = answer[-2] if len(answer) > 1 else None
        if last != "end":
            raise Stopped(last or "")
        answers += [it for it in answer[:-2] if not it.startswith("image ")]
    return answers


def near_a_copy(lines: List[str], queries: List[str]) -> Tuple[List[str], List[str]]:
    """The lines up to the last that the queries are about, with blank ones after the first of those, so that `snap`
    keeps a copy of the run there; and the queries about these lines."""
    asked = [(it.rpartition(" ")[0], int(it.rpartition(" ")[2])) for it in queries]
    first, last = min(at for _, at in asked), max(at for _, at in asked)
    blank = -first % BETWEEN_COPIES
    if last + blank > MOST_LINES:
        blank = 0
    return lines[:first] + [""] * blank + lines[first:last], [f"{what} {at + blank}" for what, at in asked]
