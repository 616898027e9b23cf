"""The worked rows: calls of the program itself, and what each must answer.

The files of tests/rows have them. A row is a line `== WORDS` with the words of the call, the lines of its input, a line
`=> STATUS`, and the lines of its output, up to an empty line. Before it there may be lines `# ..`, which say what it
shows.

A line of either part may stand for others. In a TEXT `{N PIECE}` is a piece N times, `\\n` is a newline, and `\\xNN` a
byte.

    @NAME           the lines of NAME.txt
    @NAME N         the first N of them
    @line TEXT      a line
    @repeat N TEXT  N lines, in which `\\#` is the line's number, from 0

In an input:

    @change A => B  the lines above, with B in place of the first A; both are a TEXT
    @cut            no newline at the end (as the last line)

In an output, which may be worked out but in part:

    @images         the lines `image ..` of the modules
    @images N       the same, and they have N bytes
    @steps          a line `steps K`
    @any N          N lines
    @any            all lines but those that follow
    @count N TEXT   no line; N lines of the output begin with the text
"""

import re
import resource
import subprocess
import unittest
from dataclasses import dataclass
from pathlib import Path
from typing import Callable, Iterator, List, NamedTuple, Optional, Union

from support import PROGRAM, needs_program, program

ROWS = Path(__file__).resolve().parent / "rows"
ROW = re.compile(r"^==(.*)\n((?:.*\n)*?)=> ([0-9]+)\n((?:.+\n)*)", re.MULTILINE)
BETWEEN = re.compile(r"(?:#.*\n|\n)*")
PIECES = re.compile(r"\{([0-9]+) ([^{}]*)\}")
ESCAPE = re.compile(rb"\\(?:(n)|x([0-9a-f]{2}))")
OPEN = re.compile(r"@(images|steps|any|count)(?: ([0-9]+))?(?: (.+))?")


class Open(NamedTuple):
    """A line of an output that isn't worked out."""

    kind: str
    number: Optional[int]
    text: bytes


@dataclass
class Row:
    place: str
    words: List[str]
    given: bytes
    status: int
    wanted: List[Union[bytes, Open]]


def bytes_of(text: str) -> bytes:
    whole = PIECES.sub(lambda it: it[2] * int(it[1]), text).encode()
    return ESCAPE.sub(lambda it: b"\n" if it[1] else bytes([int(it[2], 16)]), whole)


def lines_of(line: str) -> Optional[List[bytes]]:
    """The lines for which a line of either part stands, without their newlines."""
    if not line.startswith("@"):
        return [line.encode()]
    name, _, rest = line[1:].partition(" ")
    if name == "line":
        return [bytes_of(rest)]
    if name == "repeat":
        count, _, text = rest.partition(" ")
        return b"\n".join(bytes_of(text.replace("\\#", str(i))) for i in range(int(count))).split(b"\n")
    file = ROWS / f"{name}.txt"
    if not file.exists():
        return None
    lines = file.read_bytes().split(b"\n")[:-1]
    return lines[: int(rest)] if rest else lines


def given_by(lines: List[str]) -> bytes:
    """An input."""
    text = b""
    for line in lines:
        meant = lines_of(line)
        if meant is not None:
            text += b"".join(it + b"\n" for it in meant)
        elif line == "@cut" and line is lines[-1]:
            text = text[:-1]
        else:
            name, _, change = line.partition(" ")
            old, _, new = map(bytes_of, change.partition(" =>"))
            assert name == "@change" and old in text, line
            text = text.replace(old, new[1:], 1)
    return text


def wanted_by(lines: List[str]) -> Iterator[Union[bytes, Open]]:
    """The lines of an output."""
    for line in lines:
        meant = lines_of(line)
        if meant is not None:
            yield from meant
        else:
            found = OPEN.fullmatch(line)
            assert found, line
            yield Open(found[1], int(found[2]) if found[2] else None, bytes_of(found[3] or ""))


def rows_of(file: Path) -> List[Row]:
    text = file.read_text(encoding="utf-8")
    assert BETWEEN.fullmatch(ROW.sub("", text)), f"{file.name} has a line that is of no row"
    return [
        Row(
            f"{file.name} line {text.count(chr(10), 0, it.start()) + 1}",
            it[1].split(),
            given_by(it[2].split("\n")[:-1]),
            int(it[3]),
            list(wanted_by(it[4].split("\n")[:-1])),
        )
        for it in ROW.finditer(text)
    ]


def passed_over(line: Open, left: List[bytes], following: int) -> Optional[int]:
    """How many of the lines that are left an open one stands for."""
    if line.kind == "any":
        return len(left) - following if line.number is None else line.number
    if line.kind == "steps":
        return 1 if re.fullmatch(rb"steps [0-9]+", left[0]) else None
    count = next((i for i, it in enumerate(left) if not it.startswith(b"image ")), len(left))
    size = sum(len(it) + 1 for it in left[:count])
    return count if line.number in (None, size) else None


def difference(wanted: List[Union[bytes, Open]], out: bytes) -> Optional[str]:
    """The first line at which an output isn't what is wanted."""
    written = out.split(b"\n")
    counts = [it for it in wanted if isinstance(it, Open) and it.kind == "count"]
    for it in counts:
        found = sum(line.startswith(it.text) for line in written)
        if found != it.number:
            return f"{found} lines begin with {it.text!r}, not {it.number}"
    lines, at = [*(it for it in wanted if it not in counts), b""], 0
    for i, line in enumerate(lines):
        here = written[at] if at < len(written) else None
        if here is None:
            count = None
        elif isinstance(line, Open):
            count = passed_over(line, written[at:], len(lines) - i - 1)
        else:
            count = 1 if here == line else None
        if count is None or count < 0:
            return f"line {at + 1} is {here!r}, not {line!r}"
        at += count
    return None if at == len(written) else f"line {at + 1} is {written[at]!r}, and none is wanted"


def bounded(mebibytes: int) -> Callable[[], None]:
    """Leaves a process that begins so much memory, its program and its stack among it."""
    return lambda: resource.setrlimit(resource.RLIMIT_AS, (mebibytes << 20, mebibytes << 20))


@needs_program
class Rows(unittest.TestCase):
    def is_answered(self, row: Row, status: int, out: bytes) -> None:
        self.assertEqual((status, difference(row.wanted, out)), (row.status, None))

    def test_each_row(self):
        files = sorted(ROWS.glob("*.rows"))
        self.assertTrue(files)
        for row in (row for file in files for row in rows_of(file)):
            with self.subTest(row.place):
                ran = program(*row.words, text=row.given)
                self.is_answered(row, ran.status, ran.out)

    def test_the_memory_of_the_rows_of_limits(self):
        """They do with little more than they took when they were written, so that a leak or a large stack shows."""
        for row in rows_of(ROWS / "limits.rows"):
            with self.subTest(row.place):
                room = bounded({"snap": 9, "explain": 9, "drive": 24}.get(row.words[0], 6))
                ran = subprocess.run([PROGRAM, *row.words], input=row.given, capture_output=True, preexec_fn=room)
                self.is_answered(row, ran.returncode, ran.stdout)

    def test_a_command_that_is_no_text(self):
        for words in ([b"\xff"], [b"run\xff"], ["asm", b"\xff"]):
            ran = subprocess.run([PROGRAM, *words], stdin=subprocess.DEVNULL, capture_output=True)
            self.assertEqual((ran.returncode, ran.stdout), (2, b"fault usage\n"), words)

    def test_gen_writes_the_images_that_run_writes(self):
        ran, made = program("run", text=given_by(["@lighting"])), program("gen", "1")
        images = [it for it in ran.lines if it.startswith("image ")]
        self.assertEqual(images, [it for it in made.lines if it.startswith("image ")])
        # MOV SP, &0x1094 and MOV R12, &0x1006: the entry keeps the caller's registers
        self.assertTrue(images[0].startswith("image eye 82419410824c0610"))


if __name__ == "__main__":
    unittest.main()
