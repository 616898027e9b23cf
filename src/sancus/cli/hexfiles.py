"""Programs of usual tools as schedule lines, and modules' images for usual tools: ELF, Intel HEX and TI-TXT."""

from __future__ import annotations

import os
import re
import struct
from pathlib import Path
from typing import Callable, Dict, Iterator, List, Optional, Tuple

from sancus.cli.commands import Given, Usage
from sancus.cli.context import Context
from sancus.cli.output import print_lines, write
from sancus.cli.reading import read_all
from sancus.cli.writing import must_be_free, write_file
from sancus.model.described import Deployment, described
from sancus.model.shown import plain
from sancus.model.texts import Input
from sancus.records import dataclass, field
from sancus.status import BAD_TEXT, NO_FILE, Ended

# How many bytes one `put` takes.
PIECE = 1024
MSP430 = 105
MEMORY = 0x10000
ALLOCATED, NULL, NO_BITS, LOADED = 2, 0, 8, 1
RELOCATABLE = 1
DATA, END, SEGMENT, START_SEGMENT, LINEAR, START = 0, 1, 2, 3, 4, 5
THREE = "a file is ELF, Intel HEX (each line begins with `:`) or TI-TXT (a line `@ADDRESS`, then bytes)"
IMAGE = re.compile(r"^image (\S+) ([0-9a-f]+)$", re.M)


class Bad(Exception):
    """A file that isn't what its format asks for."""


@dataclass(frozen=True)
class Piece:
    """Bytes at an address."""

    at: int
    body: bytes

    @property
    def end(self) -> int:
        return self.at + len(self.body)


@dataclass
class Code:
    """What a file holds: pieces of memory, and where the program begins, if the file says that."""

    pieces: List[Piece] = field(default_factory=list)
    entry: Optional[int] = None


def elf(data: bytes) -> Code:
    """An ELF file, by sections: the first segment that lld writes holds the file's header."""
    try:
        return elf_of(data)
    except struct.error:
        raise Bad("the ELF file is cut: a part that its header names isn't there") from None


def elf_of(data: bytes) -> Code:
    if data[4:6] != b"\x01\x01":
        raise Bad("this is no little-endian ELF of 32 bits")
    header = struct.unpack_from("<HHIIIIIHHHHHH", data, 16)
    kind, machine, entry, programs, sections = header[0], header[1], header[3], header[4], header[5]
    program_size, program_count, section_size, section_count = header[8:12]
    if machine != MSP430:
        raise Bad(f"this is an ELF for machine {machine}, and not for {MSP430}, MSP430")
    if kind == RELOCATABLE:
        raise Bad("this ELF isn't linked, so its parts have no addresses: link it first, as examples/c_attacker/run.sh does")
    segments = [struct.unpack_from("<IIIIIIII", data, programs + it * program_size) for it in range(program_count)]
    made = Code(entry=entry)
    for number in range(section_count):
        _, kind, flags, at, offset, size, *_ = struct.unpack_from("<IIIIIIII", data, sections + number * section_size)
        if flags & ALLOCATED and kind not in (NULL, NO_BITS) and size:
            if offset + size > len(data):
                raise Bad("the ELF file is cut: a section's bytes aren't there")
            made.pieces.append(Piece(loaded_at(at, segments), data[offset : offset + size]))
    return made


def loaded_at(address: int, segments: List[Tuple[int, ...]]) -> int:
    """Where the bytes are loaded that run at the address."""
    for kind, _, runs_at, loads_at, in_file, *_ in segments:
        if kind == LOADED and runs_at <= address < runs_at + in_file:
            return address + loads_at - runs_at
    return address


def lines_of(text: str) -> Iterator[Tuple[int, str]]:
    """The lines that aren't blank, with their numbers."""
    return ((number, it.strip()) for number, it in enumerate(text.splitlines(), 1) if it.strip())


def bytes_of(digits: str) -> Optional[bytes]:
    """Bytes in hexadecimal, or None."""
    try:
        return bytes.fromhex(digits)
    except ValueError:
        return None


def address_of(digits: str) -> Optional[int]:
    return int(digits, 16) if re.fullmatch("[0-9A-Fa-f]{1,8}", digits) else None


def intel_hex(text: str) -> Code:
    made, base = Code(), 0
    for number, line in lines_of(text):
        row = bytes_of(line[1:]) if line[0] == ":" else None
        if not row or len(row) < 5 or sum(row) & 255 or len(row) != row[0] + 5:
            raise Bad(f"line {number} is no record of Intel HEX: `:`, then bytes whose sum is 0 and the first their count")
        at, kind, body = row[1] << 8 | row[2], row[3], row[4:-1]
        value = int.from_bytes(body, "big")
        if kind == DATA:
            made.pieces.append(Piece(base + at, body))
        elif kind == END:
            break
        elif kind in (SEGMENT, LINEAR):
            base = value << (4 if kind == SEGMENT else 16)
        elif kind == START:
            made.entry = value
        elif kind == START_SEGMENT:
            made.entry = (value >> 16 << 4) + (value & 0xFFFF)
    return made


def ti_txt(text: str) -> Code:
    made = Code()
    at: Optional[int] = None
    for number, line in lines_of(text):
        if line.lower() == "q":
            break
        if line.startswith("@"):
            at = address_of(line[1:])
            if at is None:
                raise Bad(f"line {number}: after `@` comes an address in hexadecimal")
            continue
        body = bytes_of(line)
        if at is None:
            raise Bad(f"line {number} {'has bytes before an address' if body else 'has no address'}: {THREE}")
        if body is None:
            raise Bad(f"line {number} is no bytes in hexadecimal")
        made.pieces.append(Piece(at, body))
        at = made.pieces[-1].end
    return made


def joined(pieces: List[Piece]) -> List[Piece]:
    """The pieces in order, neighbours as one; they may not meet or pass the end of memory."""
    done: List[Piece] = []
    for it in sorted((it for it in pieces if it.body), key=lambda it: it.at):
        if it.end > MEMORY:
            raise Bad(f"{len(it.body)} bytes from 0x{it.at:x} on pass the end of memory")
        if done and it.at < done[-1].end:
            raise Bad(f"two parts meet at 0x{it.at:04x}")
        if done and it.at == done[-1].end:
            done[-1] = Piece(done[-1].at, done[-1].body + it.body)
        else:
            done.append(it)
    return done


def read(name: str) -> Code:
    """The code of a file, whose format its content tells."""
    data = read_all(name, 1 << 26)
    if not data:
        raise Bad("the file is empty")
    if data[:4] == b"\x7fELF":
        made = elf(data)
    else:
        text = data.decode("ascii")
        made = intel_hex(text) if text.lstrip().startswith(":") else ti_txt(text)
    pieces = joined(made.pieces)
    return Code(pieces, reset_vector(pieces) if made.entry is None else made.entry)


def reset_vector(pieces: List[Piece]) -> Optional[int]:
    """The word at 0xfffe, where a chip would start, or None."""
    for it in pieces:
        if it.at <= 0xFFFE and it.end > 0xFFFF:
            return int.from_bytes(it.body[0xFFFE - it.at :][:2], "little")
    return None


def as_ti_txt(made: Code) -> str:
    lines = []
    for it in made.pieces:
        lines.append(f"@{it.at:04X}")
        lines += [it.body[at : at + 16].hex(" ").upper() for at in range(0, len(it.body), 16)]
    return "\n".join([*lines, "q", ""])


def record(at: int, kind: int, body: bytes) -> str:
    row = bytes([len(body), at >> 8, at & 255, kind]) + body
    return ":" + (row + bytes([-sum(row) & 255])).hex().upper()


def as_intel_hex(made: Code) -> str:
    lines = [record(it.at + at, DATA, it.body[at : at + 16]) for it in made.pieces for at in range(0, len(it.body), 16)]
    if made.entry is not None:
        lines.append(record(0, START, made.entry.to_bytes(4, "big")))
    return "\n".join([*lines, record(0, END, b""), ""])


@dataclass(frozen=True)
class Format:
    """A format of files: how it is written and read, and how names of its files end."""

    written: Callable[[Code], str]
    read: Callable[[str], Code]
    ending: str

    def is_own(self, text: str) -> bool:
        """Whether a file is one that is written here: others have other lengths of lines, or an entry."""
        try:
            return self.written(Code(joined(self.read(text).pieces))) == text
        except Bad:
            return False


FORMATS = {"ti": Format(as_ti_txt, ti_txt, "txt"), "hex": Format(as_intel_hex, intel_hex, "hex")}


@dataclass(frozen=True)
class Taken:
    """What is on a node, from a first byte to an end."""

    what: str
    begin: int
    end: int


def taken(deployment: Deployment, node: str) -> Iterator[Taken]:
    yield Taken("address 0, where `load` puts the protecting instruction and calls return", 0, 2)
    for module in deployment.modules.values():
        if module.node == node:
            yield Taken(f"the public section of {module.name}", module.text.start, module.text.stop)
            yield Taken(f"the private section of {module.name}", module.data.start, module.data.stop)
    for device in deployment.devices.values():
        if device.node == node:
            yield Taken(f"the device {device.name}", device.at, device.at + 2)


def meetings(pieces: List[Piece], deployment: Deployment, node: str) -> Iterator[str]:
    for piece in pieces:
        for it in taken(deployment, node):
            if piece.at < it.end and it.begin < piece.end:
                yield f"0x{piece.at:04x} to 0x{piece.end:04x} meets {it.what}, 0x{it.begin:04x} to 0x{it.end:04x}"


def put(context: Context, given: Given, node: str, file: str) -> None:
    code = read(file)
    if given.has("input"):
        deployment = accepted(context, Input(read_all(given.text("input"))).head)
        if node not in deployment.nodes:
            raise Bad(f"there is no node {node}; the nodes: {' '.join(deployment.nodes)}")
        context.voice.say(*meetings(code.pieces, deployment, node))
    if given.has("pc") and code.entry is None:
        raise Bad("the file says no entry: write `set NODE pc ADDRESS` yourself")
    lines = [f"# {plain(os.path.basename(file))}: {sum(len(it.body) for it in code.pieces)} bytes"]
    for it in code.pieces:
        lines += [
            f"put {node} 0x{it.at + at:04x} {it.body[at : at + PIECE].hex()}" for at in range(0, len(it.body), PIECE)
        ]
    print_lines(*lines, *([f"set {node} pc 0x{code.entry:04x}"] if given.has("pc") else []))


def accepted(context: Context, head: bytes) -> Deployment:
    made = described(context.program, head)
    if not made.is_accepted:
        raise Bad(f"`describe` ends with {made.last}")
    return made


def image(context: Context, given: Given, name: str) -> None:
    data = Input(read_all(name))
    modules = accepted(context, data.head).modules.values()
    output = context.program.ask(["run"], data.head + b"%%\n").decode(errors="replace")
    images = {it[1]: bytes.fromhex(it[2]) for it in IMAGE.finditer(output)}
    if not modules:
        raise Bad("the deployment has no module, so there is no image")
    chosen = FORMATS[given.text("format") or "ti"]
    folder = Path(given.text("to") or ".")
    nodes: Dict[str, List[Piece]] = {}
    files: Dict[Path, List[Piece]] = {}
    for module in modules:
        piece = Piece(module.text.start, images[module.name])
        nodes.setdefault(module.node, []).append(piece)
        files[folder / f"{module.name}.{chosen.ending}"] = [piece]
    named = {folder / f"node_{node}.{chosen.ending}": joined(pieces) for node, pieces in nodes.items()}
    write_images({**files, **named}, chosen, [name], given.has("force"))
    for path, pieces in named.items():
        print_lines(f"{path}: {', '.join(f'0x{it.at:04x} to 0x{it.end:04x}' for it in pieces)}")


def write_images(files: Dict[Path, List[Piece]], form: Format, inputs: List[str], is_forced: bool) -> None:
    """Writes pieces to files, or none of them if one would be written over what is no such file."""
    for path in files:
        must_be_free(path, inputs, form.is_own, is_forced, "file of `hex image`", "--to names another folder")
    for path, pieces in files.items():
        try:
            path.parent.mkdir(parents=True, exist_ok=True)
        except OSError as error:
            raise Ended(NO_FILE, f"{error.filename or path.parent} can't be written: {error.strerror}") from None
        write_file(path, form.written(Code(pieces)))


def convert(given: Given, file: str) -> None:
    write(FORMATS[given.text("format") or "ti"].written(read(file)).encode())


def answer(context: Context, given: Given) -> int:
    what, arguments = given.text("WHAT"), given.texts("ARGUMENT")
    wanted = {"put": 2, "image": 1, "convert": 1}.get(what)
    if wanted is None or len(arguments) != wanted:
        raise Usage("`hex` takes `put NODE FILE`, `image INPUT` or `convert FILE`", given.command)
    try:
        if what == "put":
            put(context, given, arguments[0], arguments[1])
        elif what == "image":
            image(context, given, arguments[0])
        else:
            convert(given, arguments[0])
    except UnicodeDecodeError:
        raise Ended(BAD_TEXT, f"{arguments[-1]} is none of the three: {THREE}") from None
    except (Bad, ValueError, IndexError, struct.error) as error:
        raise Ended(BAD_TEXT, f"{arguments[-1]}: {error}") from None
    return 0
