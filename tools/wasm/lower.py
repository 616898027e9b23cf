#!/usr/bin/env python3
"""Makes of a WebAssembly module with a memory of 64 bits one with a memory of 32 bits.

    tools/wasm/lower.py IN.wasm OUT.wasm

Each address is cut to its low 32 bits where it is used; what lies above it on the stack waits in a local meanwhile. It knows the
instructions that LLVM makes of this program, and refuses every other. The format is that of the WebAssembly Core
Specification, Binary Format.
"""

import sys
from pathlib import Path

HEAD = b"\0asm\1\0\0\0"
TYPES, FUNCTIONS, TABLES, MEMORIES, START, ELEMENTS, CODES, DATA = 1, 3, 4, 5, 8, 9, 10, 11
I32, I64, F32, F64 = 0x7F, 0x7E, 0x7D, 0x7C

# i32.wrap_i64, i64.extend_i32_s, i64.extend_i32_u
WRAP, EXTEND_SIGNED, EXTEND = b"\xa7", b"\xac", b"\xad"
LOADS = range(0x28, 0x36)
# What each of them stores.
STORES = {0x36: I32, 0x37: I64, 0x38: F32, 0x39: F64, 0x3A: I32, 0x3B: I32, 0x3C: I64, 0x3D: I64, 0x3E: I64}
MEMORY_SIZE, MEMORY_GROW, BRANCH_TABLE, F32_CONST, F64_CONST, MORE, END = 0x3F, 0x40, 0x0E, 0x43, 0x44, 0xFC, 0x0B
MEMORY_COPY, MEMORY_FILL = 10, 11
# unreachable, nop, else, end, return, drop, select, and all that compares, computes and converts
ALONE = {0x00, 0x01, 0x05, END, 0x0F, 0x1A, 0x1B, *range(0x45, 0xC5)}
# block, loop, if, br, br_if, call, those of locals and globals, i32.const, i64.const
WITH_A_NUMBER = {0x02, 0x03, 0x04, 0x0C, 0x0D, 0x10, *range(0x20, 0x25), 0x41, 0x42}


class Refused(Exception):
    """The module has what isn't known here."""


def unsigned(value):
    out = bytearray()
    while value > 127:
        out.append(value & 127 | 128)
        value >>= 7
    return bytes([*out, value])


def signed(value):
    out = bytearray()
    while not -64 <= value < 64:
        out.append(value & 127 | 128)
        value >>= 7
    return bytes([*out, value & 127])


class Reader:
    """Bytes of the module, and how far they are read."""

    def __init__(self, data):
        self.data, self.at = data, 0

    def is_done(self):
        return self.at >= len(self.data)

    def byte(self):
        self.at += 1
        return self.data[self.at - 1]

    def take(self, count):
        self.at += count
        return self.data[self.at - count : self.at]

    def number(self, is_signed=False):
        value = shift = 0
        while True:
            byte = self.byte()
            value |= (byte & 127) << shift
            shift += 7
            if byte < 128:
                return value - (1 << shift) if is_signed and byte & 64 else value

    def raw(self):
        """A number, as it is."""
        start = self.at
        self.number()
        return self.data[start : self.at]

    def many(self, read):
        return [read() for _ in range(self.number())]


# --- Instructions ---


def wait(local):
    return b"\x21" + unsigned(local)


def back(local):
    return b"\x20" + unsigned(local)


def access(code, op):
    """A load or store, whose address is already cut."""
    align, offset = code.raw(), code.number()
    if offset >= 1 << 32:
        raise Refused("an offset of more than 32 bits")
    return bytes([op]) + align + unsigned(offset)


def store(code, op, spare):
    local = spare[STORES[op]]
    return wait(local) + WRAP + back(local) + access(code, op)


def copy_or_fill(code, kind, spare):
    """memory.copy and memory.fill: of three numbers on the stack the first is an address, of memory.copy the second, too."""
    size, value = spare[I64] + 1, spare[I64 if kind == MEMORY_COPY else I32]
    second = WRAP if kind == MEMORY_COPY else b""
    ends = code.take(2 if kind == MEMORY_COPY else 1)
    begin = wait(size) + wait(value) + WRAP
    return begin + back(value) + second + back(size) + WRAP + bytes([MORE, kind]) + ends


def more(code, spare):
    kind = code.number()
    if kind in (MEMORY_COPY, MEMORY_FILL):
        return copy_or_fill(code, kind, spare)
    # (conversions that saturate)
    if kind < 8:
        return bytes([MORE, kind])
    raise Refused(f"the instruction {MORE:#x} {kind}")


def branch_table(code):
    targets = [code.raw() for _ in range(code.number() + 1)]
    return bytes([BRANCH_TABLE]) + unsigned(len(targets) - 1) + b"".join(targets)


def instruction(code, spare):
    """The next instruction, its addresses cut. spare: the number of a local for each type, of two for I64."""
    op = code.byte()
    if op in LOADS:
        return WRAP + access(code, op)
    if op in STORES:
        return store(code, op, spare)
    if op == MEMORY_SIZE:
        return bytes([op]) + code.raw() + EXTEND
    if op == MEMORY_GROW:
        # (a refusal is -1, and stays one)
        return WRAP + bytes([op]) + code.raw() + EXTEND_SIGNED
    if op == MORE:
        return more(code, spare)
    if op == BRANCH_TABLE:
        return branch_table(code)
    if op in (F32_CONST, F64_CONST):
        return bytes([op]) + code.take(4 if op == F32_CONST else 8)
    if op in WITH_A_NUMBER:
        return bytes([op]) + code.raw()
    if op in ALONE:
        return bytes([op])
    raise Refused(f"the instruction {op:#x}")


def function(code, parameters):
    """The code of a function with so many parameters; its new locals come last."""
    groups = code.many(lambda: (code.number(), code.byte()))
    first = parameters + sum(count for count, _ in groups)
    spare = {I64: first, I32: first + 2, F32: first + 3, F64: first + 4}
    groups += [(2, I64), (1, I32), (1, F32), (1, F64)]
    body = bytearray(unsigned(len(groups)) + b"".join(unsigned(count) + bytes([kind]) for count, kind in groups))
    while not code.is_done():
        body += instruction(code, spare)
    return unsigned(len(body)) + bytes(body)


# --- Sections ---


def codes(section, parameters):
    count = section.number()
    if count != len(parameters):
        raise Refused("functions without code")
    return unsigned(count) + b"".join(function(Reader(section.take(section.number())), it) for it in parameters)


def limits(section):
    """The least and perhaps the most of a memory or table, without the flag that it has 64 bits."""
    flags = section.byte()
    if flags & ~5:
        raise Refused("a memory or table of another kind")
    return bytes([flags & 1]) + section.raw() + (section.raw() if flags & 1 else b"")


def memories(section):
    return unsigned(section.number()) + limits(section)


def tables(section):
    count = section.number()
    return unsigned(count) + b"".join(bytes([section.byte()]) + limits(section) for _ in range(count))


def segment(section):
    """A segment of data, whose place is an i64.const."""
    if (section.number(), section.byte()) != (0, 0x42):
        raise Refused("a segment of data without a place")
    place = section.number(is_signed=True)
    if section.byte() != END or not 0 <= place < 1 << 31:
        raise Refused("the place of a segment of data")
    size = section.number()
    return b"\x00\x41" + signed(place) + bytes([END]) + unsigned(size) + section.take(size)


def data(section):
    count = section.number()
    return unsigned(count) + b"".join(segment(section) for _ in range(count))


def parameter_counts(section):
    """How many parameters each type of function has."""
    types = section.many(lambda: (section.byte(), section.many(section.byte), section.many(section.byte)))
    return [len(it[1]) for it in types]


def lowered(module):
    if module[: len(HEAD)] != HEAD:
        raise Refused("what isn't a module")
    rest, out, types, parameters = Reader(module[len(HEAD) :]), bytearray(HEAD), [], []
    lower = {TABLES: tables, MEMORIES: memories, DATA: data, CODES: lambda section: codes(section, parameters)}
    while not rest.is_done():
        kind, text = rest.byte(), rest.take(rest.number())
        if kind in (START, ELEMENTS):
            raise Refused(f"a section of kind {kind}")
        if kind == TYPES:
            types = parameter_counts(Reader(text))
        if kind == FUNCTIONS:
            section = Reader(text)
            parameters = [types[it] for it in section.many(section.number)]
        if kind in lower:
            text = lower[kind](Reader(text))
        out += bytes([kind]) + unsigned(len(text)) + text
    return bytes(out)


if __name__ == "__main__":
    if len(sys.argv) != 3:
        sys.exit(__doc__)
    try:
        Path(sys.argv[2]).write_bytes(lowered(Path(sys.argv[1]).read_bytes()))
    except Refused as why:
        sys.exit(f"lower: the module has {why}")
