"""The lines of a schedule and the queries of `snap`: which words they have, and what each takes."""

from __future__ import annotations

import re
from typing import Dict, List, Optional, Protocol

from sancus.model.numbers import number
from sancus.records import dataclass

REGISTERS = ["pc", "sp", "sr", "r0", "r1", "r2", *(f"r{it}" for it in range(4, 16))]


@dataclass(frozen=True)
class Field:
    """A field of a line: its name, and for a number the least and the greatest."""

    name: str
    least: int = 0
    greatest: int = 0

    @property
    def is_number(self) -> bool:
        return self.greatest > 0 and self.name != "HEX"


NODE, MODULE, DEVICE, REGISTER, TEXT = (Field(it) for it in ("NODE", "MODULE", "DEVICE", "REGISTER", "TEXT"))


def word(name: str) -> Field:
    return Field(name, 0, 65535)


def count(name: str) -> Field:
    return Field(name, 0, 2**32 - 1)


ACTS: Dict[str, List[Field]] = {
    "run": [NODE, Field("STEPS", 1, 65535)],
    "finish": [NODE],
    "put": [NODE, word("ADDRESS"), Field("HEX", 1, 1024)],
    "asm": [NODE, word("ADDRESS"), TEXT],
    "set": [NODE, REGISTER, word("VALUE")],
    "take": [NODE, word("ADDRESS"), Field("LENGTH", 1, 384)],
    "give": [count("PACKET"), NODE, word("ADDRESS")],
    "forge": [Field("HEX", 1, 384)],
    "sense": [DEVICE, Field("VALUE", 0, 32767)],
    "irq": [NODE, Field("LINE", 0, 14)],
    "reset": [NODE],
    "ask": [MODULE],
    "answer": [MODULE, count("BOOT"), count("PACKET")],
    "load": [MODULE],
    "call": [MODULE, word("ENTRY"), word("IN"), word("OUT")],
}
LINE = Field("L", 0, 65536)
QUERIES: Dict[str, List[Field]] = {
    "regs": [NODE, LINE],
    "bytes": [NODE, word("AT"), Field("LEN", 1, 64), LINE],
    "items": [Field("L", 1, 65536)],
}


class Names(Protocol):
    """The names of a deployment, accepted or not."""

    @property
    def sensors(self) -> List[str]:
        """The names of its sensors."""

    def names(self, kind: str) -> List[str]:
        """The names of its nodes, devices, modules or connections."""


@dataclass(frozen=True)
class Word:
    """A word of a line, with its byte column from 1."""

    text: str
    column: int


def words_at(line: bytes) -> List[Word]:
    return [Word(it.group().decode(errors="surrogateescape"), it.start() + 1) for it in re.finditer(rb"[^ \t]+", line)]


def names_for(field: Field, known: Names) -> List[str]:
    return known.sensors if field is DEVICE else known.names(field.name.lower())


def suits(field: Field, text: str, known: Optional[Names]) -> bool:
    """Whether a word suits a field."""
    if field.name == "HEX":
        return bool(re.fullmatch(r"([0-9A-Fa-f]{2})+", text)) and len(text) <= 2 * field.greatest
    if field.is_number:
        value = number(text)
        return value is not None and field.least <= value <= field.greatest
    if field is REGISTER:
        return text in REGISTERS
    return field is TEXT or known is None or text in names_for(field, known)


def told(field: Field, known: Optional[Names]) -> str:
    """What a field takes, in words."""
    if field.name == "HEX":
        return f"1 to {field.greatest:,} bytes, two hexadecimal digits each"
    if field.is_number:
        return f"{field.name}, a number from {field.least:,} to {field.greatest:,}"
    if field is REGISTER:
        return "a register: " + " ".join(REGISTERS)
    what = "sensor" if field is DEVICE else field.name.lower()
    return f"a {what}: {' '.join(names_for(field, known))}" if known and field is not TEXT else f"a {field.name.lower()}"


def fields_told(first: str, table: Dict[str, List[Field]]) -> str:
    return " ".join([first, *(it.name for it in table.get(first, []))])
