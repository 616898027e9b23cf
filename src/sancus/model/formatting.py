"""Lays out a file and has that checked: its tokens and comments stay, and the program compiles the same images."""

from __future__ import annotations

from sancus.model import layout
from sancus.model.asking import Program
from sancus.model.faults import Teller
from sancus.model.kinds import Kind, kind_of
from sancus.model.layout import CantLayOut
from sancus.model.shown import text_of
from sancus.model.texts import MARK, Input, kept_of


def images(program: Program, head: bytes, name: str) -> bytes:
    """The images of a deployment that the program accepts."""
    text = (head if head.endswith(b"\n") or not head else head + b"\n") + MARK + b"\n"
    answer = program.answer(["run"], text)
    if answer.status:
        fault = text_of(answer.lines[-1]) if answer.lines else f"the program ended with status {answer.status}"
        raise CantLayOut(fault, *Teller(kept_of(text, name), "run", program.ask).told(fault))
    return answer.output


def deployment(program: Program, text: bytes, name: str) -> bytes:
    """A deployment laid out, whose images were compared with those of before."""
    head = Input(text).head
    before = images(program, head, name)
    made = layout.deployment(head)
    if made != head and images(program, made, name) != before:
        raise CantLayOut("its images would change")
    return made + text[len(head) :]


def property_text(text: bytes) -> bytes:
    """A property laid out."""
    source = text_of(text.replace(b"\r\n", b"\n"))
    made = layout.laid_out(source, is_property=True).encode(errors="surrogateescape")
    return made.replace(b"\n", b"\r\n") if b"\r\n" in text else made


def formatted(program: Program, name: str, text: bytes) -> bytes:
    """A file laid out. CantLayOut says why it stays as it is."""
    kind = kind_of(name, text)
    if kind in (Kind.LINES, Kind.OTHER):
        raise CantLayOut("it has lines of a schedule and no source" if kind is Kind.LINES else "it is no deployment")
    return property_text(text) if kind is Kind.PROPERTY else deployment(program, text, name)
