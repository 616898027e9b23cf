"""What a handler does at an event, by docs/LANGUAGE.md: for words about a trace, never in place of the program's own
judgement.
"""

from __future__ import annotations

from typing import Callable, Dict, List, Optional, Tuple

from sancus.model.language import Applied, Assign, Constant, Element, Emit, Expression, If, Let, Module, Repeat, Send
from sancus.model.language import Statement, Store, Variable
from sancus.records import dataclass, field

WORD = 0xFFFF
COMBINED: Dict[str, Callable[[int, int], int]] = {
    "+": lambda a, b: (a + b) & WORD,
    "-": lambda a, b: (a - b) & WORD,
    "*": lambda a, b: (a * b) & WORD,
    "|": lambda a, b: a | b,
    "^": lambda a, b: a ^ b,
    "&": lambda a, b: a & b,
    "==": lambda a, b: int(a == b),
    "!=": lambda a, b: int(a != b),
    "<": lambda a, b: int(a < b),
    "<=": lambda a, b: int(a <= b),
    ">": lambda a, b: int(a > b),
    ">=": lambda a, b: int(a >= b),
}
APPLIED: Dict[str, Callable[[int], int]] = {
    "-": lambda a: -a & WORD,
    "~": lambda a: ~a & WORD,
    "!": lambda a: int(a == 0),
}
# An act: what is sent to an output, or emitted.
Act = Tuple[str, str, int]


def first_cells(module: Module) -> Dict[str, List[int]]:
    return {it.name: [0] * it.value if it.kind == "array" else [it.value] for it in module.cells()}


@dataclass
class Reaction:
    """A handler at work: the module's cells, the locals in sight, and the acts so far."""

    cells: Dict[str, List[int]]
    local: Dict[str, int] = field(default_factory=dict)
    acts: List[Act] = field(default_factory=list)

    def value(self, it: Expression) -> int:
        if isinstance(it, Constant):
            return it.value
        if isinstance(it, Variable):
            return self.local[it.name] if it.name in self.local else self.cells[it.name][0]
        if isinstance(it, Element):
            index, cells = self.value(it.index), self.cells[it.name]
            return cells[index] if index < len(cells) else 0
        if isinstance(it, Applied):
            return APPLIED[it.sign](self.value(it.operand))
        return COMBINED[it.sign](self.value(it.left), self.value(it.right))

    def block(self, block: List[Statement]) -> None:
        before = set(self.local)
        for it in block:
            self.statement(it)
        self.local = {name: value for name, value in self.local.items() if name in before}

    def statement(self, it: Statement) -> None:
        if isinstance(it, If):
            self.block(it.then if self.value(it.test) else it.other)
        elif isinstance(it, Repeat):
            for _ in range(it.count):
                self.block(it.body)
        elif isinstance(it, Send):
            self.acts.append(("send", it.output, self.value(it.value)))
        elif isinstance(it, Emit):
            self.acts.append(("emit", "", self.value(it.value)))
        elif isinstance(it, Store):
            index, cells = self.value(it.index), self.cells[it.name]
            value = self.value(it.value)
            if index < len(cells):
                cells[index] = value
        elif isinstance(it, (Let, Assign)):
            self.assign(it.name, self.value(it.value), isinstance(it, Let))

    def assign(self, name: str, value: int, is_new: bool) -> None:
        if is_new or name in self.local:
            self.local[name] = value
        else:
            self.cells[name] = [value]


def react(module: Module, event: Optional[str], value: int, cells: Dict[str, List[int]]) -> List[Act]:
    """The acts of the handler of an input, or of the samples; it changes the cells."""
    handler = module.handler_of(event)
    if not handler:
        return []
    reaction = Reaction(cells, {handler.parameter: value})
    for it in handler.body:
        reaction.statement(it)
    return reaction.acts
