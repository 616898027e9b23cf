"""A handler as a circuit: all its ways at once, each act with the condition under which it is done."""

from __future__ import annotations

from typing import Callable, Dict, List, NamedTuple, Optional, Tuple

from sancus.model.circuits import TRUE, Bit, Circuit, Word, constant
from sancus.model.language import Applied, Constant, Element, Emit, Expression, If, Let, Module, Repeat, Send
from sancus.model.language import Statement, Store, Variable
from sancus.records import dataclass, field

Cells = Dict[str, List[Word]]


class Guarded(NamedTuple):
    """An act, and when it is done: `output` is none for an emit."""

    guard: Bit
    output: Optional[str]
    value: Word


@dataclass
class Handling:
    """A handler at work."""

    circuit: Circuit
    cells: Cells
    local: Dict[str, Word]
    guard: Bit = TRUE
    acts: List[Guarded] = field(default_factory=list)

    def value(self, it: Expression) -> Word:
        if isinstance(it, Constant):
            return constant(it.value)
        if isinstance(it, Variable):
            return self.local[it.name] if it.name in self.local else self.cells[it.name][0]
        if isinstance(it, Element):
            index, made = self.value(it.index), constant(0)
            for i, cell in enumerate(self.cells[it.name]):
                made = self.circuit.select(self.circuit.equal(index, constant(i)), cell, made)
            return made
        if isinstance(it, Applied):
            return self.applied(it.sign, self.value(it.operand))
        return self.combined(it.sign, self.value(it.left), self.value(it.right))

    def applied(self, sign: str, a: Word) -> Word:
        if sign == "!":
            return self.word(self.circuit.nonzero(a) ^ 1)
        return [it ^ 1 for it in a] if sign == "~" else self.circuit.subtract(constant(0), a)

    def combined(self, sign: str, a: Word, b: Word) -> Word:
        c = self.circuit
        words: Dict[str, Callable[[], Word]] = {
            "+": lambda: c.add(a, b),
            "-": lambda: c.subtract(a, b),
            "*": lambda: c.multiply(a, b),
            "&": lambda: [c.both(x, y) for x, y in zip(a, b)],
            "|": lambda: [c.either(x, y) for x, y in zip(a, b)],
            "^": lambda: [c.differ(x, y) for x, y in zip(a, b)],
        }
        bits: Dict[str, Callable[[], Bit]] = {
            "==": lambda: c.equal(a, b),
            "!=": lambda: c.equal(a, b) ^ 1,
            "<": lambda: c.below(a, b),
            ">": lambda: c.below(b, a),
            "<=": lambda: c.below(b, a) ^ 1,
            ">=": lambda: c.below(a, b) ^ 1,
        }
        return words[sign]() if sign in words else self.word(bits[sign]())

    def word(self, bit: Bit) -> Word:
        return [bit, *constant(0)[1:]]

    def block(self, block: List[Statement]) -> None:
        names = set(self.local)
        for it in block:
            self.statement(it)
        self.local = {name: it for name, it in self.local.items() if name in names}

    def statement(self, it: Statement) -> None:
        if isinstance(it, If):
            self.choice(it)
        elif isinstance(it, Repeat):
            for _ in range(it.count):
                self.block(it.body)
        elif isinstance(it, (Send, Emit)):
            output = it.output if isinstance(it, Send) else None
            self.acts.append(Guarded(self.guard, output, self.value(it.value)))
        elif isinstance(it, Store):
            self.store(it)
        elif isinstance(it, Let) or it.name in self.local:  # type: ignore[union-attr]
            self.local[it.name] = self.value(it.value)  # type: ignore[union-attr]
        else:
            self.cells[it.name] = [self.value(it.value)]  # type: ignore[union-attr]

    def store(self, it: Store) -> None:
        index, value = self.value(it.index), self.value(it.value)
        self.cells[it.name] = [
            self.circuit.select(self.circuit.equal(index, constant(i)), value, cell)
            for i, cell in enumerate(self.cells[it.name])
        ]

    def choice(self, it: If) -> None:
        """Both ways, and then what each variable is after the one that is taken."""
        c, before = self.circuit, self.guard
        test = c.nonzero(self.value(it.test))
        cells, local = {name: list(some) for name, some in self.cells.items()}, dict(self.local)
        self.guard = c.both(before, test)
        self.block(it.then)
        then_cells, then_local = self.cells, self.local
        self.cells, self.local, self.guard = cells, local, c.both(before, test ^ 1)
        self.block(it.other)
        self.guard = before
        self.cells = {
            name: [c.select(test, x, y) for x, y in zip(then_cells[name], some)] for name, some in self.cells.items()
        }
        self.local = {name: c.select(test, then_local[name], other) for name, other in self.local.items()}


def reacted(
    circuit: Circuit, module: Module, event: Optional[str], value: Word, cells: Cells
) -> Tuple[Cells, List[Guarded]]:
    """New cells, and the acts of the handler of an input, or of the samples."""
    handler = module.handler_of(event)
    own = {name: list(some) for name, some in cells.items()}
    if not handler:
        return own, []
    made = Handling(circuit, own, {handler.parameter: value})
    made.block(handler.body)
    return made.cells, made.acts


def most_acts(block: List[Statement], kind: type, is_sum: bool) -> int:
    """How often a block does an act of a kind at most; or of both ways together."""
    total = 0
    for it in block:
        if isinstance(it, If):
            ways = most_acts(it.then, kind, is_sum), most_acts(it.other, kind, is_sum)
            total += sum(ways) if is_sum else max(ways)
        elif isinstance(it, Repeat):
            total += it.count * most_acts(it.body, kind, is_sum)
        else:
            total += isinstance(it, kind)
    return total
