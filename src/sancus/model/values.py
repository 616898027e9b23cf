"""Which readings a search tries: those at which a handler, or the property, begins to do something else."""

from __future__ import annotations

from typing import Dict, Iterator, List, Optional, Set, Tuple

from sancus.model import language
from sancus.model.language import COMPARED, Combined, Constant, Element, Expression, If, Module, Statement, subexpressions
from sancus.model.meaning import Reaction, first_cells
from sancus.model.moves import Moves
from sancus.model.rules import walk
from sancus.records import dataclass, field

# The greatest reading of a sensor.
GREATEST = 32767
# No more deliveries are followed from one reading.
MOST_DELIVERED = 24
Outcomes = Tuple[object, ...]


def constants(module: Module) -> Iterator[int]:
    """The numbers of a source."""
    yield from (it.value for it in module.declared if it.kind == "var")
    for handler in module.handlers:
        for it in walk(handler.body):
            for whole in language.expressions_of(it):
                yield from (part.value for part in subexpressions(whole) if isinstance(part, Constant))


@dataclass
class Traced(Reaction):
    """A handler at work that notes which way each test and comparison goes."""

    outcomes: List[object] = field(default_factory=list)

    def value(self, it: Expression) -> int:
        made = super().value(it)
        if isinstance(it, Combined) and it.sign in COMPARED:
            self.outcomes.append(made)
        elif isinstance(it, Element):
            self.outcomes.append(min(self.value(it.index), len(self.cells[it.name])))
        return made

    def statement(self, it: Statement) -> None:
        if isinstance(it, If):
            self.outcomes.append(self.value(it.test) != 0)
        super().statement(it)


@dataclass
class Values:
    """The readings of each sensor, by what happens if one of them comes first and everything is delivered."""

    moves: Moves
    numbers: List[int] = field(default_factory=list)

    def __post_init__(self) -> None:
        modules = [self.moves.property.module, *self.moves.trees.values()]
        found: Set[int] = {0, 1, GREATEST}
        for number in (it for module in modules for it in constants(module)):
            found.update((number - 1, number, number + 1))
        self.numbers = sorted(it for it in found if 0 <= it <= GREATEST)

    def traced(self, module: Module, event: Optional[str], value: int) -> Traced:
        made = Traced(first_cells(module))
        handler = module.handler_of(event)
        if handler:
            made.local[handler.parameter] = value
            made.block(handler.body)
        return made

    def outcomes(self, sensor: str, value: int) -> Outcomes:
        """What a first reading makes happen, told by the ways of all tests."""
        driver = self.moves.drivers.get(sensor)
        noted: List[object] = self.traced(self.moves.property.module, f"sense {sensor}", value).outcomes
        left: List[Tuple[str, Optional[str], int]] = []
        if driver in self.moves.modules:
            left.append((str(driver), None, value))
        for _ in range(MOST_DELIVERED):
            if not left:
                break
            module, event, word = left.pop(0)
            made = self.traced(self.moves.trees[module], event, word)
            noted += [module, *made.outcomes]
            for kind, output, sent in made.acts:
                if kind == "emit":
                    noted += self.traced(self.moves.property.module, f"out {module}", sent).outcomes
                left += [
                    (it.receiver, it.input, sent)
                    for it in self.moves.links
                    if kind == "send" and (it.sender, it.output) == (module, output)
                ]
        return tuple(noted)

    def of(self, sensor: str) -> Tuple[List[int], List[int]]:
        """Of each kind of reading the smallest; and the smallest and the greatest."""
        known = {it: self.outcomes(sensor, it) for it in self.numbers}
        for low, high in zip(self.numbers, self.numbers[1:]):
            if known[low] != known[high]:
                self.bisect(sensor, low, high, known)
        kinds: Dict[Outcomes, List[int]] = {}
        for it in sorted(known):
            kinds.setdefault(known[it], []).append(it)
        few = sorted(it[0] for it in kinds.values())
        return few, sorted({end for it in kinds.values() for end in (it[0], it[-1])})

    def bisect(self, sensor: str, low: int, high: int, known: Dict[int, Outcomes]) -> None:
        """Finds where between two readings another kind begins."""
        first = known[low]
        while high - low > 1:
            middle = (low + high) // 2
            known[middle] = self.outcomes(sensor, middle)
            low, high = (middle, high) if known[middle] == first else (low, middle)


def of_actuator(moves: Moves) -> List[int]:
    """Words that other code may write to an actuator."""
    found = {0, 1}
    for number in constants(moves.property.module):
        found.update((number, number + 1))
    return sorted(it for it in found if 0 <= it <= 65535)
