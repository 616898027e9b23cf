"""A property: handlers that stand at items of a trace, as docs/PROPERTIES.md has them.

It means what a plain module does: each heading is an input, `fail` is an `emit` of its line, and `assume TEST` is
`if !(TEST) { emit 0; }`. The program judges; this finds runs to show it, and words for its answers.
"""

from __future__ import annotations

from typing import Dict, Iterable, List, NamedTuple, Optional, Tuple

from sancus.model import language
from sancus.model.language import Applied, Assume, Constant, Declared, Emit, Fail, If, Module, Repeat, Statement
from sancus.model.meaning import first_cells, react
from sancus.model.rules import walk
from sancus.records import dataclass, field, replace

# Cells that can't be changed, as a search keeps them: the values of each variable and array, in order.
Cells = Tuple[Tuple[int, ...], ...]


class Watched(NamedTuple):
    """An item as a property sees it; without a value it has 0."""

    kind: str
    name: str
    value: int = 0


class Seen(NamedTuple):
    """A property after an item: its cells; 0 if nothing is asked any more, or the line at which it is broken."""

    cells: Cells
    verdict: Optional[int]


def frozen(cells: Dict[str, List[int]]) -> Cells:
    return tuple(tuple(it) for it in cells.values())


def thawed(module: Module, cells: Cells) -> Dict[str, List[int]]:
    return {it.name: list(values) for it, values in zip(module.cells(), cells)}


def plain_statement(it: Statement, source: str) -> Statement:
    def block(some: List[Statement]) -> List[Statement]:
        return [plain_statement(inner, source) for inner in some]

    if isinstance(it, Fail):
        line = min(language.place_of(source, it.at)[0], language.GREATEST)
        return If(Constant(1, it.at), [Emit(Constant(line, it.at), it.at)], [], it.at)
    if isinstance(it, Assume):
        return If(Applied("!", it.test, it.at), [Emit(Constant(0, it.at), it.at)], [], it.at)
    if isinstance(it, If):
        return If(it.test, block(it.then), block(it.other), it.at)
    return replace(it, body=block(it.body)) if isinstance(it, Repeat) else it


def plain(tree: Module, source: str) -> Module:
    """The module of the handler language that a property is."""
    inputs = [Declared("input", str(it.input), 0, it.at) for it in tree.handlers]
    bodies = [[plain_statement(inner, source) for inner in it.body] for it in tree.handlers]
    handlers = [replace(it, body=body) for it, body in zip(tree.handlers, bodies)]
    return Module([*tree.declared, Declared("actuator", "", 0, 0), *inputs], handlers)


@dataclass
class Property:
    """A property that the program accepts."""

    name: str
    source: str
    known: Dict[Tuple[Watched, Cells], Seen] = field(default_factory=dict)

    def __post_init__(self) -> None:
        self.tree = language.parse_property(self.source)
        self.module = plain(self.tree, self.source)
        self.headings = [it.heading for it in self.tree.handlers if it.heading]
        self.watched = {(it.kind, it.name) for it in self.headings}

    @property
    def failing(self) -> List[Tuple[str, str]]:
        """The items at which it may be broken, by their kinds and names."""
        handlers = [it for it in self.tree.handlers if any(isinstance(part, Fail) for part in walk(it.body))]
        return [(it.heading.kind, it.heading.name) for it in handlers if it.heading]

    def sees(self, kind: str, name: str) -> bool:
        return (kind, name) in self.watched

    def unseen(self) -> Cells:
        return frozen(first_cells(self.module))

    def see(self, cells: Cells, item: Watched) -> Seen:
        """What the handler of an item does with it; an item without one changes nothing."""
        if (item.kind, item.name) not in self.watched:
            return Seen(cells, None)
        found = self.known.get((item, cells))
        if found is None:
            now = thawed(self.module, cells)
            acts = react(self.module, f"{item.kind} {item.name}", item.value, now)
            found = self.known[item, cells] = Seen(frozen(now), acts[0][2] if acts else None)
        return found

    def judged(self, items: Iterable[Watched]) -> Optional[int]:
        """The line at which the property is broken by some items."""
        cells = self.unseen()
        for it in items:
            cells, verdict = self.see(cells, it)
            if verdict is not None:
                return verdict or None
        return None


def watched_of(text: str) -> Watched:
    """An item of a trace as a property sees it."""
    words = text.split(" ")
    kind = words[0]
    at = 2 if kind in ("take", "protect") else 1
    value = words[-1] if kind in language.VALUED else "0"
    return Watched(kind, words[at] if len(words) > at else "", int(value) if value.isdigit() else 0)
