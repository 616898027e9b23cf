"""A deployment and a property as one circuit, a move a step: for tools that prove what holds of all its states.

Its moves are those of src/sancus/model/moves.py, with connections of few words of which each may be lost at any time.
"""

from __future__ import annotations

import random
from typing import Dict, Iterator, List, NamedTuple, Optional, Tuple, Union

from sancus.model.circuits import FALSE, TRUE, WIDTH, Bit, Circuit, Word, constant
from sancus.model.handling import Cells, most_acts, reacted
from sancus.model.described import Connection
from sancus.model.language import Emit, Send
from sancus.model.meaning import first_cells
from sancus.model.moves import Moves
from sancus.records import dataclass, field

Key = Tuple[object, ...]
Values = Dict[Key, Union[Bit, Word]]


class Variable(NamedTuple):
    """A variable of the state, with its width and its first value."""

    key: Key
    width: int
    first: int


class Effect(NamedTuple):
    """A move: when it is possible, what it changes, and the items with the condition of each."""

    possible: Bit
    changes: Values
    items: List[Tuple[Bit, str, str, Word]]


@dataclass
class System:
    """All moves of a deployment with `room` words a connection; `seed` gives variables and moves another order."""

    moves: Moves
    room: int = 1
    seed: int = 0
    start: Dict[Key, int] = field(default_factory=dict)

    def __post_init__(self) -> None:
        self.circuit = Circuit()
        self.property = self.moves.property
        self.emits = {m: self.most_emits(m) for m in self.moves.modules}
        self.tracked = [
            it for it in self.moves.sensors if self.property.sees("sense", it) or self.property.sees("drain", it)
        ]
        self.variables, self.all_moves = list(self.all_variables()), list(self.possible_moves())
        if self.seed:
            random.Random(self.seed).shuffle(self.variables)
            random.Random(self.seed).shuffle(self.all_moves)
        self.keys = {it.key for it in self.variables}
        self.firsts = {it.key: it.first for it in self.variables}
        self.build()

    def most_emits(self, module: str) -> int:
        if not self.moves.is_watched_out(module):
            return 0
        return max([most_acts(it.body, Emit, False) for it in self.moves.trees[module].handlers] + [0])

    # --- The state ---

    def all_variables(self) -> Iterator[Variable]:
        for m in self.moves.modules:
            yield Variable(("present", m), 1, 0)
            if self.moves.attests(m):
                yield from (Variable((it, m), 1, 0) for it in ("attested", "known"))
            if self.property.sees("attested", m):
                yield Variable(("late", m), 1, 0)
            for name, values in first_cells(self.moves.trees[m]).items():
                yield from (Variable(("cell", m, name, i), WIDTH, it) for i, it in enumerate(values))
            if not self.moves.is_whole:
                yield from self.slots("owed", m, self.emits[m])
        for it in self.tracked:
            yield from (Variable(("fresh", it), 1, 0), Variable(("value", it), WIDTH, 0))
        for link in self.moves.links:
            yield from self.slots("way", link.name, self.room)
        for name, values in first_cells(self.property.module).items():
            yield from (Variable(("seen", name, i), WIDTH, it) for i, it in enumerate(values))
        yield Variable(("ended",), 1, 0)

    def slots(self, kind: str, name: str, count: int) -> Iterator[Variable]:
        """A queue: which places hold a word, and the words."""
        yield from (Variable((kind, name, i, "is"), 1, 0) for i in range(count))
        yield from (Variable((kind, name, i), WIDTH, 0) for i in range(count))

    def possible_moves(self) -> Iterator[Tuple[object, ...]]:
        moves = self.moves
        for m in moves.modules:
            yield ("protect", m)
            yield from ([("attested", m)] if moves.attests(m) else [])
            yield from ([("late", m)] if self.property.sees("attested", m) else [])
            yield from ([("read", m)] if m in moves.sensor_of else [])
            yield from ([("out", m)] if self.emits[m] and not moves.is_whole else [])
        yield from (("sense", it) for it in self.tracked)
        for link in moves.links:
            yield ("take", link.name)
            yield from (("lose", link.name, i) for i in range(self.room))
        yield from (it for it in sorted(self.property.watched) if it[0] in ("raw", "drain"))
        nodes = {moves.nodes[it] for it in (*moves.modules, *self.tracked)}
        nodes |= {name for kind, name in self.property.watched if kind == "reset"}
        yield from (("reset", it) for it in moves.deployment.nodes if it in nodes)

    # --- The circuit ---

    def build(self) -> None:
        c = self.circuit
        width = max(1, (len(self.all_moves) - 1).bit_length())
        self.move_bits, self.given = [c.input() for _ in range(width)], [c.input() for _ in range(WIDTH)]
        sends = [
            sum(most_acts(it.body, Send, True) for _ in self.moves.links)
            for m in self.moves.modules
            for it in self.moves.trees[m].handlers
        ]
        self.lost = [c.input() for _ in range(max([0, *sends]))]
        self.state: Values = {}
        for it in self.variables:
            first = self.start.get(it.key, it.first)
            bits = [c.latch() ^ ((first >> i) & 1) for i in range(it.width)]
            self.state[it.key] = bits[0] if it.width == 1 else bits
        self.after, self.bad = dict(self.state), FALSE
        self.possible: List[Bit] = []
        for number, move in enumerate(self.all_moves):
            self.add_move(number, move)
        self.wire()

    def add_move(self, number: int, move: Tuple[object, ...]) -> None:
        c = self.circuit
        effect = self.effect(move)
        self.possible.append(effect.possible)
        chosen = c.both(c.equal(self.move_bits, constant(number, len(self.move_bits))), effect.possible)
        changes, breaks = self.seen(effect)
        for key, value in changes.items():
            self.after[key] = self.chosen(chosen, value, self.after[key])
        self.bad = c.either(self.bad, c.both(chosen, breaks))

    def chosen(self, test: Bit, a: Union[Bit, Word], b: Union[Bit, Word]) -> Union[Bit, Word]:
        if isinstance(a, list) and isinstance(b, list):
            return self.circuit.select(test, a, b)
        assert isinstance(a, int) and isinstance(b, int)
        return self.circuit.choose(test, a, b)

    def wire(self) -> None:
        at = 0
        for it in self.variables:
            value = self.after[it.key]
            first = self.start.get(it.key, it.first)
            for i, bit in enumerate(value if isinstance(value, list) else [value]):
                self.circuit.next[at] = bit ^ ((first >> i) & 1)
                at += 1

    def bit(self, key: Key, changes: Optional[Values] = None) -> Bit:
        found = (changes or {}).get(key, self.state.get(key, TRUE))
        assert isinstance(found, int)
        return found

    def word(self, key: Key, changes: Optional[Values] = None) -> Word:
        found = (changes or {}).get(key, self.state[key])
        assert isinstance(found, list)
        return found

    # --- The property ---

    def seen(self, effect: Effect) -> Tuple[Values, Bit]:
        """The property sees a move's items."""
        c, changes = self.circuit, dict(effect.changes)
        cells: Cells = {
            name: [self.word(("seen", name, i)) for i in range(len(values))]
            for name, values in first_cells(self.property.module).items()
        }
        ended, breaks = self.bit(("ended",)), FALSE
        for guard, kind, name, value in effect.items:
            if not self.property.sees(kind, name):
                continue
            after, acts = reacted(c, self.property.module, f"{kind} {name}", value, cells)
            over = FALSE
            for act in acts:
                live = c.all([guard, act.guard, ended ^ 1, over ^ 1])
                breaks = c.either(breaks, c.both(live, c.nonzero(act.value)))
                over = c.either(over, c.both(live, c.nonzero(act.value) ^ 1))
            ended = c.either(ended, over)
            cells = {name: [c.select(guard, y, x) for x, y in zip(some, after[name])] for name, some in cells.items()}
        changes.update({("seen", name, i): it for name, some in cells.items() for i, it in enumerate(some)})
        changes[("ended",)] = ended
        return changes, breaks

    # --- Moves ---

    def is_idle(self, module: str) -> Bit:
        most = 0 if self.moves.is_whole else self.emits[module]
        owed = [self.bit(("owed", module, i, "is")) ^ 1 for i in range(most)]
        return self.circuit.all([self.bit(("present", module)), *owed])

    def push(self, changes: Values, kind: str, name: str, size: int, guard: Bit, value: Word) -> None:
        """A word at the end of a queue; lost if there is no room."""
        free = guard
        for i in range(size):
            full = self.bit((kind, name, i, "is"), changes)
            here = self.circuit.both(free, full ^ 1)
            word = self.word((kind, name, i), changes)
            changes[kind, name, i, "is"] = self.circuit.either(full, here)
            changes[kind, name, i] = self.circuit.select(here, value, word)
            free = self.circuit.both(free, full)

    def shift(self, kind: str, name: str, size: int, at: int = 0) -> Values:
        """A queue without its word at a place."""
        made: Values = {}
        for i in range(at, size):
            is_last = i == size - 1
            made[kind, name, i, "is"] = FALSE if is_last else self.bit((kind, name, i + 1, "is"))
            made[kind, name, i] = constant(0) if is_last else self.word((kind, name, i + 1))
        return made

    def handled(
        self, possible: Bit, changes: Values, item: Tuple[str, str, Word], module: str, event: Optional[str]
    ) -> Effect:
        kind, name, value = item
        cells: Cells = {
            cell: [self.word(("cell", module, cell, i)) for i in range(len(values))]
            for cell, values in first_cells(self.moves.trees[module]).items()
        }
        after, acts = reacted(self.circuit, self.moves.trees[module], event, value, cells)
        changes.update({("cell", module, cell, i): it for cell, some in after.items() for i, it in enumerate(some)})
        items, lost = [(TRUE, kind, name, value)], iter(self.lost)
        for act in acts:
            if act.output is not None:
                for link in self.moves.links:
                    if (link.sender, link.output) == (module, act.output):
                        self.send(changes, link, act.guard, act.value, next(lost))
            elif self.moves.is_whole:
                items.append((act.guard, "out", module, act.value))
            else:
                self.push(changes, "owed", module, self.emits[module], act.guard, act.value)
        return Effect(possible, changes, items)

    def send(self, changes: Values, link: Connection, guard: Bit, value: Word, is_lost: Bit) -> None:
        c, to = self.circuit, link.receiver
        keyless = c.both(self.bit(("known", to)), self.bit(("attested", to)) ^ 1)
        own = self.bit(("attested", link.sender)) if ("attested", link.sender) in self.keys else TRUE
        self.push(changes, "way", link.name, self.room, c.all([guard, is_lost ^ 1, keyless ^ 1, own]), value)

    def undriven(self, device: str) -> Bit:
        driver = self.moves.drivers.get(device)
        return self.bit(("present", driver)) ^ 1 if driver is not None else TRUE

    def effect(self, move: Tuple[object, ...]) -> Effect:
        kind, name = str(move[0]), str(move[1])
        c, zero, item = self.circuit, constant(0), [(TRUE, kind, name, constant(0))]
        attested = self.bit(("attested", name))
        reading = [*self.given[:15], FALSE]
        if kind == "protect":
            return Effect(self.bit(("present", name)) ^ 1, {("present", name): TRUE}, item)
        if kind == "attested":
            changes: Values = {("attested", name): TRUE, ("known", name): TRUE}
            changes.update({("late", name): FALSE} if ("late", name) in self.keys else {})
            return Effect(c.both(self.is_idle(name), attested ^ 1), changes, item)
        if kind == "late":
            possible = c.both(self.bit(("late", name)), attested ^ 1)
            return Effect(possible, {("known", name): TRUE}, [(TRUE, "attested", name, zero)])
        if kind == "sense":
            return Effect(TRUE, {("fresh", name): TRUE, ("value", name): reading}, [(TRUE, kind, name, reading)])
        if kind == "drain":
            return Effect(c.both(self.undriven(name), self.bit(("fresh", name))), {("fresh", name): FALSE}, item)
        if kind == "raw":
            return Effect(self.undriven(name), {}, [(TRUE, kind, name, self.given)])
        if kind == "read":
            return self.read(name, reading)
        if kind == "take":
            return self.take(name)
        if kind == "out":
            word = self.word(("owed", name, 0))
            shifted = self.shift("owed", name, self.emits[name])
            return Effect(self.bit(("owed", name, 0, "is")), shifted, [(TRUE, kind, name, word)])
        if kind == "lose":
            at = int(str(move[2]))
            return Effect(self.bit(("way", name, at, "is")), self.shift("way", name, self.room, at), [])
        return Effect(TRUE, self.reset(name), item)

    def read(self, module: str, reading: Word) -> Effect:
        sensor = self.moves.sensor_of[module]
        changes: Dict[Tuple[object, ...], Union[int, List[int]]] = {}
        possible = self.is_idle(module)
        if sensor in self.tracked:
            reading, possible = self.word(("value", sensor)), self.circuit.both(possible, self.bit(("fresh", sensor)))
            changes = {("fresh", sensor): FALSE}
        return self.handled(possible, dict(changes), ("read", module, reading), module, None)

    def take(self, name: str) -> Effect:
        link = self.moves.links[self.moves.link_index[name]]
        ready = [self.is_idle(link.receiver), self.bit(("attested", link.receiver)), self.bit(("way", name, 0, "is"))]
        word = self.word(("way", name, 0))
        changes = self.shift("way", name, self.room)
        return self.handled(self.circuit.all(ready), changes, ("take", name, word), link.receiver, link.input)

    def reset(self, node: str) -> Values:
        made: Values = {}
        c = self.circuit
        here = [m for m in self.moves.modules if self.moves.nodes[m] == node]
        for it in self.variables:
            kind, name = str(it.key[0]), str(it.key[1]) if it.key[1:] else ""
            if kind in ("present", "attested", "cell", "owed") and name in here:
                made[it.key] = constant(it.first) if it.width > 1 else FALSE
            elif kind == "late" and name in here:
                gone = c.both(self.bit(("present", name)), self.bit(("attested", name)) ^ 1)
                made[it.key] = c.either(self.bit(it.key), gone)
            elif kind == "fresh" and self.moves.nodes[name] == node:
                made[it.key] = FALSE
            elif kind == "way" and self.moves.links[self.moves.link_index[name]].receiver in here:
                keep = self.bit(("known", self.moves.links[self.moves.link_index[name]].receiver)) ^ 1
                value = self.state[it.key]
                none: Union[Bit, Word] = constant(0) if it.width > 1 else FALSE
                made[it.key] = self.chosen(keep, value, none)
        return made
