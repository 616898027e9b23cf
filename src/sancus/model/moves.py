"""What may come next in a legal run, as a search takes it: the sources' state without epochs and numbers.

A connection is a queue from which the network may take any word and lose those before it: epochs and numbers order
words so, and a reset only tells which of them are lost for good.
"""

from __future__ import annotations

from typing import Callable, Dict, List, NamedTuple, Optional, Set, Tuple

from sancus.model.described import Deployment
from sancus.model.meaning import Act, first_cells, react
from sancus.model.property import Cells, Property, Watched, frozen, thawed
from sancus.records import dataclass, field


class Move(NamedTuple):
    """A move: of `sense` and `raw` with the value, of `take` with how many words of the queue are lost before it."""

    kind: str
    name: str
    value: int = 0


class Standing(NamedTuple):
    """A module: whether it is protected, attested at this boot and ever, whether an answer of an earlier boot may be on
    its way, its cells, and what it still owes to its actuator."""

    is_present: bool
    is_attested: bool
    is_known: bool
    is_late: bool
    cells: Cells
    owed: Tuple[int, ...]


class State(NamedTuple):
    """Modules, sensors with their fresh values, the words of each connection, and the property's cells."""

    modules: Tuple[Standing, ...]
    readings: Tuple[Optional[int], ...]
    queues: Tuple[Tuple[int, ...], ...]
    seen: Cells


class Step(NamedTuple):
    """A move that was done: the state after it, none if the question has ended; whether the property is broken; and the
    items."""

    state: Optional[State]
    is_broken: bool
    items: Tuple[Watched, ...]


def put(some: tuple, at: int, value: object) -> tuple:  # type: ignore[type-arg]
    return (*some[:at], value, *some[at + 1 :])


@dataclass
class Moves:
    """The moves of a deployment, as far as a property can see their effect. `room` is the most words that a connection
    keeps; what is sent beyond is lost. If calls are whole, what a handler emits is written with it."""

    deployment: Deployment
    property: Property
    room: int = 3
    is_whole: bool = True
    known: Dict[Tuple[str, Optional[str], int, Cells], Tuple[Cells, List[Act]]] = field(default_factory=dict)

    def __post_init__(self) -> None:
        devices, modules = self.deployment.devices, self.deployment.modules
        self.drivers = {it.name: it.driver for it in devices.values() if it.driver}
        self.nodes = {name: modules[name].node for name in modules}
        self.nodes.update((name, devices[name].node) for name in devices)
        # the sensor that a module drives
        self.sensor_of = {it.name: it.sensor for it in modules.values() if it.sensor}
        self.modules = self.relevant()
        links = self.deployment.connections.values()
        self.links = [it for it in links if it.sender in self.modules and it.receiver in self.modules]
        self.index = {name: at for at, name in enumerate(self.modules)}
        self.link_index = {it.name: at for at, it in enumerate(self.links)}
        self.trees = {it: self.deployment.tree(it) for it in self.modules}
        self.firsts = [frozen(first_cells(self.trees[it])) for it in self.modules]
        self.sensors = [it for it in self.deployment.sensors if self.is_used(it)]
        self.reading_index = {name: at for at, name in enumerate(self.sensors)}

    # --- What matters ---

    def is_used(self, sensor: str) -> bool:
        watches = self.property.sees("sense", sensor) or self.property.sees("drain", sensor)
        return self.drivers.get(sensor) in self.modules or watches

    def relevant(self) -> List[str]:
        """The modules from which something leads to a watched item."""
        found: Set[str] = set()
        for kind, name in self.property.watched:
            if kind in ("raw", "drain"):
                found.add(self.drivers.get(name, ""))
            elif kind == "take":
                found.add(self.deployment.connections[name].receiver)
            elif kind in ("read", "out", "protect", "attested"):
                found.add(name)
        while True:
            more = {it.sender for it in self.deployment.connections.values() if it.receiver in found} - found
            if not more:
                return [it for it in self.deployment.modules if it in found]
            found |= more

    def attests(self, module: str) -> bool:
        """Whether it matters when a module is attested: the others are as soon as they are protected."""
        return any(it.receiver == module for it in self.links) or self.property.sees("attested", module)

    def is_watched_out(self, module: str) -> bool:
        return self.property.sees("out", module)

    # --- States ---

    def start(self) -> State:
        """Power-on."""
        absent = tuple(Standing(False, False, False, False, it, ()) for it in self.firsts)
        return State(absent, (None,) * len(self.sensors), ((),) * len(self.links), self.property.unseen())

    def deploys(self, module: str) -> List[Move]:
        return [Move("protect", module), *([Move("attested", module)] if self.attests(module) else [])]

    def step(self, state: State, move: Move) -> Optional[Step]:
        """A move in a state; none if it isn't possible there."""
        return STEPS[move.kind](self, state, move)

    def replay(self, state: State, moves: List[Move]) -> Optional[List[Step]]:
        """The steps of some moves up to the one that breaks the property; none if one isn't possible or none does."""
        steps: List[Step] = []
        for it in moves:
            made = self.step(state, it)
            if made is None:
                return None
            steps.append(made)
            if made.is_broken:
                return steps
            if made.state is None:
                return None
            state = made.state
        return None

    # --- Moves ---

    def shown(self, state: State, *items: Watched) -> Step:
        """The property sees items, after which the state is this one."""
        cells = state.seen
        for at, it in enumerate(items, 1):
            cells, verdict = self.property.see(cells, it)
            if verdict is not None:
                return Step(None, verdict != 0, items[:at])
        if cells is not state.seen:
            state = State(state.modules, state.readings, state.queues, cells)
        return Step(state, False, items)

    def with_module(self, state: State, module: str, standing: Standing) -> State:
        return State(put(state.modules, self.index[module], standing), state.readings, state.queues, state.seen)

    def standing(self, state: State, module: str) -> Standing:
        return state.modules[self.index[module]]

    def reaction(self, module: str, event: Optional[str], value: int, cells: Cells) -> Tuple[Cells, List[Act]]:
        key = (module, event, value, cells)
        found = self.known.get(key)
        if found is None:
            tree = self.trees[module]
            now = thawed(tree, cells)
            acts = react(tree, event, value, now)
            found = self.known[key] = (frozen(now), acts)
        return found

    def handled(self, state: State, item: Watched, module: str, event: Optional[str]) -> Step:
        """A module's handler runs at an item: what it sends is on its way, what it emits is owed, or written at
        once."""
        it = self.standing(state, module)
        cells, acts = self.reaction(module, event, item.value, it.cells)
        emitted = tuple(value for kind, _, value in acts if kind == "emit") if self.is_watched_out(module) else ()
        owed = () if self.is_whole else emitted
        state = self.with_module(state, module, Standing(True, it.is_attested, it.is_known, it.is_late, cells, owed))
        for kind, output, value in acts:
            if kind == "send":
                state = self.sent(state, module, output, value)
        outs = [Watched("out", module, it) for it in emitted] if self.is_whole else []
        return self.shown(state, item, *outs)

    def sent(self, state: State, module: str, output: str, value: int) -> State:
        """Lost is what is sent without a key, for a receiver without one that had one, and what finds no room."""
        if self.attests(module) and not self.standing(state, module).is_attested:
            return state
        queues = state.queues
        for at, it in enumerate(self.links):
            if (it.sender, it.output) != (module, output) or len(queues[at]) == self.room:
                continue
            receiver = self.standing(state, it.receiver)
            if receiver.is_attested or not receiver.is_known:
                queues = put(queues, at, (*queues[at], value))
        return State(state.modules, state.readings, queues, state.seen)

    def is_idle(self, state: State, module: str) -> bool:
        it = self.standing(state, module)
        return it.is_present and not it.owed


def protect(moves: Moves, state: State, move: Move) -> Optional[Step]:
    it = moves.standing(state, move.name)
    if it.is_present:
        return None
    loaded = Standing(True, it.is_attested, it.is_known, it.is_late, it.cells, it.owed)
    return moves.shown(moves.with_module(state, move.name, loaded), Watched("protect", move.name))


def attested(moves: Moves, state: State, move: Move) -> Optional[Step]:
    it = moves.standing(state, move.name)
    if not moves.is_idle(state, move.name) or it.is_attested:
        return None
    now = Standing(True, True, True, False, it.cells, it.owed)
    return moves.shown(moves.with_module(state, move.name, now), Watched("attested", move.name))


def late(moves: Moves, state: State, move: Move) -> Optional[Step]:
    """The deployer accepts an answer of an earlier boot: no end opens by it."""
    it = moves.standing(state, move.name)
    if not it.is_late or it.is_attested:
        return None
    now = Standing(it.is_present, False, True, False, it.cells, it.owed)
    return moves.shown(moves.with_module(state, move.name, now), Watched("attested", move.name))


def with_reading(state: State, at: int, value: Optional[int]) -> State:
    return State(state.modules, put(state.readings, at, value), state.queues, state.seen)


def sense(moves: Moves, state: State, move: Move) -> Optional[Step]:
    changed = with_reading(state, moves.reading_index[move.name], move.value)
    return moves.shown(changed, Watched("sense", move.name, move.value))


def is_driven(moves: Moves, state: State, device: str) -> bool:
    driver = moves.drivers.get(device)
    return driver is not None and moves.standing(state, driver).is_present


def drain(moves: Moves, state: State, move: Move) -> Optional[Step]:
    at = moves.reading_index[move.name]
    if state.readings[at] is None or is_driven(moves, state, move.name):
        return None
    return moves.shown(with_reading(state, at, None), Watched("drain", move.name))


def raw(moves: Moves, state: State, move: Move) -> Optional[Step]:
    if is_driven(moves, state, move.name):
        return None
    return moves.shown(state, Watched("raw", move.name, move.value))


def read(moves: Moves, state: State, move: Move) -> Optional[Step]:
    sensor = moves.sensor_of.get(move.name)
    at = moves.reading_index[sensor] if sensor else 0
    value = state.readings[at] if sensor else None
    if value is None or not moves.is_idle(state, move.name):
        return None
    return moves.handled(with_reading(state, at, None), Watched("read", move.name, value), move.name, None)


def take(moves: Moves, state: State, move: Move) -> Optional[Step]:
    at = moves.link_index[move.name]
    link, words = moves.links[at], state.queues[at]
    it = moves.standing(state, link.receiver)
    if not moves.is_idle(state, link.receiver) or not it.is_attested or len(words) <= move.value:
        return None
    left = State(state.modules, state.readings, put(state.queues, at, words[move.value + 1 :]), state.seen)
    return moves.handled(left, Watched("take", move.name, words[move.value]), link.receiver, link.input)


def out(moves: Moves, state: State, move: Move) -> Optional[Step]:
    it = moves.standing(state, move.name)
    if not it.owed:
        return None
    now = Standing(True, it.is_attested, it.is_known, it.is_late, it.cells, it.owed[1:])
    return moves.shown(moves.with_module(state, move.name, now), Watched("out", move.name, it.owed[0]))


def reset(moves: Moves, state: State, move: Move) -> Optional[Step]:
    """The node's modules are gone, and with those that had keys the words on their way to them."""
    modules, queues = list(state.modules), list(state.queues)
    for at, name in enumerate(moves.modules):
        it = modules[at]
        if moves.nodes[name] != move.name:
            continue
        is_late = it.is_present and not it.is_attested and moves.property.sees("attested", name)
        modules[at] = Standing(False, False, it.is_known, it.is_late or is_late, moves.firsts[at], ())
        for number, link in enumerate(moves.links):
            if it.is_known and link.receiver == name:
                queues[number] = ()
    readings = [
        None if moves.nodes[name] == move.name else value
        for name, value in zip(moves.sensors, state.readings)
    ]
    gone = State(tuple(modules), tuple(readings), tuple(queues), state.seen)
    return moves.shown(gone, Watched("reset", move.name))


STEPS: Dict[str, Callable[[Moves, State, Move], Optional[Step]]] = {
    "protect": protect,
    "attested": attested,
    "late": late,
    "sense": sense,
    "drain": drain,
    "raw": raw,
    "read": read,
    "take": take,
    "out": out,
    "reset": reset,
}
