"""Looks for a legal run that breaks a property: breadth first, with few readings and whole deliveries first, then with
more of both."""

from __future__ import annotations

import time
from collections import deque
from typing import Callable, Deque, Dict, Iterator, List, Optional, Tuple

from sancus.model.described import Connection, Deployment
from sancus.model.moves import Move, Moves, State, Step
from sancus.model.property import Property
from sancus.model.values import Values, of_actuator
from sancus.records import dataclass, field, replace

# What is done at once: moves that a search takes as one.
Stride = Tuple[Move, ...]
# A stride's last part: the words that it sent over connections which had none are taken, and so on with what those
# send.
DELIVER = Move("deliver", "")
# A stride of its own: all words are taken, each connection's in order.
DELIVER_ALL = Move("deliver", "all")
# No more words are taken so.
MOST_DELIVERED = 24
# How many strides are tried in the first round of each kind of search, and how many times as many in the next.
FIRST_ROUND, GROWTH = 2000, 4
# No more states are kept in all.
MOST_STATES = 400_000


@dataclass(frozen=True)
class Kind:
    """A kind of search: from where on; whether strides are long (a sample is read at once, a node deployed again at
    once), and what is sent may be taken at once; whether calls are whole; whether words may be lost; and with how many
    readings."""

    is_deployed: bool = True
    is_long: bool = True
    is_prompt: bool = False
    is_whole: bool = True
    is_lossy: bool = False
    has_more_values: bool = False


KINDS = (
    Kind(is_prompt=True),
    Kind(is_prompt=True, has_more_values=True),
    Kind(),
    Kind(has_more_values=True),
    Kind(is_long=False),
    Kind(is_deployed=False, is_long=False),
    Kind(is_lossy=True),
    Kind(is_long=False, is_whole=False),
    Kind(is_long=False, is_lossy=True, has_more_values=True),
)


@dataclass
class Found:
    """A run that breaks the property: the moves that deploy, those after them, and their steps."""

    deployment: Deployment
    property: Property
    # the modules of its states, and those whose attestation is a move of its own
    names: List[str]
    attested: List[str]
    is_whole: bool
    deploying: List[Move]
    moves: List[Move]
    steps: List[Step] = field(default_factory=list)


@dataclass
class Frontier:
    """One kind of search, as far as it is."""

    kind: Kind
    moves: Moves
    few: Dict[str, List[int]]
    words: List[int]
    most_moves: int = 0
    # of each state the one before it, the moves between, and how many there were up to it
    came: Dict[State, Tuple[Optional[State], Stride, int]] = field(default_factory=dict)
    left: Deque[State] = field(default_factory=deque)
    found: Optional[List[Move]] = None

    def __post_init__(self) -> None:
        self.nodes = self.nodes_to_reset()
        modules = self.moves.modules if self.kind.is_deployed else []
        self.deploying = [it for m in modules for it in self.moves.deploys(m)]
        state: Optional[State] = self.moves.start()
        for it in self.deploying:
            made = self.moves.step(state, it) if state else None
            state = made.state if made else None
            if made and made.is_broken:
                self.found = []
        if state is not None and self.found is None:
            self.came[state] = (None, (), 0)
            self.left.append(state)

    def nodes_to_reset(self) -> List[str]:
        nodes = {self.moves.nodes[it] for it in (*self.moves.modules, *self.moves.sensors)}
        nodes |= {name for kind, name in self.moves.property.watched if kind == "reset"}
        return [it for it in self.moves.deployment.nodes if it in nodes]

    # --- Strides ---

    def strides(self, state: State) -> Iterator[Stride]:
        moves, property = self.moves, self.moves.property
        for sensor in moves.sensors:
            driver = moves.drivers.get(sensor, "")
            for value in self.few[sensor]:
                sensed = Move("sense", sensor, value)
                if driver in moves.index and (self.kind.is_long or not property.sees("sense", sensor)):
                    yield (sensed, Move("read", driver))
                    if self.kind.is_prompt:
                        yield (sensed, Move("read", driver), DELIVER)
                if property.sees("sense", sensor) or property.sees("drain", sensor):
                    yield (sensed,)
            if not self.kind.is_long and driver in moves.index and property.sees("sense", sensor):
                yield (Move("read", driver),)
        yield from self.takings(state)
        if not self.kind.is_whole:
            yield from ((Move("out", name),) for name, it in zip(moves.modules, state.modules) if it.owed)
        yield from self.resets()
        yield from self.of_other_code()

    def takings(self, state: State) -> Iterator[Stride]:
        if self.kind.is_prompt:
            yield (DELIVER_ALL,)
        for link, words in zip(self.moves.links, state.queues):
            for lost in range(len(words) if self.kind.is_lossy else min(1, len(words))):
                taken = Move("take", link.name, lost)
                yield (taken, DELIVER) if self.kind.is_prompt else (taken,)

    def resets(self) -> Iterator[Stride]:
        """A reset, and what makes a module good again."""
        moves = self.moves
        for node in self.nodes:
            again = [it for m in moves.modules if moves.nodes[m] == node for it in moves.deploys(m)]
            yield (Move("reset", node), *(again if self.kind.is_long else []))
        for it in moves.modules if not self.kind.is_long else []:
            yield from ((move,) for move in moves.deploys(it))
            if moves.property.sees("attested", it):
                yield (Move("late", it),)

    def of_other_code(self) -> Iterator[Stride]:
        for kind, name in sorted(self.moves.property.watched):
            for value in self.words if kind == "raw" else []:
                yield (Move("raw", name, value),)
            if kind == "drain":
                yield (Move("drain", name),)

    # --- Breadth first ---

    def advance(self, most: int, is_late: Callable[[], bool]) -> None:
        """Tries so many strides more."""
        tried = 0
        while self.left and tried < most and self.found is None and not is_late():
            state = self.left.popleft()
            for stride in self.strides(state):
                tried += 1
                if self.takes(state, stride):
                    return

    def takes(self, state: State, stride: Stride) -> bool:
        """Tries a stride, and tells whether it breaks the property."""
        now, done = state, []
        for it in self.expanded(stride, state, lambda: now):
            made = self.moves.step(now, it)
            done.append(it)
            if made is None:
                return False
            if made.is_broken:
                self.found = [*self.way(state), *done]
                return True
            if made.state is None:
                return False
            now = made.state
        moves = self.came[state][2] + len(done)
        if now not in self.came and (not self.most_moves or moves < self.most_moves):
            self.came[now] = (state, tuple(done), moves)
            self.left.append(now)
        return False

    def expanded(self, stride: Stride, before: State, now: Callable[[], State]) -> Iterator[Move]:
        """The moves of a stride, each asked for after the one before is done."""
        empty = [link for link, words in zip(self.moves.links, before.queues) if not words]
        for it in stride:
            if it.kind != "deliver":
                yield it
                continue
            links = self.moves.links if it == DELIVER_ALL else empty
            for _ in range(MOST_DELIVERED):
                ready = next((link for link in links if self.is_ready(link, now())), None)
                if not ready:
                    break
                yield Move("take", ready.name)

    def is_ready(self, link: Connection, state: State) -> bool:
        receiver = self.moves.standing(state, link.receiver)
        words = state.queues[self.moves.link_index[link.name]]
        return bool(words) and receiver.is_present and receiver.is_attested and not receiver.owed

    def way(self, state: State) -> List[Move]:
        strides: List[Stride] = []
        before: Optional[State] = state
        while before is not None:
            before, stride, _ = self.came[before]
            strides.append(stride)
        return [move for it in reversed(strides) for move in it]


# --- Shorter runs, and smaller values ---------------------------------------------------------------------------------


@dataclass
class Shortening:
    """Makes a run shorter, and its values smaller, as long as it breaks the property."""

    moves: Moves
    start: State
    numbers: List[int]

    def breaks(self, run: List[Move]) -> bool:
        return self.moves.replay(self.start, run) is not None

    def shorter(self, run: List[Move]) -> List[Move]:
        """Leaves out moves, three, two and one at a time, until none can be spared."""
        for size in (3, 2, 1):
            at = 0
            while at + size <= len(run):
                shorter = next((it for it in self.without(run, at, size) if self.breaks(it)), None)
                run, at = (shorter, 0) if shorter else (run, at + 1)
        return run

    def without(self, run: List[Move], at: int, size: int) -> Iterator[List[Move]]:
        """A run without some moves; a word that isn't taken may be lost before the next one."""
        rest = run[at + size :]
        yield run[:at] + rest
        left_out = run[at]
        later = next((i for i, it in enumerate(rest) if (it.kind, it.name) == ("take", left_out.name)), None)
        if size == 1 and left_out.kind == "take" and later is not None:
            lost = rest[later].value + left_out.value + 1
            yield run[:at] + rest[:later] + [Move("take", left_out.name, lost)] + rest[later + 1 :]

    def smaller(self, run: List[Move]) -> List[Move]:
        """Makes each value as small as the others let it be, until none gets smaller."""
        before: List[Move] = []
        while run != before:
            before = run
            for at, it in enumerate(run):
                if it.kind in ("sense", "raw"):
                    run = self.with_least(run, at)
        return run

    def with_least(self, run: List[Move], at: int) -> List[Move]:
        for value in self.numbers:
            if value >= run[at].value:
                break
            tried = [*run[:at], run[at]._replace(value=value), *run[at + 1 :]]
            if self.breaks(tried):
                return tried
        return run


@dataclass
class Search:
    """All kinds of search for one property, each a bit further in turn."""

    deployment: Deployment
    property: Property
    most_moves: int = 0

    def __post_init__(self) -> None:
        moves = Moves(self.deployment, self.property)
        self.values = Values(moves)
        self.readings = {it: self.values.of(it) for it in moves.sensors}

    def frontier(self, kind: Kind) -> Frontier:
        moves = Moves(self.deployment, self.property, is_whole=kind.is_whole)
        few = {name: more if kind.has_more_values else some for name, (some, more) in self.readings.items()}
        return Frontier(kind, moves, few, of_actuator(moves), self.most_moves)

    def run(self, seconds: float, progress: Callable[[int], None] = lambda _: None) -> Optional[Found]:
        """A run that breaks the property, if one is found in this time."""
        end = time.monotonic() + seconds
        frontiers = [self.frontier(it) for it in KINDS]

        def is_late() -> bool:
            states = sum(len(it.came) for it in frontiers)
            progress(states)
            return time.monotonic() > end or states > MOST_STATES

        most = FIRST_ROUND
        while any(it.left for it in frontiers) and not is_late():
            for it in frontiers:
                it.advance(most, is_late)
                if it.found is not None:
                    return self.shortened(it)
            most *= GROWTH
        return None

    def shortened(self, frontier: Frontier) -> Found:
        run = [*frontier.deploying, *(frontier.found or [])]
        start = frontier.moves.start()
        more = sorted({*self.values.numbers, *(it for _, values in self.readings.values() for it in values)})
        shortening = Shortening(frontier.moves, start, more)
        kept = len(frontier.deploying)
        if frontier.kind.is_deployed:
            state = start
            for it in frontier.deploying:
                made = frontier.moves.step(state, it)
                assert made and made.state
                state = made.state
            shortening = replace(shortening, start=state)
            run = run[kept:]
        run = shortening.smaller(shortening.shorter(run))
        steps = frontier.moves.replay(start, [*frontier.deploying, *run]) or []
        names = frontier.moves.modules
        attested = [it for it in names if frontier.moves.attests(it)]
        return Found(
            self.deployment, self.property, names, attested, frontier.kind.is_whole, frontier.deploying, run, steps
        )
