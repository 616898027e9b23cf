"""Writes the schedule of acts without running anything: what the lines show is foreseen by the sources' meaning.

Where that errs, as after a changed byte that had this value already, the schedule does other things than its acts say;
what it shows is the program's all the same.
"""

from __future__ import annotations

from collections import deque
from functools import lru_cache
from typing import Deque, Dict, Iterable, List, NamedTuple, Optional, Set, Tuple

from sancus.model.campaign_acts import Act, Carry, Change, Fate, Hold, Reading, Replay, Reset, Sample, said
from sancus.model.described import Deployment
from sancus.model.meaning import Act as Reacted
from sancus.model.meaning import first_cells, react
from sancus.model.people import NAMING
from sancus.model.property import Cells, frozen, thawed
from sancus.model.schedule import ANSWER, ATTEST, EVENT, EVENT_IN, SAMPLE, SET_KEY
from sancus.records import dataclass, field

# The bytes of an in-window and of an out-window, and the lowest place of one.
IN_SIZE, OUT_SIZE, LOWEST_WINDOW = 40, 384, 0x300
# An application may never rest: so many events follow one reading.
MOST_CARRIED = 64
# So many reactions of modules are kept.
MOST_KNOWN = 1 << 16


class Keys(NamedTuple):
    """A connection between two keys: its epoch, and the next numbers of its sender and its receiver."""

    epoch: int = 0
    sent: int = 0
    taken: int = 0


@dataclass
class Event:
    """An event, and its place in its sender's window."""

    connection: str
    epoch: int
    number: int
    value: int
    at: int
    is_changed: bool = False


@dataclass(frozen=True)
class Taken:
    """An event as a packet."""

    packet: int
    event: Event


def windows_of(deployment: Deployment, node: str) -> Iterable[Tuple[str, int, int]]:
    """Windows for the modules of a node that meet nothing on it: one for all packets that are given, and one for what
    each module sends."""
    taken = [it for _, it in deployment.taken(node)]
    inside = first_free(IN_SIZE, taken, LOWEST_WINDOW)
    at = inside + IN_SIZE
    for module in deployment.modules_of(node):
        outside = first_free(OUT_SIZE, taken, at)
        at = outside + OUT_SIZE
        yield module.name, inside, outside


def first_free(size: int, taken: List[range], begin: int) -> int:
    """The first place from one on where so many bytes meet none of these ranges, which are in order."""
    for it in taken:
        if begin + size <= it.start:
            break
        begin = max(begin, it.stop + it.stop % 2)
    return begin


class Layout:
    """What acts speak of in a deployment: its modules, the sensor of each driver, connections and nodes; and where the
    windows are."""

    def __init__(self, deployment: Deployment) -> None:
        modules, connections = deployment.modules.values(), deployment.connections.values()
        self.modules, self.connections = list(deployment.modules), list(deployment.connections)
        self.node_of = {it.name: it.node for it in modules}
        self.nodes = [it for it in deployment.nodes if it in self.node_of.values()]
        self.sensors = {it.name: it.sensor for it in modules if it.sensor}
        self.ends, self.all_ends = {it.name: it.ends for it in modules}, deployment.ends
        self.sender = {it.name: it.sender for it in connections}
        self.receiver = {it.name: it.receiver for it in connections}
        self.input = {it.name: it.input for it in connections}
        # the connections that lead from each output of a module
        self.leading: Dict[Tuple[str, str], List[str]] = {}
        for it in connections:
            self.leading.setdefault((it.sender, it.output), []).append(it.name)
        places = [it for node in self.nodes for it in windows_of(deployment, node)]
        self.inside = {module: inside for module, inside, _ in places}
        self.outside = {module: outside for module, _, outside in places}
        self.trees = {it: deployment.tree(it) for it in self.modules}
        self.firsts = {name: frozen(first_cells(tree)) for name, tree in self.trees.items()}
        # (schedules of one deployment have many reactions in common)
        self.reaction = lru_cache(maxsize=MOST_KNOWN)(self.reacted)
        self.deployed = Scribe(self)
        self.deployed.deploy(self.modules)

    def reacted(self, module: str, event: Optional[str], value: int, cells: Cells) -> Tuple[Cells, List[Reacted]]:
        """What a module's handler does at an event, or at a sample."""
        tree = self.trees[module]
        now = thawed(tree, cells)
        acts = react(tree, event, value, now)
        return frozen(now), acts

    def reached(self, module: str) -> List[str]:
        """The connections that lead on from a module, the nearest first."""
        found: Dict[str, None] = {}
        near = deque([module])
        while near:
            at = near.popleft()
            new = [it for it in self.connections if self.sender[it] == at and it not in found]
            found.update(dict.fromkeys(new))
            near += (self.receiver[it] for it in new)
        return list(found)

    def lines(self, acts: Iterable[Act], are_told: bool = False) -> List[str]:
        """The schedule that deploys all modules and then does acts, perhaps with a comment before the lines of each."""
        scribe = self.deployed.copy()
        for it in acts:
            if are_told and not isinstance(it, str):
                scribe.write("#", said(it))
            scribe.do(it)
        return scribe.lines


@dataclass
class Scribe:
    """The lines so far, and what they are to have shown."""

    layout: Layout
    lines: List[str] = field(default_factory=list)
    packets: int = 0
    boots: Dict[str, int] = field(default_factory=dict)
    loaded: Set[str] = field(default_factory=set)
    # the boot at which each module was attested last
    attested: Dict[str, int] = field(default_factory=dict)
    keys: Dict[str, Keys] = field(default_factory=dict)
    cells: Dict[str, Cells] = field(default_factory=dict)
    # the events in each module's window that weren't taken, and by connection those that were
    waiting: Dict[str, List[Event]] = field(default_factory=dict)
    taken: Dict[str, List[Taken]] = field(default_factory=dict)

    def copy(self) -> "Scribe":
        """One that goes on from here, where no event was sent yet."""
        return Scribe(
            self.layout,
            list(self.lines),
            self.packets,
            dict(self.boots),
            set(self.loaded),
            dict(self.attested),
            dict(self.keys),
            dict(self.cells),
            {it: [] for it in self.waiting},
        )

    def write(self, *words: object) -> None:
        self.lines.append(" ".join(map(str, words)))

    def new_packet(self) -> int:
        self.packets += 1
        return self.packets - 1

    def call(self, module: str, entry: int) -> None:
        self.write("call", module, entry, self.layout.inside[module], self.layout.outside[module])

    def hand(self, packet: int, module: str, entry: int) -> None:
        self.write("give", packet, self.layout.node_of[module], self.layout.inside[module])
        self.call(module, entry)

    # --- Deploying ---

    def deploy(self, modules: List[str]) -> None:
        """Loads modules, attests them, and hands out the keys that the deployer makes then."""
        for it in modules:
            self.write("load", it)
            self.loaded.add(it)
            self.cells[it] = self.layout.firsts[it]
            self.waiting[it] = []
        for it in modules:
            self.attest(it)

    def attest(self, module: str) -> None:
        node = self.layout.node_of[module]
        self.write("ask", module)
        self.hand(self.new_packet(), module, ATTEST)
        self.write("take", node, self.layout.outside[module], ANSWER)
        self.write("answer", module, self.boots.get(node, 0), self.new_packet())
        ends = list(self.layout.ends[module])
        own = {it.connection for it in ends}
        if module in self.attested:
            others = (it for it in self.layout.all_ends if it.module != module and it.module in self.attested)
            ends += [it for it in others if it.connection in own]
        self.attested[module] = self.boots.get(node, 0)
        for it in own:
            self.keys[it] = Keys(self.keys.get(it, Keys()).epoch + 1)
        for end in ends:
            packet = self.new_packet()
            if self.is_known(end.module):
                self.hand(packet, end.module, SET_KEY)

    def is_known(self, module: str) -> bool:
        """Whether a module is there, and was attested at this boot of its node."""
        boot = self.boots.get(self.layout.node_of[module], 0)
        return module in self.loaded and self.attested.get(module) == boot

    def forget(self, node: str) -> None:
        """A node was reset: its modules are gone."""
        self.boots[node] = self.boots.get(node, 0) + 1
        self.loaded -= {it for it in self.loaded if self.layout.node_of[it] == node}

    # --- Events ---

    def sample(self, module: str, value: int) -> None:
        self.write("sense", self.layout.sensors[module], value)
        if module in self.loaded:
            self.call(module, SAMPLE)
            self.react(module, None, value)

    def react(self, module: str, event: Optional[str], value: int) -> None:
        """A module's handler runs, and what it sends is in its window then."""
        self.cells[module], acts = self.layout.reaction(module, event, value, self.cells[module])
        leading, first = self.layout.leading, self.layout.outside[module]
        sent = [(it, word) for kind, to, word in acts if kind == "send" for it in leading.get((module, to), ())]
        self.waiting[module] = [self.sent(it, word, first + EVENT * at) for at, (it, word) in enumerate(sent)]

    def sent(self, connection: str, value: int, at: int) -> Event:
        keys = self.keys[connection]
        self.keys[connection] = keys._replace(sent=keys.sent + 1)
        return Event(connection, keys.epoch, keys.sent, value, at)

    def next_of(self, connection: str) -> Optional[Event]:
        """The next event of a connection in its sender's window."""
        sender = self.layout.sender[connection]
        there = self.waiting[sender] if sender in self.loaded else []
        return next((it for it in there if it.connection == connection), None)

    def take(self, event: Event) -> Taken:
        """Makes a packet of an event in its sender's window."""
        sender = self.layout.sender[event.connection]
        self.waiting[sender].remove(event)
        self.write("take", self.layout.node_of[sender], event.at, EVENT)
        made = Taken(self.new_packet(), event)
        self.taken.setdefault(event.connection, []).append(made)
        return made

    def take_all(self, module: str) -> List[Taken]:
        return [self.take(it) for it in list(self.waiting[module])]

    def deliver(self, taken: Taken) -> bool:
        """Gives an event to its receiver, and says whether that takes it."""
        event, receiver = taken.event, self.layout.receiver[taken.event.connection]
        if receiver not in self.loaded:
            return False
        self.hand(taken.packet, receiver, EVENT_IN)
        keys = self.keys[event.connection]
        if event.is_changed or event.epoch != keys.epoch or event.number < keys.taken:
            return False
        self.keys[event.connection] = keys._replace(taken=event.number + 1)
        self.react(receiver, self.layout.input[event.connection], event.value)
        return True

    def meet(self, taken: Taken, fate: Fate) -> List[Taken]:
        """What an event makes its receiver send, by its fate."""
        if fate is Fate.DROP or not self.deliver(taken):
            return []
        made = self.take_all(self.layout.receiver[taken.event.connection])
        if fate is Fate.TWICE:
            self.deliver(taken)
        return made

    # --- Acts ---

    def do(self, act: Act) -> None:
        """Writes the lines of an act; none if what it speaks of isn't there."""
        match act:
            case str():
                self.plain(act)
            case Reading(module, value, fates):
                self.reading(module, value, fates)
            case Sample(module, value):
                self.sample(module, value)
            case Replay(connection, which):
                known = self.taken.get(connection, [])
                if known:
                    self.deliver(known[which % len(known)])
            case Reset(node):
                self.plain(f"reset {node}")
                self.deploy([it for it in self.layout.modules if self.layout.node_of[it] == node])
            case _:
                event = self.next_of(act.connection)
                if event:
                    self.with_next(act, event)

    def with_next(self, act: Carry | Hold | Change, event: Event) -> None:
        """An act with the next event of a connection."""
        if isinstance(act, Change):
            node = self.layout.node_of[self.layout.sender[act.connection]]
            self.write("put", node, event.at + act.at, f"{act.value:02x}")
            event.is_changed = True
            return
        taken = self.take(event)
        if isinstance(act, Carry):
            self.deliver(taken)

    def reading(self, module: str, value: int, fates: Tuple[Fate, ...]) -> None:
        self.sample(module, value)
        now: Deque[Taken] = deque(self.take_all(module) if module in self.loaded else [])
        late: Deque[Taken] = deque()
        left = iter(fates)
        for _ in range(MOST_CARRIED):
            if now:
                event, fate = now.popleft(), next(left, Fate.DELIVER)
            elif late:
                event, fate = late.popleft(), Fate.DELIVER
            else:
                return
            if fate is Fate.LATE:
                late.append(event)
            else:
                now += self.meet(event, fate)

    def plain(self, line: str) -> None:
        """A line of a schedule as it is."""
        self.lines.append(line)
        match line.split():
            case ["reset", node]:
                self.forget(node)
            case [word, *_] if word in NAMING:
                self.new_packet()
