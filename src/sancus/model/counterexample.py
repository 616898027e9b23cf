"""Writes a schedule that shows a run of moves: with the packets, keys and attestations that the run itself leaves
out."""

from __future__ import annotations

import os
from typing import Dict, Iterator, List, Optional, Set, Tuple, Union

from sancus.model.described import Deployment, End
from sancus.model.language import VALUED
from sancus.model.meaning import first_cells, react
from sancus.model.moves import Move
from sancus.model.search import Found
from sancus.records import dataclass, field

IN, OUT, CODE = "0x300", "0x400", "0x600"
EVENT, ANSWER = 24, 16
SET_KEY, ATTEST, EVENT_IN, SAMPLE = 0, 1, 2, 3


class Unwritten(Exception):
    """Why no schedule was written that shows a run."""


@dataclass
class Packet:
    """A packet that the schedule makes: a line that makes one which nothing needs is left out."""

    is_needed: bool = False
    number: int = 0


@dataclass
class Key(Packet):
    """A set-key packet."""

    end: Optional[End] = None
    epoch: int = 0


@dataclass
class Event(Packet):
    """An event on its way: its epoch, its number there and its value."""

    epoch: int = 0
    index: int = 0
    value: int = 0


Word = Union[str, Packet]


@dataclass
class Line:
    """A line of the schedule, and the packets that it makes; or a comment. `until` is the item that a `run` is to
    show, if it stops in the middle of a handler."""

    words: List[Word]
    makes: List[Packet] = field(default_factory=list)
    until: Optional[Tuple[str, str]] = None


@dataclass
class Loaded:
    """A module that is protected: its cells, and of each open end the epoch."""

    cells: Dict[str, List[int]]
    open_ends: Dict[Tuple[str, str], int] = field(default_factory=dict)
    # keys of later epochs, which it gets when it takes an event of one
    keys: Dict[str, List[Key]] = field(default_factory=dict)
    # of each connection the epoch and the number of the next event
    next: Dict[str, Tuple[int, int]] = field(default_factory=dict)


@dataclass
class Writer:
    """The lines so far, and what they have made of the deployment."""

    deployment: Deployment
    lines: List[Line] = field(default_factory=list)
    boots: Dict[str, int] = field(default_factory=dict)
    loaded: Dict[str, Loaded] = field(default_factory=dict)
    # at which boot a module was attested last
    attested: Dict[str, int] = field(default_factory=dict)
    epochs: Dict[str, int] = field(default_factory=dict)
    sent: Dict[str, List[Event]] = field(default_factory=dict)
    # answers of an earlier boot that the deployer hasn't got
    kept: Dict[str, Tuple[Packet, int]] = field(default_factory=dict)

    def put(self, *words: Word, makes: Optional[List[Packet]] = None) -> None:
        self.lines.append(Line(list(words), makes or []))

    def boot(self, node: str) -> int:
        return self.boots.get(node, 0)

    # --- Calls ---

    def call(self, module: str, entry: int) -> None:
        self.put("call", module, str(entry), IN, OUT)

    def begin_call(self, module: str, entry: int, kind: str) -> None:
        """A call that stops in the middle, after the module's item of a kind."""
        it = self.deployment.modules[module]
        pc = hex(it.text.start)
        for register, value in (("r12", str(entry)), ("r13", IN), ("r14", OUT), ("r15", "0"), ("pc", pc)):
            self.put("set", it.node, register, value)
        self.run_until(it.node, kind, module)

    def run_until(self, node: str, kind: str, module: str) -> None:
        self.lines.append(Line(["run", node], [], (kind, module)))

    def give(self, packet: Packet, module: str) -> None:
        packet.is_needed = True
        self.put("give", packet, self.deployment.node_of(module), IN)

    def open_end(self, key: Key) -> None:
        end = key.end
        assert end
        self.give(key, end.module)
        self.call(end.module, SET_KEY)
        it = self.loaded[end.module]
        it.open_ends[end.connection, end.side] = key.epoch
        if end.side == "to":
            it.next[end.connection] = (key.epoch, 0)

    # --- Deployment ---

    def protect(self, module: str) -> None:
        self.put("load", module)
        self.loaded[module] = Loaded(first_cells(self.deployment.tree(module)))

    def asked(self, module: str) -> Packet:
        """The module's answer to a new challenge."""
        ask, answer = Packet(), Packet(is_needed=True)
        self.put("ask", module, makes=[ask])
        self.give(ask, module)
        self.call(module, ATTEST)
        self.put("take", self.deployment.node_of(module), OUT, str(ANSWER), makes=[answer])
        return answer

    def attest(self, module: str) -> None:
        self.answer(module, self.asked(module), self.boot(self.deployment.node_of(module)))

    def answer(self, module: str, answer: Packet, boot: int) -> None:
        """The deployer gets an answer; its modules get the keys that it makes then."""
        is_again = module in self.attested
        ends = self.deployment.modules[module].ends
        if is_again:
            for connection in dict.fromkeys(it.connection for it in ends):
                self.epochs[connection] = self.epochs.get(connection, 0) + 1
        self.attested[module] = boot
        others = self.other_ends(module) if is_again else []
        keys = [Key(end=it, epoch=self.epochs.get(it.connection, 0)) for it in (*ends, *others)]
        self.put("answer", module, str(boot), answer, makes=list(keys))
        for key in keys:
            key.is_needed = True
            self.hand(key, module)

    def other_ends(self, module: str) -> List[End]:
        """The ends of renewed connections in other modules that were attested."""
        own = {it.connection for it in self.deployment.modules[module].ends}
        others = [it for it in self.deployment.ends if it.module != module and it.module in self.attested]
        return [it for it in others if it.connection in own]

    def hand(self, key: Key, module: str) -> None:
        """Gives a key to its module at once; that of another module's receiving end only before the first event of its
        epoch, so that older ones can still be taken."""
        end = key.end
        assert end
        it = self.loaded.get(end.module)
        if not it or self.attested.get(end.module) != self.boot(self.deployment.node_of(end.module)):
            return
        if end.module != module and end.side == "to":
            it.keys.setdefault(end.connection, []).append(key)
        else:
            self.open_end(key)

    def reset(self, node: str, late: List[str]) -> None:
        """`late` are the modules whose answer of this boot is accepted after it."""
        for module in late:
            if module in self.loaded and self.deployment.node_of(module) == node:
                self.kept[module] = (self.asked(module), self.boot(node))
        self.put("reset", node)
        self.boots[node] = self.boot(node) + 1
        self.loaded = {name: it for name, it in self.loaded.items() if self.deployment.node_of(name) != node}

    def late(self, module: str) -> None:
        if module not in self.kept:
            raise Unwritten(f"{module} has no answer of an earlier boot")
        self.answer(module, *self.kept.pop(module))

    # --- Events ---

    def reacted(self, module: str, event: Optional[str], value: int) -> None:
        """After a call: takes each piece from the out-window."""
        it, pieces = self.loaded[module], 0
        for kind, output, word in react(self.deployment.tree(module), event, value, it.cells):
            for end in self.deployment.modules[module].ends if kind == "send" else []:
                epoch = it.open_ends.get((end.connection, end.side))
                if (end.side, end.port) != ("from", output) or epoch is None:
                    continue
                events = self.sent.setdefault(end.connection, [])
                made = Event(epoch=epoch, index=sum(old.epoch == epoch for old in events), value=word)
                events.append(made)
                at = hex(int(OUT, 16) + EVENT * pieces)
                self.put("take", self.deployment.node_of(module), at, str(EVENT), makes=[made])
                pieces += 1

    def sense(self, sensor: str, value: int) -> None:
        self.put("sense", sensor, str(value))

    def read(self, module: str, value: int, is_begun: bool) -> None:
        if is_begun:
            self.begin_call(module, SAMPLE, "read")
        else:
            self.call(module, SAMPLE)
        self.reacted(module, None, value)

    def take(self, connection: str, value: int, is_begun: bool) -> None:
        link = self.deployment.connections[connection]
        module, it = link.receiver, self.loaded[link.receiver]
        event = self.next_event(connection, it, value)
        if event.epoch > it.next[connection][0]:
            key = next((key for key in it.keys.get(connection, []) if key.epoch == event.epoch), None)
            if key is None:
                raise Unwritten(f"{module} has no key of epoch {event.epoch} for {connection}")
            self.open_end(key)
        it.next[connection] = (event.epoch, event.index + 1)
        self.give(event, module)
        if is_begun:
            self.begin_call(module, EVENT_IN, "take")
        else:
            self.call(module, EVENT_IN)
        self.reacted(module, link.input, value)

    def next_event(self, connection: str, it: Loaded, value: int) -> Event:
        least = it.next.get(connection)
        for event in self.sent.get(connection, []):
            if least is not None and (event.epoch, event.index) >= least and event.value == value:
                return event
        raise Unwritten(f"there is no event of {connection} with the value {value}")

    # --- Other code ---

    def other_code(self, device: str, text: str) -> None:
        node = self.deployment.devices[device].node
        self.put("asm", node, CODE, text)
        self.put("set", node, "pc", CODE)
        self.put("run", node, "1")

    def place(self, device: str) -> str:
        return f"&{self.deployment.devices[device].at:#x}"


def said(move: Move, value: int) -> str:
    """A move as it is printed."""
    kind = "attested" if move.kind == "late" else move.kind
    return f"{kind} {move.name}" + (f" {value}" if kind in VALUED else "")


def value_of(found: Found, at: int) -> int:
    """The value of a run's move, counted with those that deploy."""
    items = found.steps[at].items
    return items[0].value if items else 0


def moves_said(found: Found) -> Iterator[str]:
    """The moves after those that deploy, as they are printed."""
    first = len(found.deploying)
    for at, it in enumerate(found.moves[: len(found.steps) - first], first):
        yield said(it, value_of(found, at))


@dataclass
class Telling:
    """Writes the moves of a run one after the other."""

    found: Found
    writer: Writer
    # how many outputs of a module that stopped in the middle are still to come
    begun: Dict[str, int] = field(default_factory=dict)
    # moves that came with an earlier one
    done: Set[int] = field(default_factory=set)

    @property
    def moves(self) -> List[Move]:
        return [*self.found.deploying, *self.found.moves][: len(self.found.steps)]

    def tell(self, at: int) -> None:
        move, value, writer = self.moves[at], value_of(self.found, at), self.writer
        if move.kind == "protect":
            writer.protect(move.name)
            if move.name not in self.found.attested:
                writer.attest(move.name)
        elif move.kind == "attested":
            writer.attest(move.name)
        elif move.kind == "late":
            writer.late(move.name)
        elif move.kind == "reset":
            rest = [it.name for it in self.moves[at + 1 :] if it.kind == "late"]
            writer.reset(move.name, list(dict.fromkeys(rest)))
        elif move.kind == "raw":
            writer.other_code(move.name, f"mov ##{move.value}, {writer.place(move.name)}")
        elif move.kind == "drain":
            writer.other_code(move.name, f"mov {writer.place(move.name)}, r5")
        elif move.kind == "sense":
            writer.sense(move.name, move.value)
        elif move.kind == "out":
            self.tell_out(at)
        else:
            self.tell_call(at, value)

    def tell_call(self, at: int, value: int) -> None:
        move = self.moves[at]
        module = move.name if move.kind == "read" else self.found.deployment.connections[move.name].receiver
        is_begun = self.stops_within(at, module)
        (self.writer.read if move.kind == "read" else self.writer.take)(move.name, value, is_begun)

    def stops_within(self, at: int, module: str) -> bool:
        """Whether other moves come between a call and what it writes."""
        if self.found.is_whole:
            return False
        owed = self.owed_after(at, module)
        ahead = self.moves[at + 1 : at + 1 + owed]
        if not owed or all(it.kind == "out" and it.name == module for it in ahead):
            self.done.update(range(at + 1, at + 1 + owed))
            return False
        self.begun[module] = owed
        return True

    def owed_after(self, at: int, module: str) -> int:
        state = self.found.steps[at].state
        if state is None:
            return 0
        return len(state.modules[self.found.names.index(module)].owed)

    def tell_out(self, at: int) -> None:
        module = self.moves[at].name
        if at in self.done:
            return
        self.begun[module] -= 1
        node = self.found.deployment.node_of(module)
        if self.begun[module]:
            self.writer.run_until(node, "out", module)
        else:
            self.writer.put("finish", node)


def lines_of(found: Found) -> List[Line]:
    """The lines of a schedule that shows a run, before each move a comment with it."""
    telling = Telling(found, Writer(found.deployment))
    name = os.path.basename(found.property.name)
    for at, move in enumerate(telling.moves):
        telling.writer.lines.append(Line([f"#= {name} {said(move, value_of(found, at))}"]))
        telling.tell(at)
    return telling.writer.lines


def numbered(lines: List[Line]) -> List[Line]:
    """The lines without those whose packet nothing needs, with the packets' numbers."""
    made: List[Line] = []
    count = 0
    for it in lines:
        if it.words[0] == "take" and not it.makes[0].is_needed:
            continue
        for packet in it.makes:
            packet.number, count = count, count + 1
        made.append(it)
    return made


def text_of(line: Line) -> str:
    return " ".join(str(it.number) if isinstance(it, Packet) else it for it in line.words)
