"""Writes a schedule of one that is written for people, and runs it as it goes: packets, boots and pieces are those
that the program showed.
"""

from __future__ import annotations

import os
import re
from collections import deque
from typing import Callable, Deque, Dict, List, Optional, Tuple

from sancus.model.asking import Program
from sancus.model.described import Deployment, End
from sancus.model.items import Item, say
from sancus.model.numbers import counted, number, within
from sancus.model.rules import near
from sancus.model.session import Session, snapped
from sancus.model.shown import plain
from sancus.model.table import words as table_words
from sancus.records import dataclass, field

EVENT, ANSWER = 24, 16
SET_KEY, ATTEST, EVENT_IN, SAMPLE = 0, 1, 2, 3
EVENT_KIND = 3
# More events than this aren't carried for one line: there are applications that never rest.
MOST_CARRIED = 4096
# A mark has no more letters of a line, and no longer name of a file, so that it is no longer than a line may be.
MOST_MARKED, LONGEST_PLACE = 200, 2000


class Mistake(Exception):
    """A line for people that can't be done, in words."""


@dataclass
class Windows:
    """Where packets are put and pieces taken, as the lines have them."""

    inside: str = "0x300"
    outside: str = "0x400"


@dataclass(frozen=True)
class Piece:
    """An event in a window: its place and its connection."""

    at: int
    connection: str


@dataclass(frozen=True)
class Sent:
    """An event that is on its way: its packet, and for which module it is."""

    packet: str
    sender: str
    receiver: str


@dataclass(frozen=True)
class Write:
    """Bytes of a node's memory that a line wrote, and what that was, with its place."""

    begin: int
    end: int
    what: str


@dataclass
class Call:
    """The last call of a module: where its events went, how many, over which connections as far as that is sure, and
    how many writes to its node came before. Those that were carried are kept by their places."""

    window: Optional[int]
    pieces: int
    line: int
    writes: int
    sure: List[Piece]
    carried: Dict[int, str] = field(default_factory=dict)

    @property
    def places(self) -> List[int]:
        return [(self.window or 0) + EVENT * it for it in range(self.pieces)]

    def lost(self, pieces: List[Piece]) -> List[int]:
        """The places of events that aren't there any more and weren't carried."""
        there = {it.at for it in pieces}
        return [it for it in self.places if it not in there and it not in self.carried]


@dataclass
class State:
    """What the items showed: the next packet and how long each is, boots, which modules are loaded, attested and have
    open ends, their last calls, and what was written to each node since its last reset."""

    packets: int = 0
    lengths: Dict[int, int] = field(default_factory=dict)
    boots: Dict[str, int] = field(default_factory=dict)
    loaded: Dict[str, bool] = field(default_factory=dict)
    attested: Dict[str, int] = field(default_factory=dict)
    open_ends: Dict[str, Dict[str, int]] = field(default_factory=dict)
    calls: Dict[str, Call] = field(default_factory=dict)
    writes: Dict[str, List[Write]] = field(default_factory=dict)
    named: Dict[str, int] = field(default_factory=dict)

    def boot(self, node: str) -> int:
        return self.boots.get(node, 0)


def spelled(place: str) -> str:
    """A place FILE:LINE as one word, whatever the file's name is."""
    word = plain(place if len(place) <= LONGEST_PLACE else os.path.basename(place))
    return word.replace(" ", "\\x20").replace("\t", "\\x09")


def mark_of(place: str, words: List[str]) -> str:
    """The comment that says of which line for people the lines below it were made."""
    text = " ".join(words)
    cut = text if len(text) <= MOST_MARKED else f"{text[:MOST_MARKED]}.."
    is_of_file = not re.fullmatch(r"line [0-9]+", place)
    return f"#= {spelled(place) if is_of_file else place} {plain(cut)}"


def times(count: int) -> str:
    return {1: "once", 2: "twice"}.get(count, f"{count} times")


class Writer:
    """The lines so far, and what they showed."""

    def __init__(self, deployment: Deployment, session: Session, program: Program) -> None:
        self.deployment, self.session, self.program = deployment, session, program
        self.windows, self.state = Windows(), State()
        self.lines: List[str] = []
        self.notes: List[str] = []
        self.is_marked = False
        # where the line is that is done
        self.place = ""
        self.acts: Dict[str, Callable[..., None]] = {
            "deploy": self.deploy,
            "sample": self.sample,
            "carry": self.carry,
            "flow": self.flow,
            "settle": self.settle,
            "windows": self.set_windows,
            "packets": self.check_packets,
            "boots": self.check_boots,
        }

    # --- Lines and what they show ---

    def put(self, *words: str) -> List[Item]:
        """Writes a line, has it done, and takes in what it showed."""
        text = " ".join(words)
        self.lines.append(text)
        items = [Item(0, it) for it in self.session.do(text)]
        self.take_in_write(items, list(words))
        for it in items:
            self.take_in(it, list(words))
        return items

    def take_in_write(self, items: List[Item], words: List[str]) -> None:
        """Remembers what a line wrote to a node's memory, as far as that shows."""
        act, node, at, size = words[0], "", 0, 0
        if act == "call" and any(it.kind == "done" for it in items):
            pieces = sum(it.fields()["pieces"] for it in items if it.kind == "done")
            node, at, size = self.deployment.node_of(words[1]), number(words[4]) or 0, EVENT * pieces
        elif act == "give" and not items:
            node, at, size = words[2], number(words[3]) or 0, self.state.lengths.get(number(words[1]) or 0, 0)
        elif act == "put" and not items:
            node, at, size = words[1], number(words[2]) or 0, len(words[3]) // 2
        if size:
            what = f"{words[1]}'s call" if act == "call" else f"the `{act}`"
            self.state.writes.setdefault(node, []).append(Write(at, at + size, f"{what} at {self.place}"))

    def take_in(self, item: Item, words: List[str]) -> None:
        state, made = self.state, item.fields()
        if item.kind == "packet":
            state.packets = made["packet"] + 1
            state.lengths[made["packet"]] = made["length"]
        elif item.kind == "reset":
            node = made["node"]
            state.boots[node] = state.boot(node) + 1
            state.writes.pop(node, None)
            for module in self.deployment.modules_of(node):
                state.loaded.pop(module.name, None)
                state.open_ends.pop(module.name, None)
                state.calls.pop(module.name, None)
        elif item.kind == "protect" and made["module"]:
            state.loaded[made["module"]] = True
        elif item.kind == "attested":
            state.attested[made["module"]] = made["boot"]
        elif item.kind == "open" and made["side"] == "from":
            state.open_ends.setdefault(made["module"], {})[made["connection"]] = made["epoch"]
        elif item.kind == "done":
            is_call = words[0] == "call" and words[1] == made["module"]
            window = number(words[4]) if is_call else None
            pieces = 0 if is_call and number(words[2]) == ATTEST else made["pieces"]
            writes = len(state.writes.get(self.deployment.node_of(made["module"]), []))
            call = Call(window, pieces, len(self.session.lines), writes, [])
            call.sure = self.sure_pieces(made["module"], call)
            state.calls[made["module"]] = call

    def note(self, text: str) -> None:
        self.notes.append(text)

    # --- Names and numbers ---

    def module(self, name: str) -> str:
        if name not in self.deployment.modules:
            raise Mistake(f"there is no module {name}{self.other(name)}")
        return self.deployment.node_of(name)

    def other(self, name: str) -> str:
        """What a name is that is none of a module, or which module it may have been."""
        if name in self.deployment.nodes:
            there = [it.name for it in self.deployment.modules_of(name)]
            return f": {name} is a node, with the modules {' '.join(there)}" if there else f": {name} is a node"
        if name in self.deployment.devices:
            return f": {name} is a device, and {self.deployment.devices[name].driver or 'no module'} drives it"
        return near(name, list(self.deployment.modules))

    def packet(self, word: str) -> str:
        """A packet's number, by its name or the number itself."""
        if number(word) is not None:
            return word
        kind, *names = word.split(".")
        if word not in self.state.named and kind == "event" and len(names) == 2 and all(map(self.module, names)):
            raise Mistake(f"there is no {word} yet: no event was carried from {names[0]} to {names[1]}")
        if word not in self.state.named:
            known = sorted(self.state.named)
            raise Mistake(
                f"no packet is named {word}{near(word, known)}; the names so far: {' '.join(known) or 'none'}"
            )
        return str(self.state.named[word])

    def new_packet(self, items: List[Item], what: str, *names: str) -> str:
        """The number of the packet that a line made, under these names too."""
        made = [it.fields()["packet"] for it in items if it.kind == "packet"]
        if not made:
            raise Mistake(f"{what} made no packet: {self.told(items)}")
        self.state.named.update({it: made[0] for it in names if it})
        return str(made[0])

    def told(self, items: List[Item]) -> str:
        return "; ".join(f"`{it.text}`: {say(it, self.deployment)}" for it in items) or "it showed nothing"

    def receiver(self, connection: str) -> str:
        return self.deployment.connections[connection].receiver

    # --- What lines for people are made of ---

    def call(self, module: str, entry: int) -> List[Item]:
        return self.put("call", module, str(entry), self.windows.inside, self.windows.outside)

    def hand(self, packet: str, module: str, entry: int) -> List[Item]:
        """Gives a packet to a module's node, and calls an entry of the module with it."""
        given = self.put("give", packet, self.module(module), self.windows.inside)
        if given:
            raise Mistake(f"packet {packet} isn't given to {module}'s node: {self.told(given)}")
        return self.call(module, entry)

    def must_be_done(self, items: List[Item], module: str, what: str) -> None:
        if not any(it.text.startswith(f"done {module} 1 ") for it in items):
            raise Mistake(f"{what} failed: {self.told(items)}")

    def deploy(self, *names: str) -> None:
        modules = list(self.deployment.modules) if names == ("all",) else list(names)
        for name in modules:
            node = self.module(name)
            if self.state.loaded.get(name):
                missing = [it for it in modules if not self.state.loaded.get(it)]
                advice = f"`deploy {' '.join(missing)}` deploys the others" if missing else f"`reset {node}` first"
                raise Mistake(
                    f"{name} is loaded already, since boot {self.state.boot(node)} of {node}: {advice}, or call it as "
                    "it is"
                )
        for name in modules:
            items = self.put("load", name)
            if not self.state.loaded.get(name):
                raise Mistake(f"{name} is loaded, and isn't protected then: {self.told(items)}")
        for name in modules:
            self.attest(name)

    def attest(self, name: str) -> None:
        """Asks a module, hands its answer to the deployer, and the set-key packets that it makes then to their
        holders."""
        node = self.module(name)
        ask = self.new_packet(self.put("ask", name), f"asking {name}", f"ask.{name}")
        self.must_be_done(self.hand(ask, name, ATTEST), name, f"the attestation of {name}")
        answer = self.new_packet(
            self.put("take", node, self.windows.outside, str(ANSWER)), "taking the answer", f"answer.{name}"
        )
        was_attested = name in self.state.attested
        items = self.put("answer", name, str(self.state.boot(node)), answer)
        if not any(it.kind == "attested" for it in items):
            raise Mistake(
                f"the deployer refuses {name}'s answer, perhaps since it was attested at this boot: {self.told(items)}"
            )
        self.hand_keys(self.keys(name, was_attested, items))

    def keys(self, name: str, was_attested: bool, items: List[Item]) -> List[Tuple[End, int]]:
        """Which end each set-key packet of an accepted answer is for, by docs/FORMATS.md."""
        ends = self.deployment.modules[name].ends
        if was_attested:
            # Renewed connections get new keys at their other ends too, in modules that were attested.
            own = {it.connection for it in ends}
            ends = ends + [
                it
                for it in self.deployment.ends
                if it.module != name and it.connection in own and it.module in self.state.attested
            ]
        packets = [it.fields()["packet"] for it in items if it.kind == "packet"]
        if len(packets) != len(ends):
            raise Mistake(f"{len(ends)} set-key packets are due, and the deployer made {len(packets)}")
        for end, packet in zip(ends, packets):
            self.state.named[f"key.{end.module}.{end.connection}.{end.side}"] = packet
        return list(zip(ends, packets))

    def hand_keys(self, keys: List[Tuple[End, int]]) -> None:
        for end, packet in keys:
            # (a module that was attested at an earlier boot of its node is gone, and so is its end)
            is_here = self.state.loaded.get(end.module)
            if is_here and self.state.attested.get(end.module) == self.state.boot(self.deployment.node_of(end.module)):
                self.must_be_done(
                    self.hand(str(packet), end.module, SET_KEY), end.module, f"opening {end.connection} in {end.module}"
                )

    def sample(self, name: str, value: str) -> None:
        self.sampled(name, value)

    def sampled(self, name: str, value: str) -> List[Item]:
        """Gives a sensor a value, and calls its driver, whose items are returned."""
        self.module(name)
        sensor = self.deployment.modules[name].sensor
        if not sensor:
            raise Mistake(f"{name} drives no sensor")
        if not within(value, 0, 32767):
            raise Mistake(f"{value} is no value of a sensor: 0 to 32,767")
        self.must_be_loaded(name)
        items = self.put("sense", sensor, value)
        if not any(it.kind == "sense" for it in items):
            raise Mistake(f"the sample isn't taken: {self.told(items)}")
        called = self.call(name, SAMPLE)
        self.tell_status(called, name)
        return called

    def must_be_loaded(self, name: str) -> None:
        if not self.state.loaded.get(name):
            raise Mistake(self.absence(name))

    def absence(self, name: str) -> str:
        """Why a module isn't there."""
        node = self.deployment.node_of(name)
        if not self.state.boot(node):
            return f"{name} isn't loaded on {node} yet: `deploy {name}` first"
        was_reset = f"{node} was reset {times(self.state.boot(node))}"
        return f"{name} isn't loaded on {node} any more: {was_reset}, and `deploy {name}` renews it"

    def tell_status(self, items: List[Item], name: str) -> None:
        """Says of a call that did nothing why; it may be just what was wanted."""
        for it in items:
            made = it.fields()
            if it.kind == "done" and made["status"] != 1:
                self.note(
                    f"{name} answers with status {made['status']}: {table_words()['statuses'][str(made['status'])][1]}"
                )
            elif it.kind in ("reset", "busy", "budget"):
                self.note(f"`{it.text}`: {say(it, self.deployment)}")

    # --- Carrying ---

    def carry(self, sender: str, receiver: str, which: str = "") -> None:
        self.module(sender)
        self.module(receiver)
        sending = [it for it in self.deployment.modules[sender].ends if it.side == "from"]
        between = [it.connection for it in sending if it.peer == receiver]
        if not between:
            to = sorted({it.peer for it in sending})
            raise Mistake(
                f"no connection leads from {sender} to {receiver}; {sender} sends to: {' '.join(to) or 'nobody'}"
            )
        sent = self.taken(sender, self.find(sender, receiver, between, which))
        self.must_be_loaded(receiver)
        self.tell_status(self.hand(sent.packet, receiver, EVENT_IN), receiver)

    def taken(self, sender: str, piece: Piece) -> Sent:
        """Makes a packet of an event in a window."""
        receiver = self.receiver(piece.connection)
        self.state.calls[sender].carried[piece.at] = piece.connection
        items = self.put("take", self.deployment.node_of(sender), f"0x{piece.at:x}", str(EVENT))
        return Sent(self.new_packet(items, "taking the event", f"event.{sender}.{receiver}"), sender, receiver)

    def flow(self, sensor: str, value: str) -> None:
        """A reading, and then every event that follows, as `drive` delivers them."""
        driver = self.driver(sensor)
        items = self.sampled(driver, value)
        self.deliver(self.sent_at(driver, items))

    def settle(self) -> None:
        """Carries what is on its way, and what follows, until nothing is."""
        calls = sorted(self.state.calls, key=lambda it: self.state.calls[it].line)
        waiting = [sent for it in calls for sent in self.on_the_way(it)]
        if not waiting:
            self.note("nothing is on its way")
        self.deliver(waiting)

    def driver(self, sensor: str) -> str:
        """The module that drives a sensor, by the sensor's name or by its own."""
        devices, modules = self.deployment.devices, self.deployment.modules
        if sensor not in devices:
            if sensor not in modules:
                found = near(sensor, [*devices, *modules])
                raise Mistake(f"there is no sensor {sensor}, and no module of this name{found}")
            return sensor
        driver = devices[sensor].driver
        if not driver:
            raise Mistake(f"no module drives {sensor}")
        return driver

    def on_the_way(self, sender: str) -> List[Sent]:
        """Takes the events of a module's last call that are in their window and weren't carried."""
        call = self.state.calls.get(sender)
        if not call or call.window is None:
            return []
        pieces = self.pieces(sender, call)
        lost = call.lost(pieces)
        if lost:
            writer = self.written_over(sender, lost) or "another call or line"
            self.note(f"{counted(len(lost), 'event')} of {sender} can't be carried any more: {writer} wrote there")
        return [self.taken(sender, it) for it in pieces if it.at not in call.carried]

    def sent_at(self, sender: str, items: List[Item]) -> List[Sent]:
        """Takes the events of a call of a module, if it was left."""
        is_left = any(it.kind == "done" and it.fields()["module"] == sender for it in items)
        return self.on_the_way(sender) if is_left else []

    def deliver(self, sent: List[Sent]) -> None:
        """Gives the oldest event to its module, whose events are taken then, until none waits."""
        waiting: Deque[Sent] = deque(sent)
        for _ in range(MOST_CARRIED):
            if not waiting:
                return
            event = waiting.popleft()
            if not self.state.loaded.get(event.receiver):
                self.note(f"the event of {event.sender} isn't delivered: {self.absence(event.receiver)}")
                continue
            items = self.hand(event.packet, event.receiver, EVENT_IN)
            self.tell_status(items, event.receiver)
            waiting += self.sent_at(event.receiver, items)
        if waiting:
            raise Mistake(f"{MOST_CARRIED:,} events were carried, and the application doesn't come to rest")

    def find(self, sender: str, receiver: str, between: List[str], which: str) -> Piece:
        """The piece that is carried: the first for the receiver that wasn't, of the sender's last call."""
        call = self.state.calls.get(sender)
        if not call:
            raise Mistake(f"{sender} wasn't called since it was loaded, so it sent nothing")
        if call.window is None:
            raise Mistake(
                f"{sender} was called by other code, and not by a line `call`: `take` its piece where that put it"
            )
        if not call.pieces:
            raise Mistake(f"{sender} sent nothing at its last call")
        pieces = self.pieces(sender, call)
        if number(which) is not None and which:
            return self.by_place(sender, receiver, pieces, number(which) or 0)
        if which and which not in between:
            raise Mistake(f"no connection {which} leads from {sender} to {receiver}: {' '.join(between)}")
        wanted = [which] if which else between
        left = [it for it in pieces if it.connection in wanted and it.at not in call.carried]
        if not left:
            raise Mistake(self.nothing_for(sender, receiver, wanted, pieces))
        return left[0]

    def nothing_for(self, sender: str, receiver: str, wanted: List[str], pieces: List[Piece]) -> str:
        opened = self.state.open_ends.get(sender, {})
        closed = [it for it in wanted if it not in opened]
        if closed:
            return f"{sender} has no key for {' '.join(closed)} yet, so it sent nothing to {receiver}: `deploy` both"
        call = self.state.calls[sender]
        others = [it.at for it in call.sure if it.connection not in wanted]
        lost = [it for it in call.lost(pieces) if it not in others]
        if lost:
            writer = self.written_over(sender, lost) or f"another call or line on {self.deployment.node_of(sender)}"
            return (
                f"no event for {receiver} is in the window of {sender} any more: {writer} wrote over what it sent; "
                f"`carry {sender} {receiver}` before that, or set other `windows` for it"
            )
        if any(it in wanted for it in call.carried.values()):
            return (
                f"what {sender} sent to {receiver} at its last call was carried; `give event.{sender}.{receiver} NODE` "
                "gives it again"
            )
        there = ", ".join(f"{it.connection} to {self.receiver(it.connection)}" for it in pieces)
        return f"no event for {receiver} is in the window: there is {there or 'none'}"

    def written_over(self, sender: str, places: List[int]) -> str:
        """What wrote last over one of some places since a module's last call, or nothing that is known."""
        writes = self.state.writes.get(self.deployment.node_of(sender), [])[self.state.calls[sender].writes :]
        met = [it for it in writes if any(it.begin < at + EVENT and at < it.end for at in places)]
        return met[-1].what if met else ""

    def by_place(self, sender: str, receiver: str, pieces: List[Piece], which: int) -> Piece:
        places = self.state.calls[sender].places
        if which >= len(places):
            raise Mistake(f"there is no piece {which}: the last call wrote {len(places)}")
        found = next((it for it in pieces if it.at == places[which]), None)
        if not found:
            writer = self.written_over(sender, [places[which]]) or "another call or line"
            raise Mistake(f"piece {which} isn't there any more: {writer} wrote over it")
        if self.receiver(found.connection) != receiver:
            raise Mistake(
                f"piece {which} is for {self.receiver(found.connection)}, by {found.connection}, and not for "
                f"{receiver}"
            )
        return found

    def pieces(self, sender: str, call: Call) -> List[Piece]:
        """The events of the sender in the window, as they are there now; by what the packets say, and not by their
        places."""
        node, now = self.deployment.node_of(sender), len(self.session.lines)
        if call.line == now and call.sure:
            return call.sure
        answers = snapped(
            self.program, self.deployment.head, self.session.lines, [f"bytes {node} 0x{at:x} 6 {now}" for at in call.places]
        )
        found, connections = [], list(self.deployment.connections.values())
        for at, answer in zip(call.places, answers):
            data = bytes.fromhex(answer.split(" ")[-1])
            kind, link = int.from_bytes(data[:2], "little"), data[2]
            if kind == EVENT_KIND and link < len(connections) and connections[link].sender == sender:
                found.append(Piece(at, connections[link].name))
        return found

    def sure_pieces(self, sender: str, call: Call) -> List[Piece]:
        """The events of a call that was just made, if all open ends are of one output: then each `send` made one for
        each of them, in this order."""
        opened = self.state.open_ends.get(sender, {})
        ends = [it for it in self.deployment.modules[sender].ends if it.side == "from" and it.connection in opened]
        if len({it.port for it in ends}) != 1:
            return []
        return [Piece(at, ends[which % len(ends)].connection) for which, at in enumerate(call.places)]

    # --- Plain lines ---

    def plain(self, words: List[str], name: str) -> None:
        """A line of a schedule, perhaps without its windows, its boot or its packet's number."""
        act, fields = words[0], words[1:]
        if act == "call" and len(fields) == 2:
            fields += [self.windows.inside, self.windows.outside]
        elif act == "give" and len(fields) == 2:
            fields.append(self.windows.inside)
        elif act == "take" and len(fields) == 2:
            fields.insert(1, self.windows.outside)
        elif act == "answer" and len(fields) == 2:
            fields.insert(1, str(self.state.boot(self.module(fields[0]))))
        if act == "give" and fields:
            fields[0] = self.packet(fields[0])
        if act == "answer" and len(fields) == 3:
            fields[2] = self.packet(fields[2])
        if name and act not in ("take", "forge", "ask"):
            raise Mistake(f"`{act}` makes no packet to name")
        was_attested = act == "answer" and fields[0] in self.state.attested
        items = self.put(act, *fields)
        if name or act == "ask":
            self.new_packet(items, f"`{act}`", name, f"ask.{fields[0]}" if act == "ask" else "")
        if name:
            self.lines.append(f"# {name} is packet {self.state.named[name]}")
        if any(it.kind == "attested" for it in items):
            self.keys(fields[0], was_attested, items)

    def line(self, text: str, place: str) -> None:
        """Does a line for people, or a plain one, and marks what was made of it. A plain line that stays as it is has a
        mark only after other marks, which end there."""
        words, begin, self.place = text.split(), len(self.lines), place
        self.do(text)
        if not words or words[0].startswith("#"):
            return
        if self.is_marked or self.lines[begin:] not in ([text], [" ".join(words)]):
            self.is_marked = True
            self.lines.insert(begin, mark_of(place, words))

    def do(self, text: str) -> None:
        """Does a line, without a mark."""
        words = text.split()
        if not words or words[0].startswith("#"):
            self.lines.append(text)
        elif words[0] == "asm":
            self.put(text)
        else:
            self.act(words)

    def act(self, words: List[str]) -> None:
        """Does a line by its words."""
        name = ""
        if len(words) > 2 and words[-2] == "as":
            words, name = words[:-2], words[-1]
            if number(name) is not None:
                raise Mistake(f"{name} is a number, and no name")
        if words[0] not in self.acts:
            self.plain(words, name)
            return
        if name:
            raise Mistake(f"`{words[0]}` names its packets itself")
        least, most, form = FORMS[words[0]]
        if not least <= len(words) - 1 <= most:
            raise Mistake(f"`{words[0]}` has too many words or too few: {form}")
        self.acts[words[0]](*words[1:])

    def set_windows(self, inside: str, outside: str) -> None:
        for it in (inside, outside):
            if not within(it, 0, 65535):
                raise Mistake(f"{it} is no address")
        self.windows = Windows(inside, outside)

    def check_packets(self, count: str) -> None:
        if number(count) != self.state.packets:
            self.note(f"the next packet is {self.state.packets}, as the program shows; `packets` is no longer needed")

    def check_boots(self, node: str, count: str) -> None:
        if number(count) != self.state.boot(node):
            self.note(f"{node} is at boot {self.state.boot(node)}, as the program shows; `boots` is no longer needed")


# How many words a line for people has after its first, and how it is written.
FORMS: Dict[str, Tuple[int, int, str]] = {
    "deploy": (1, 32, "deploy all, or deploy MODULE .."),
    "sample": (2, 2, "sample MODULE VALUE"),
    "carry": (2, 3, "carry MODULE MODULE [CONNECTION or PIECE]"),
    "flow": (2, 2, "flow SENSOR VALUE"),
    "settle": (0, 0, "settle"),
    "windows": (2, 2, "windows IN OUT"),
    "packets": (1, 1, "packets NUMBER"),
    "boots": (2, 2, "boots NODE NUMBER"),
}
