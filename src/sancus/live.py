"""A session with an application: lines are done one by one, and each event that a module sends waits on its way until
it is delivered, dropped or delivered twice. Each act can be taken back.

The session is its lines, a schedule for people: an event that waits has a name, as `e1.eye.logic`, by which a line took
it, another gives it, and a comment drops it. So a session that was saved goes on where it ended.
"""

from __future__ import annotations

import re
from dataclasses import dataclass, field
from typing import TYPE_CHECKING, FrozenSet, Iterable, List, Tuple

from sancus.errors import Refused
from sancus.items import Item
from sancus.model.numbers import number
from sancus.model.schedule import EVENT, EVENT_IN, Mistake
from sancus.run import State

if TYPE_CHECKING:
    from sancus.app import App

NAMED = r"e([0-9]+)\.([a-z][a-z0-9_]*)\.([a-z][a-z0-9_]*)"
TAKEN = re.compile(rf"take \S+ (0x[0-9a-f]+) {EVENT} as {NAMED}")
GIVEN = re.compile(rf"give {NAMED} \S+")
DROPPED = re.compile(rf"# drop {NAMED}")


@dataclass(frozen=True)
class Waiting:
    """An event on its way: its number, from which module to which, and over which connection."""

    number: int
    sender: str
    receiver: str
    connection: str

    @property
    def name(self) -> str:
        """Its name in the schedule."""
        return f"e{self.number}.{self.sender}.{self.receiver}"

    def __str__(self) -> str:
        return f"{self.number}: {self.sender} -> {self.receiver} by {self.connection}"


# An event in a window: its sender, the line of the call that sent it, and its place.
Sent = Tuple[str, int, int]


@dataclass(frozen=True)
class Network:
    """The events that wait, those in windows that were taken, and the next number."""

    waiting: Tuple[Waiting, ...] = ()
    taken: FrozenSet[Sent] = field(default_factory=frozenset)
    next: int = 1

    def without(self, name: str) -> "Network":
        return Network(tuple(it for it in self.waiting if it.name != name), self.taken, self.next)

    def having(self, it: Waiting) -> "Network":
        return Network((*self.waiting, it), self.taken, max(self.next, it.number + 1))


@dataclass(frozen=True)
class Act:
    """What was done: in how many steps of the schedule, and what was on its way before."""

    steps: int
    before: Network


class Live:
    """A session with an application. What can't be done is Refused, and changes nothing."""

    def __init__(self, app: "App", lines: Iterable[str] = ()) -> None:
        self.app = app
        self.schedule = app.schedule()
        self.network = Network()
        self.acts: List[Act] = []
        for it in lines:
            self.step(it)
        self.take_what_was_sent()

    def __enter__(self) -> "Live":
        return self

    def __exit__(self, *_: object) -> None:
        self.close()

    def close(self) -> None:
        """Ends the program."""
        self.schedule.close()

    # --- What is there ---

    @property
    def waiting(self) -> List[Waiting]:
        """The events on their way, the oldest first."""
        return list(self.network.waiting)

    @property
    def lines(self) -> List[str]:
        """The session as lines for people, which `sancus run` takes, and a session goes on with."""
        return [line for texts in self.schedule.given for line in texts]

    def variables(self, module: str) -> State:
        """A module's variables, arrays and ends as they are now."""
        return self.schedule.run().state(module)

    def why(self, item: str = "") -> str:
        """The chain of causes of an item, as `Run.why` names it; without one, of the last `out`."""
        return self.schedule.run().why(item or None)

    def verdict(self) -> List[str]:
        """What the sources say of the run so far."""
        return self.schedule.run().explain().words[-1:]

    # --- Acts ---

    def line(self, text: str) -> List[Item]:
        """Does a line, for people or a plain one. `carry M N` delivers the oldest event from M to N that waits."""
        words = text.split()
        if words[:1] == ["carry"] and len(words) in (3, 4):
            return self.deliver(self.carried(text, *words[1:]).number)
        return self.act(text)

    def deliver(self, event: int) -> List[Item]:
        """Hands an event that waits to its module, by its number."""
        return self.act(*self.delivery(event))

    def twice(self, event: int) -> List[Item]:
        """Hands an event that waits to its module, and then once more."""
        return self.act(*self.delivery(event), *self.delivery(event))

    def drop(self, event: int) -> None:
        """Loses an event that waits."""
        self.act(f"# drop {self.event(event).name}")

    def undo(self, acts: int = 1) -> None:
        """Takes back the last acts: what came before them is run again."""
        if not 0 <= acts <= len(self.acts):
            raise Refused(f"undo {acts}", f"there are {len(self.acts)} acts to take back")
        if acts:
            undone = self.acts[-acts:]
            del self.acts[-acts:]
            self.network = undone[0].before
            self.schedule.undo(sum(it.steps for it in undone))

    # --- How they are done ---

    def event(self, which: int) -> Waiting:
        found = next((it for it in self.network.waiting if it.number == which), None)
        if not found:
            known = ", ".join(map(str, self.network.waiting))
            raise Refused(f"event {which}", f"no event {which} is on its way: {known or 'none is'}")
        return found

    def delivery(self, event: int) -> List[str]:
        it = self.event(event)
        return [f"give {it.name} {self.app.deployment.node_of(it.receiver)}", f"call {it.receiver} {EVENT_IN}"]

    def carried(self, text: str, sender: str, receiver: str, connection: str = "") -> Waiting:
        """The event that a line `carry` means."""
        try:
            for it in (sender, receiver):
                self.schedule.writer.module(it)
        except Mistake as error:
            raise Refused(text, str(error)) from None
        ways = [it for it in self.network.waiting if (it.sender, it.receiver) == (sender, receiver)]
        found = next((it for it in ways if connection in ("", it.connection)), None)
        if not found:
            raise Refused(text, f"no event from {sender} to {receiver} is on its way")
        return found

    def act(self, *texts: str) -> List[Item]:
        """Does some lines, and takes what was sent; all of it is taken back together."""
        before, steps = self.network, len(self.schedule.given)
        items = [*self.step(*texts), *self.take_what_was_sent()]
        self.acts.append(Act(len(self.schedule.given) - steps, before))
        return items

    def step(self, *texts: str) -> List[Item]:
        lines = len(self.schedule.writer.lines)
        items = self.schedule.step(*texts)
        for it in self.schedule.writer.lines[lines:]:
            self.note_take(it.split())
        for it in texts:
            self.note_name(it)
        return items

    def note_take(self, words: List[str]) -> None:
        """Follows which events were taken, by whatever line."""
        if words[:1] != ["take"] or words[3] != str(EVENT):
            return
        at, calls = number(words[2]), self.schedule.writer.state.calls
        there = [(it, call) for it, call in calls.items() if self.app.deployment.node_of(it) == words[1]]
        new = {(it, call.line, at) for it, call in there if at is not None and at in call.places}
        self.network = Network(self.network.waiting, self.network.taken | new, self.network.next)

    def note_name(self, text: str) -> None:
        """Follows what a line does with events by their names."""
        taken, done = TAKEN.fullmatch(text), GIVEN.fullmatch(text) or DROPPED.fullmatch(text)
        if taken:
            self.note_waiting(int(taken[1], 16), int(taken[2]), taken[3], taken[4])
        elif done:
            self.network = self.network.without(f"e{done[1]}.{done[2]}.{done[3]}")

    def note_waiting(self, at: int, which: int, sender: str, receiver: str) -> None:
        call = self.schedule.writer.state.calls.get(sender)
        pieces = self.schedule.writer.pieces(sender, call) if call else []
        connection = next((it.connection for it in pieces if it.at == at), "")
        if connection and self.app.deployment.connections[connection].receiver == receiver:
            self.network = self.network.having(Waiting(which, sender, receiver, connection))

    def take_what_was_sent(self) -> List[Item]:
        """Takes each event that is in its window, and wasn't taken or carried."""
        lines = [f"take {node} 0x{at:x} {EVENT} as {name}" for node, at, name in self.sent()]
        return self.step(*lines) if lines else []

    def sent(self) -> List[Tuple[str, int, str]]:
        """Where events are that have to be taken: the node, the place in its memory, and the name."""
        writer, found = self.schedule.writer, []
        for sender, call in sorted(writer.state.calls.items(), key=lambda it: it[1].line):
            places = [] if call.window is None else writer.pieces(sender, call)
            gone = {*call.carried, *(at for it, line, at in self.network.taken if (it, line) == (sender, call.line))}
            new = [it for it in places if it.at not in gone]
            found += [(sender, it.at, self.app.deployment.connections[it.connection].receiver) for it in new]
        numbered = enumerate(found, self.network.next)
        return [(self.app.deployment.node_of(it), at, f"e{which}.{it}.{to}") for which, (it, at, to) in numbered]
