"""Items of a trace as values: a frozen dataclass for each kind, which `match` takes apart.

Two items are equal if their words are. Where an item stands is beside its words: `number`, `line`, `on` and `text`.
"""

from __future__ import annotations

from dataclasses import dataclass, field, fields
from typing import Any, Callable, ClassVar, Dict, Optional, Type

from sancus.model.described import Deployment
from sancus.model.items import Item as Words
from sancus.model.items import node_of


@dataclass(frozen=True)
class Place:
    """Where an item stands, and its text. Which line of the schedule gave it is found out if it is asked for."""

    number: int = 0
    on: Optional[str] = None
    text: str = ""
    line_of: Callable[[int], Optional[int]] = lambda _number: None


@dataclass(frozen=True)
class Item:
    """An item: its words by name."""

    kind: ClassVar[str] = ""
    place: Place = field(default=Place(), kw_only=True, compare=False, repr=False)

    @property
    def number(self) -> int:
        """Its number, from 1 after `trace`."""
        return self.place.number

    @property
    def line(self) -> Optional[int]:
        """The line of the schedule that gave it, from 1; None if that can't be told."""
        return self.place.line_of(self.number)

    @property
    def on(self) -> Optional[str]:
        """The node on which it came about; None for items of the deployer and the network."""
        return self.place.on

    @property
    def text(self) -> str:
        """The item as it is printed."""
        return self.place.text

    def as_dict(self) -> Dict[str, Any]:
        """Its words by name, with its number, kind and node."""
        words = {it.name: getattr(self, it.name) for it in fields(self) if it.name != "place"}
        return {"item": self.number, "kind": self.kind, "on": self.on, **words}


@dataclass(frozen=True)
class Protect(Item):
    """A module was protected on a node; None is code that is no module of the deployment."""

    kind = "protect"
    node: str
    module: Optional[str]


@dataclass(frozen=True)
class Reset(Item):
    """A node was reset."""

    kind = "reset"
    node: str
    cause: str


@dataclass(frozen=True)
class Ask(Item):
    """The deployer asked a module."""

    kind = "ask"
    module: str
    challenge: int


@dataclass(frozen=True)
class Vouch(Item):
    """A module answered a challenge with its own key."""

    kind = "vouch"
    module: str
    challenge: int


@dataclass(frozen=True)
class Attested(Item):
    """The deployer accepted a module's answer."""

    kind = "attested"
    module: str
    boot: int


@dataclass(frozen=True)
class Denied(Item):
    """The deployer refused an answer."""

    kind = "denied"
    module: str


@dataclass(frozen=True)
class Open(Item):
    """A module's end of a connection got its key."""

    kind = "open"
    module: str
    connection: str
    side: str
    epoch: int


@dataclass(frozen=True)
class Take(Item):
    """A module took an event of a connection."""

    kind = "take"
    module: str
    connection: str
    epoch: int
    event: int
    value: int


@dataclass(frozen=True)
class Sense(Item):
    """A sensor got a value."""

    kind = "sense"
    device: str
    value: int


@dataclass(frozen=True)
class Read(Item):
    """A module read its sensor."""

    kind = "read"
    module: str
    value: int


@dataclass(frozen=True)
class Drain(Item):
    """Code that is no driver of a sensor read it."""

    kind = "drain"
    device: str


@dataclass(frozen=True)
class Out(Item):
    """A module wrote a value to its actuator."""

    kind = "out"
    module: str
    value: int


@dataclass(frozen=True)
class Raw(Item):
    """Code that is no driver of an actuator wrote to it."""

    kind = "raw"
    device: str
    value: int


@dataclass(frozen=True)
class Done(Item):
    """A module was left, with a status, and so many pieces in its out-window."""

    kind = "done"
    module: str
    status: int
    pieces: int


@dataclass(frozen=True)
class Packet(Item):
    """A packet was made."""

    kind = "packet"
    packet: int
    length: int


@dataclass(frozen=True)
class Forged(Item):
    """A module, or the deployer, accepted a tag that its rightful maker hadn't made."""

    kind = "forged"
    module: Optional[str]


@dataclass(frozen=True)
class Busy(Item):
    """A line was refused, since a module runs on the node."""

    kind = "busy"
    node: str


@dataclass(frozen=True)
class Skip(Item):
    """A line was refused."""

    kind = "skip"
    node: str


@dataclass(frozen=True)
class Budget(Item):
    """A line took all steps that it may, and a module of the node still runs."""

    kind = "budget"
    node: str


KINDS: Dict[str, Type[Item]] = {it.kind: it for it in Item.__subclasses__()}
FIELDS = {kind: [it.name for it in fields(made) if it.name != "place"] for kind, made in KINDS.items()}


def item_of(text: str, number: int, line_of: Callable[[int], Optional[int]], deployment: Deployment) -> Item:
    """An item of its line of the trace."""
    words = Words(number, text)
    made = words.fields()
    place = Place(number, node_of(words, deployment), text, line_of)
    return KINDS[words.kind](**{name: made[name] for name in FIELDS[words.kind]}, place=place)
