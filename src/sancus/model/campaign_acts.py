"""The acts of which a campaign's schedules are made: what the network, the environment and attackers do to an
application that is deployed. A plain line of a schedule is an act too.
"""

from __future__ import annotations

from dataclasses import dataclass, fields, replace
from enum import Enum
from typing import Any, Iterator, Tuple, Union


class Fate(Enum):
    """What the network does with an event: delivers it, drops it, delivers it twice, or after all others."""

    DELIVER = "deliver"
    DROP = "drop"
    TWICE = "twice"
    LATE = "late"


@dataclass(frozen=True)
class Reading:
    """A module's sensor has a value, and the module reads it. The events that follow have these fates, in the order in
    which they are sent; further ones are delivered."""

    module: str
    value: int
    fates: Tuple[Fate, ...] = ()


@dataclass(frozen=True)
class Sample:
    """A module's sensor has a value, and the module reads it. What it sends stays in its window."""

    module: str
    value: int


@dataclass(frozen=True)
class Carry:
    """The next event of a connection in its sender's window is delivered. What that makes the receiver send stays in
    its window."""

    connection: str


@dataclass(frozen=True)
class Hold:
    """The next event of a connection in its sender's window is taken and isn't delivered."""

    connection: str


@dataclass(frozen=True)
class Replay:
    """An event of a connection that was taken before is delivered, perhaps once more; they are counted from 0."""

    connection: str
    which: int


@dataclass(frozen=True)
class Change:
    """A byte of the next event of a connection in its sender's window gets a value."""

    connection: str
    at: int
    value: int


@dataclass(frozen=True)
class Reset:
    """A node is reset, and its modules are deployed again."""

    node: str


Act = Union[Reading, Sample, Carry, Hold, Replay, Change, Reset, str]


def said(act: Act) -> str:
    """An act in words: its kind and its values."""
    if isinstance(act, str):
        return act
    words = [word for field in fields(act) for word in said_value(getattr(act, field.name))]
    return " ".join([type(act).__name__.lower(), *words])


def said_value(value: Any) -> Iterator[str]:
    if isinstance(value, tuple):
        yield from (it.value for it in value)
    else:
        yield str(value)


def simpler(act: Act) -> Iterator[Act]:
    """Acts of the same kind with a smaller number, or with fewer or plainer fates, the simplest first."""
    if isinstance(act, str):
        return
    for field in fields(act):
        for it in simpler_values(getattr(act, field.name)):
            yield replace(act, **{field.name: it})


def simpler_values(value: Any) -> Iterator[Any]:
    match value:
        case int():
            yield from (it for it in dict.fromkeys((0, 1, value // 2, value - 1)) if 0 <= it < value)
        case tuple():
            yield from (value[:size] for size in range(len(value)))
            plainer = ((at, it) for at, it in enumerate(value) if it is not Fate.DELIVER)
            yield from ((*value[:at], Fate.DELIVER, *value[at + 1 :]) for at, _ in plainer)
