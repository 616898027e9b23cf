"""Draws the acts of a schedule: those of a network that loses, doubles and delays events, or of attackers too."""

from __future__ import annotations

from random import Random
from typing import Callable, Dict, List

from sancus.model.campaign_acts import Act, Carry, Change, Fate, Hold, Reading, Replay, Reset, Sample
from sancus.model.schedule import EVENT
from sancus.model.scribe import Layout
from sancus.model.values import GREATEST, constants

# How many acts are drawn, and how often each fate.
FEWEST, MOST, MOST_HOSTILE = 2, 6, 14
MOST_HELD = 8
FATES = {Fate.DELIVER: 7, Fate.DROP: 1, Fate.TWICE: 1, Fate.LATE: 1}

# Kinds of acts, and how often each is drawn.
Kinds = Dict[Callable[[Random], Act], int]


class NothingToDraw(Exception):
    """An application of which no acts can be drawn, in words."""


class Drawing:
    """Draws acts of one deployment."""

    def __init__(self, layout: Layout) -> None:
        if not layout.sensors:
            raise NothingToDraw("no module drives a sensor, so there are no readings to draw")
        self.drivers, self.nodes, self.connections = list(layout.sensors), layout.nodes, layout.connections
        self.values = values_of(layout)
        self.reached = {it: len(layout.reached(it)) for it in self.drivers}

    def network(self, random: Random) -> List[Act]:
        """Readings with fates of their events, and resets."""
        kinds: Kinds = {self.reading: 4, self.reset: 1}
        return drawn(kinds, random.randint(FEWEST, MOST), random)

    def hostile(self, random: Random) -> List[Act]:
        """The same, and between them single events that are carried, held back, given again or changed."""
        kinds: Kinds = {self.reading: 3, self.reset: 1, self.sample: 2}
        if self.connections:
            kinds.update({self.carry: 4, self.hold: 1, self.replay: 2, self.change: 1})
        return drawn(kinds, random.randint(FEWEST, MOST_HOSTILE), random)

    def reading(self, random: Random) -> Reading:
        module = random.choice(self.drivers)
        fates = random.choices(list(FATES), list(FATES.values()), k=self.reached[module])
        return Reading(module, random.choice(self.values), tuple(fates))

    def reset(self, random: Random) -> Reset:
        return Reset(random.choice(self.nodes))

    def sample(self, random: Random) -> Sample:
        return Sample(random.choice(self.drivers), random.choice(self.values))

    def carry(self, random: Random) -> Carry:
        return Carry(random.choice(self.connections))

    def hold(self, random: Random) -> Hold:
        return Hold(random.choice(self.connections))

    def replay(self, random: Random) -> Replay:
        return Replay(random.choice(self.connections), random.randrange(MOST_HELD))

    def change(self, random: Random) -> Change:
        return Change(random.choice(self.connections), random.randrange(EVENT), random.randrange(256))


def drawn(kinds: Kinds, count: int, random: Random) -> List[Act]:
    """So many acts, each of a kind that is drawn by its weight."""
    return [it(random) for it in random.choices(list(kinds), list(kinds.values()), k=count)]


def values_of(layout: Layout) -> List[int]:
    """Readings to draw: small ones, and those about the numbers of the sources."""
    numbers = [number for tree in layout.trees.values() for number in constants(tree)]
    found = {0, 1, 2, 3, *(number + by for number in numbers for by in (-1, 0, 1))}
    return sorted(it for it in found if 0 <= it <= GREATEST)
