"""Strategies of Hypothesis for the acts of a deployment: what `sancus.campaign` draws by seeds, with Hypothesis' own
search for a failure and for its simplest form.
"""

from __future__ import annotations

from typing import List, Optional

try:
    from hypothesis import strategies as st
    from hypothesis.strategies import SearchStrategy
except ImportError:
    raise ImportError("strategies need hypothesis: pip install hypothesis") from None

from sancus.app import App
from sancus.campaign import Act, Carry, Change, Fate, Hold, Layout, Reading, Replay, Reset, Sample
from sancus.model.generators import MOST_HELD, values_of
from sancus.model.schedule import EVENT


def network(app: App, values: Optional[SearchStrategy[int]] = None, max_size: int = 8) -> SearchStrategy[List[Act]]:
    """Readings with fates of the events that follow, and resets: the faults of a network and of nodes."""
    layout = Layout(app.deployment)
    return st.lists(st.one_of(*readings(layout, values), resets(layout)), max_size=max_size)


def acts(app: App, values: Optional[SearchStrategy[int]] = None, max_size: int = 20) -> SearchStrategy[List[Act]]:
    """The same, and single events that are carried, held back, given again or changed: an attacker's acts."""
    layout = Layout(app.deployment)
    kinds: List[SearchStrategy[Act]] = [*readings(layout, values), resets(layout), *samples(layout, values)]
    if layout.connections:
        kinds += of_events(st.sampled_from(layout.connections))
    return st.lists(st.one_of(*kinds), max_size=max_size)


def drawn_values(layout: Layout, values: Optional[SearchStrategy[int]]) -> SearchStrategy[int]:
    return st.sampled_from(values_of(layout)) if values is None else values


def readings(layout: Layout, values: Optional[SearchStrategy[int]]) -> List[SearchStrategy[Act]]:
    """Readings of each driver."""
    numbers = drawn_values(layout, values)
    fates = {it: st.lists(st.sampled_from(Fate), max_size=len(layout.reached(it))).map(tuple) for it in layout.sensors}
    return [st.builds(Reading, st.just(it), numbers, fates[it]) for it in layout.sensors]


def samples(layout: Layout, values: Optional[SearchStrategy[int]]) -> List[SearchStrategy[Act]]:
    numbers = drawn_values(layout, values)
    return [st.builds(Sample, st.just(it), numbers) for it in layout.sensors]


def resets(layout: Layout) -> SearchStrategy[Act]:
    return st.builds(Reset, st.sampled_from(layout.nodes))


def of_events(connections: SearchStrategy[str]) -> List[SearchStrategy[Act]]:
    return [
        st.builds(Carry, connections),
        st.builds(Hold, connections),
        st.builds(Replay, connections, st.integers(0, MOST_HELD - 1)),
        st.builds(Change, connections, st.integers(0, EVENT - 1), st.integers(0, 255)),
    ]
