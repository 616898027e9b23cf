"""Finds the least list that still does what a longer one did: by leaving out, and by simpler elements."""

from __future__ import annotations

from typing import Callable, Dict, Generic, Iterable, List, TypeVar

from sancus.records import dataclass, field

Element = TypeVar("Element")


@dataclass
class Shrinking(Generic[Element]):
    """A search for it. `is_wrong` says whether a list does it, and is asked of none twice; `simpler` gives simpler
    elements."""

    is_wrong: Callable[[List[Element]], bool]
    simpler: Callable[[Element], Iterable[Element]]
    tried: Dict[str, bool] = field(default_factory=dict)

    def does(self, some: List[Element]) -> bool:
        key = repr(some)
        if key not in self.tried:
            self.tried[key] = self.is_wrong(some)
        return self.tried[key]

    def least(self, some: List[Element]) -> List[Element]:
        """A list of which no element can be left out or be simpler."""
        while True:
            less = self.simplified(self.shortened(some))
            if less == some:
                return less
            some = less

    def shortened(self, some: List[Element]) -> List[Element]:
        """Leaves out halves, quarters and so on, down to single elements."""
        size = max(1, len(some) // 2)
        while size:
            some = self.without_runs_of(size, some)
            size //= 2
        return some

    def without_runs_of(self, size: int, some: List[Element]) -> List[Element]:
        at = 0
        while at < len(some):
            less = some[:at] + some[at + size :]
            if self.does(less):
                some = less
            else:
                at += size
        return some

    def simplified(self, some: List[Element]) -> List[Element]:
        for at in range(len(some)):
            some = self.simplified_at(at, some)
        return some

    def simplified_at(self, at: int, some: List[Element]) -> List[Element]:
        candidates = ([*some[:at], it, *some[at + 1 :]] for it in self.simpler(some[at]))
        return next((it for it in candidates if self.does(it)), some)
