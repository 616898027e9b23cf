"""Keeps a campaign's rows in a file, by seed: each seed has at most one, whatever is done twice."""

from __future__ import annotations

import sqlite3
from dataclasses import dataclass
from pathlib import Path
from typing import Dict, Iterator, List, Sequence, Tuple

from sancus.campaign import Row
from sancus.errors import NoCampaign

# So many seeds are asked for at once.
CHUNK = 250
TABLES = """
create table if not exists campaign (part text primary key, sum text);
create table if not exists runs
  (seed integer primary key, outcome text, acts integer, items integer, outs text, forged integer, trace text);
"""
# The greatest seed that a row has.
MOST_SEEDS = 2**63 - 1
# More outcomes aren't told one by one.
MOST_OUTCOMES = 20


@dataclass(frozen=True)
class Outcome:
    """An outcome, how many runs have it, the first of them, and the first of those with the fewest acts."""

    words: str
    runs: int
    seed: int
    least: int
    acts: int


@dataclass(frozen=True)
class Summary:
    """What is known of a campaign: its runs, how many differ, and in what they put out; and the most frequent
    outcomes."""

    runs: int
    traces: int
    outs: int
    forged: int
    wrong: int
    kinds: int
    outcomes: List[Outcome]


class Store:
    """A file of rows. What goes wrong with it is a sqlite3.Error."""

    def __init__(self, path: str, must_exist: bool = False) -> None:
        self.path = path
        if must_exist and not Path(path).is_file():
            raise NoCampaign(f"there is no file {path}")
        self.rows = sqlite3.connect(path, timeout=60)
        tables = {str(it[0]) for it in self.rows.execute("select name from sqlite_master where type = 'table'")}
        if tables and not tables >= {"campaign", "runs"} or must_exist and not tables:
            raise NoCampaign(f"{path} has no campaign")
        self.rows.executescript(TABLES)

    def parts(self) -> Dict[str, str]:
        """The sums of the campaign's parts; none if it has no rows yet."""
        return {str(part): str(sum_) for part, sum_ in self.rows.execute("select part, sum from campaign")}

    def must_be_of(self, parts: Dict[str, str]) -> None:
        """Refuses rows of another campaign. A new file becomes one of this."""
        own = self.parts()
        others = [it for it, sum_ in parts.items() if own.get(it) != sum_]
        if own and others:
            raise NoCampaign(f"{self.path} has another campaign: the {others[0]} differs; `--to` names another file")
        with self.rows:
            self.rows.executemany("insert or ignore into campaign values (?, ?)", parts.items())

    def add(self, rows: Sequence[Row]) -> None:
        """Keeps rows, all or none."""
        with self.rows:
            self.rows.executemany("insert or ignore into runs values (?, ?, ?, ?, ?, ?, ?)", rows)

    def merge(self, other: "Store") -> None:
        """Takes in the rows of another file, all or none."""
        with self.rows:
            self.rows.executemany(
                "insert or ignore into runs values (?, ?, ?, ?, ?, ?, ?)",
                other.rows.execute("select seed, outcome, acts, items, outs, forged, trace from runs"),
            )

    def missing(self, first: int, end: int) -> Iterator[Tuple[int, int]]:
        """The ranges of seeds that lack a row."""
        have = dict(
            self.rows.execute(
                "select seed / ?, count(*) from runs where seed >= ? and seed < ? group by 1", (CHUNK, first, end)
            ).fetchall()
        )
        for at in range(first // CHUNK, -(-end // CHUNK)):
            begin, stop = max(first, at * CHUNK), min(end, (at + 1) * CHUNK)
            if have.get(at, 0) < stop - begin:
                yield begin, stop

    def count(self, first: int, end: int) -> int:
        """How many seeds of a range have a row."""
        return self.number("select count(*) from runs where seed >= ? and seed < ?", first, end)

    def number(self, query: str, *values: int) -> int:
        return int(self.rows.execute(query, values).fetchone()[0] or 0)

    def summary(self) -> Summary:
        kinds = self.rows.execute("select outcome, count(*), min(seed) from runs group by 1 order by 2 desc, 3").fetchall()
        return Summary(
            runs=sum(it[1] for it in kinds),
            traces=self.number("select count(distinct trace) from runs"),
            outs=self.number("select count(distinct outs) from runs"),
            forged=self.number("select count(*) from runs where forged > 0"),
            wrong=sum(it[1] for it in kinds if it[0]),
            kinds=len(kinds),
            outcomes=[Outcome(words, runs, seed, *self.least(words)) for words, runs, seed in kinds[:MOST_OUTCOMES]],
        )

    def least(self, outcome: str) -> Tuple[int, int]:
        """The seed with the fewest acts of an outcome, and how many these are."""
        query = "select seed, acts from runs where outcome = ? order by acts, seed limit 1"
        seed, acts = self.rows.execute(query, (outcome,)).fetchone()
        return int(seed), int(acts)
