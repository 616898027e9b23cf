#!/usr/bin/env python3
"""Prints where a check's time went, function by function. It proves nothing: it reads when each file was written that the check kept.

    tools/function_times.py CRATE [--rows N] [--kept FOLDER]

Before it the crate is checked from nothing and at one job, since the time of a file is counted from the one before it:

    rm -rf crates/CRATE/out && cd crates/CRATE && RT_JOBS=1 rt check

A row is seconds by the clock, the share of all time up to this row, a function or a file of lemmas or definitions, and what
the checker made of it, the longest first: `Lts` is the table of its steps, `Proof` the search or the written answers.
FOLDER is where a check kept its files, in place of crates/CRATE/out/incremental.
"""

import argparse
import sys
from collections import Counter, defaultdict
from pathlib import Path

CRATES = Path(__file__).resolve().parent.parent / "crates"
# The last word of what the checker makes of each function.
PARTS = set("Answers Code Given Goals Invariants Key Kinds Layout Lts Met Mir Named Proof Reads Statement Symbol Tie".split())


def owner(name, crate):
    """The function, or the file of lemmas or definitions, that a kept file is of, and which part of it."""
    words = name.removesuffix(".oantt").removesuffix(".decls").removeprefix(f"Rattle-{crate}")[1:].split(".")
    for place, word in enumerate(words):
        if word in PARTS:
            return ".".join(words[:place]), word
    return ".".join(words), "file"


def kept_files(folder):
    """(time of writing, name) of each file that a check kept, in order."""
    return sorted((it.stat().st_mtime, it.name) for it in folder.rglob("*.oantt"))


def times(files, crate):
    """Seconds of each function and of each of its parts, by the times between the files."""
    seconds = defaultdict(Counter)
    for (before, _), (time, name) in zip(files, files[1:]):
        function, part = owner(name, crate)
        seconds[function][part] += time - before
    return seconds


def rows(seconds):
    """The rows of the table, the longest first."""
    whole, so_far = sum(it.total() for it in seconds.values()), 0
    for function, parts in sorted(seconds.items(), key=lambda it: -it[1].total()):
        so_far += parts.total()
        longest = ", ".join(f"{part} {time:.1f}" for part, time in parts.most_common(3))
        yield f"{parts.total():7.1f} {so_far / whole:5.0%} {function}  {longest}"


def main():
    words = argparse.ArgumentParser(description=__doc__.splitlines()[0])
    words.add_argument("crate")
    words.add_argument("--rows", type=int, default=30)
    words.add_argument("--kept", type=Path)
    given = words.parse_args()
    files = kept_files(given.kept or CRATES / given.crate / "out" / "incremental")
    if len(files) < 2:
        sys.exit(f"no check of {given.crate} has kept its files")
    print(f"{files[-1][0] - files[0][0]:7.1f} seconds in all")
    print("\n".join(list(rows(times(files, given.crate)))[: given.rows]))


if __name__ == "__main__":
    main()
