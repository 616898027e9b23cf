"""Gives free addresses to the sections of a deployment that have none, and maps the memory of its nodes."""

from __future__ import annotations

import re
from typing import Dict, Iterator, List, Tuple

from sancus.model.deployment import Entry, Tables
from sancus.model.described import Deployment
from sancus.model.shown import text_of
from sancus.model.tables import HIGHEST, LOWEST, free_place, sizes, taken_on

# Where a free place is looked for first.
FIRST_TEXT, FIRST_DATA = 0x4000, 0x1000
HEADER = re.compile(r"\s*\[\[\s*module\s*\]\]\s*(#.*)?")
Places = Dict[str, int]


class NoPlace(Exception):
    """Why a section gets no place, in words."""


def lacks(module: Entry) -> List[str]:
    """The keys of places that a module hasn't."""
    keys = ("text",) if "device" in module else ("text", "data")
    return [it for it in keys if it not in module]


def place(tables: Tables) -> List[Places]:
    """Gives each module the places that it lacks, and returns them."""
    return [dict(placed(tables, it)) for it in tables.modules]


def placed(tables: Tables, module: Entry) -> Iterator[Tuple[str, int]]:
    found = sizes(tables, module)
    if not found:
        raise NoPlace(f"the size of {module.get('name')} isn't known: `sancus check` says what is wrong with it")
    for key in lacks(module):
        which, size, first = ("public", found[0], FIRST_TEXT) if key == "text" else ("private", found[1], FIRST_DATA)
        at = free_place(size, taken_on(tables, module.get("node")), first)
        if at is None:
            node, name = module.get("node"), module.get("name")
            raise NoPlace(f"node {node} has no room for the {which} section of {name}, {size:,} bytes")
        module[key] = at
        yield key, at


def filled_in(head: bytes, places: List[Places]) -> bytes:
    """A deployment with places in the tables `[[module]]`, in order."""
    lines, left = [], list(places)
    for line in head.split(b"\n"):
        lines.append(line)
        if left and HEADER.fullmatch(text_of(line.rstrip(b"\r"))):
            lines += [f"{key} = 0x{at:04x}".encode() for key, at in left.pop(0).items()]
    if any(left):
        raise NoPlace("a module's places are filled in if it is written as a table of its own, below [[module]]")
    return b"\n".join(lines)


def memory_map(deployment: Deployment) -> Iterator[str]:
    """What is where on each node, and what is free between."""
    for node in deployment.nodes:
        at = LOWEST
        for what, it in deployment.taken(node):
            yield from free(node, at, it.start)
            yield f"{node} 0x{it.start:04x} to 0x{it.stop - 1:04x}: {what}"
            at = it.stop
        yield from free(node, at, HIGHEST)


def free(node: str, begin: int, end: int) -> Iterator[str]:
    if begin < end:
        yield f"{node} 0x{begin:04x} to 0x{end - 1:04x}: free, {end - begin:,} bytes"
