"""What of a property that holds no legal run reaches: a property may hold since it asks nothing.

`fail;` is put where a run would have to come by: if the program proves that property too, none does.
"""

from __future__ import annotations

import time
from typing import Iterator, List, NamedTuple, Type, TypeVar

from sancus.cli.question import Question
from sancus.model import language
from sancus.model.language import Assume, Constant, Fail, Handler, If, Parser, Statement
from sancus.model.rules import walk

Kind = TypeVar("Kind", If, Assume)

# No more places are asked about, nor for longer, in seconds.
MOST_PLACES, MOST_SECONDS = 32, 5.0


class Place(NamedTuple):
    """A place of a property that a run may come by, and what is said if none does."""

    at: int
    what: str


def has_fail(block: List[Statement]) -> bool:
    return any(isinstance(it, Fail) for it in walk(block))


def in_order(handler: Handler, kind: "Type[Kind]") -> "Iterator[Kind]":
    """The statements of a handler that are of a kind, in the order of the text."""
    return iter(sorted((it for it in walk(handler.body) if isinstance(it, kind)), key=lambda it: it.at))


def is_nothing(it: Assume) -> bool:
    """Whether it is `assume 0`, which ends the question."""
    return isinstance(it.test, Constant) and it.test.value == 0


def line_of(source: str, at: int) -> int:
    return language.place_of(source, at)[0]


def places(source: str) -> Iterator[Place]:
    """Handlers, branches and assumptions, but those of which the property says itself that nothing comes by: a branch
    that fails, and `assume 0`."""
    parser = Parser(source.encode(errors="surrogateescape"), is_property=True)
    tree = parser.property()
    handlers = iter(tree.handlers)
    branches: "Iterator[If]" = iter([])
    assumed: "Iterator[Assume]" = iter([])
    for word, at in parser.places:
        line = line_of(source, at)
        if word == "on":
            handler = next(handlers)
            branches, assumed = in_order(handler, If), in_order(handler, Assume)
            if not any(isinstance(it, Fail) for it in handler.body):
                yield Place(at, f"no legal run has an item `{named(handler)}`")
        elif word == "if":
            if not has_fail(next(branches).then):
                yield Place(at, f"line {line}: this test is never true in a legal run")
        elif word == "assume" and not is_nothing(next(assumed)):
            yield Place(at, f"line {line}: this assumption fails whenever it is reached")


def named(handler: Handler) -> str:
    return str(handler.input)


def unreached(question: Question) -> List[str]:
    """What no legal run reaches, of a property that the program has proved."""
    source = question.property().source
    data, end = source.encode(errors="surrogateescape"), time.monotonic() + MOST_SECONDS
    said = [] if question.property().failing else ["it has no `fail`, so nothing can break it"]
    for it in list(places(source))[:MOST_PLACES]:
        if time.monotonic() > end:
            break
        if question.proves(data[: it.at] + b" fail; " + data[it.at :]):
            said.append(it.what)
    return said
