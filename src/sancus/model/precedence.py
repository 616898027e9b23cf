"""Comparisons that take in more than they seem to: `v == 1 & open` is `v == (1 & open)`."""

from __future__ import annotations

from typing import Iterator, Set, Tuple

from sancus.model import language
from sancus.model.language import COMPARED, Applied, Assign, Combined, Constant, Expression, Let, Module, Variable
from sancus.model.rules import walk

# A place in a source, its length, and what is said of it.
Place = Tuple[int, int, str]
BITWISE = ("&", "|", "^")


def operands(it: Expression) -> Iterator[Expression]:
    """What `&`, `|` and `^` combine, from the left."""
    left = [it]
    while left:
        it = left.pop()
        if isinstance(it, Combined) and it.sign in BITWISE:
            left += [it.right, it.left]
        else:
            yield it


def is_truth(it: Expression, flags: Set[str]) -> bool:
    """Whether a value is 1 or 0 as that of a comparison is."""
    if isinstance(it, Applied):
        return it.sign == "!"
    if isinstance(it, Combined):
        return it.sign in COMPARED
    return isinstance(it, Variable) and it.name in flags


def is_bit(it: Expression) -> bool:
    return isinstance(it, Constant) and it.value <= 1 or all(is_truth(part, set()) for part in operands(it))


def flags_of(module: Module) -> Set[str]:
    """The variables and locals that are given nothing but truth values, or 1 and 0."""
    given = [it for handler in module.handlers for it in walk(handler.body) if isinstance(it, (Let, Assign))]
    names = {it.name for it in given} | set(module.names("var"))
    wide = {it.name for it in given if not is_bit(it.value)} | {it.name for it in module.declared if it.value > 1}
    return names - wide - {it.parameter for it in module.handlers}


def is_mixed(it: Expression, flags: Set[str]) -> bool:
    """Whether `&`, `|` or `^` combines truth values with others, as hardly anybody wants."""
    return isinstance(it, Combined) and it.sign in BITWISE and len({is_truth(part, flags) for part in operands(it)}) > 1


def of_comparison(it: Combined, flags: Set[str]) -> Iterator[Place]:
    for side, meant in ((it.right, "`(.. {0} ..) {1} ..`"), (it.left, "`.. {1} (.. {0} ..)`")):
        if isinstance(side, Combined) and is_mixed(side, flags):
            what = f"`{side.sign}` binds more than `{it.sign}`, so all of `.. {side.sign} ..` is compared here"
            yield it.at, len(it.sign), f"{what}: is {meant.format(it.sign, side.sign)} meant?"


def places(module: Module) -> Iterator[Place]:
    """The comparisons of a module, or of a property, one side of which is such a mixture."""
    flags = flags_of(module)
    for statement in (it for handler in module.handlers for it in walk(handler.body)):
        for whole in language.expressions_of(statement):
            for part in language.subexpressions(whole):
                if isinstance(part, Combined) and part.sign in COMPARED:
                    yield from of_comparison(part, flags)
