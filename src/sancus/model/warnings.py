"""Warns of what the rules of a deployment allow, and hardly anybody wants."""

from __future__ import annotations

from typing import Dict, Iterator, List

from sancus.model import language, precedence
from sancus.model.deployment import Tables, module_of, port_of
from sancus.model.faults import Teller
from sancus.model.language import Applied, Combined, Constant, Element, Expression, Module, Statement, Store, subexpressions
from sancus.model.precedence import Place
from sancus.model.rules import walk
from sancus.records import dataclass

WORD = 65536
# More places of one module aren't told.
MOST_PLACES = 4


@dataclass(frozen=True)
class About:
    """A warning about an entry, by its kind and its number; of the whole deployment it has none."""

    kind: str
    index: int
    what: str

    def __str__(self) -> str:
        return f"warning: {self.what}"


def about_keys(tables: Tables) -> Iterator[About]:
    seen: Dict[str, str] = {}
    for index, node in enumerate(tables.nodes):
        key, name = str(node.get("key")).lower(), str(node.get("name"))
        if key in seen:
            yield About(
                "node",
                index,
                f"nodes {seen[key]} and {name} have one key, so modules with the same places and text on both can pass "
                "for one another: an item `forged` may come without a tag that was guessed",
            )
        seen.setdefault(key, name)
    if tables.connections and "secret" not in tables.toml:
        yield About(
            "",
            0,
            "the deployment has connections and no `secret`, so their keys come from sixteen zero bytes, which anybody "
            "knows and can forge events with",
        )


def about_ports(tables: Tables) -> Iterator[About]:
    """Inputs and outputs that lead nowhere: mostly a connection or a handler was forgotten."""
    sent = {(module_of(it.get("from")), port_of(it.get("from"))) for it in tables.connections}
    taken = {(module_of(it.get("to")), port_of(it.get("to"))) for it in tables.connections}
    for index, name in enumerate(tables.names("module")):
        tree = tables.tree(name)
        if not tree:
            continue
        for port in tree.names("output"):
            if (name, port) not in sent:
                yield About("module", index, f"no connection leads from the output {name}.{port}: what it sends is lost")
        for port in tree.names("input"):
            if (name, port) not in taken:
                yield About("module", index, f"no connection leads to the input {name}.{port}")
            if not tree.handler_of(port):
                yield About("module", index, f"{name} has no handler `on {port}(..)`: what comes there changes nothing")
        if "sensor" in [it.kind for it in tree.declared] and not tree.handler_of(None):
            what = f"{name} has a sensor and no handler `sample(..)`: a reading changes nothing"
            yield About("module", index, what)


def below_zero(it: Expression) -> int:
    """The number that was meant, if this is one below 0; else 0."""
    if isinstance(it, Applied) and it.sign == "-" and isinstance(it.operand, Constant):
        return -it.operand.value
    if isinstance(it, Combined) and it.sign == "-" and isinstance(it.left, Constant) and isinstance(it.right, Constant):
        return min(0, it.left.value - it.right.value)
    return 0


# Comparisons with a number that hold always or never, since a word is from 0 to 65,535.
ALWAYS = {(">=", 0): "always", ("<", 0): "never", ("<=", WORD - 1): "always", (">", WORD - 1): "never"}
MIRRORED = {"<": ">", ">": "<", "<=": ">=", ">=": "<="}


def of_comparison(it: Combined) -> Iterator[Place]:
    if it.sign not in MIRRORED:
        return
    for sign, side in ((it.sign, it.right), (MIRRORED[it.sign], it.left)):
        meant = below_zero(side)
        if meant:
            what = f"comparisons have no sign, and {meant} is {meant % WORD:,} here: add an offset to both sides"
            yield it.at, len(it.sign), what
        elif isinstance(side, Constant) and (sign, side.value) in ALWAYS:
            yield it.at, len(it.sign), f"this {ALWAYS[sign, side.value]} holds, since a value is from 0 to 65,535"


def of_index(tree: Module, name: str, index: Expression, at: int, effect: str) -> Iterator[Place]:
    array = tree.named(name)
    if array and array.kind == "array" and isinstance(index, Constant) and index.value >= array.value:
        last = f"the last element of `{name}` is {name}[{array.value - 1}]"
        yield at, len(name), f"{last}, and past it {effect}"


def of_statement(tree: Module, it: Statement) -> Iterator[Place]:
    if isinstance(it, Store):
        yield from of_index(tree, it.name, it.index, it.at, "nothing is stored")
    for whole in language.expressions_of(it):
        for part in subexpressions(whole):
            if isinstance(part, Combined):
                yield from of_comparison(part)
            elif isinstance(part, Element):
                yield from of_index(tree, part.name, part.index, part.at, "0 is read")


@dataclass(frozen=True)
class InSource:
    """A warning about a place in a module's source."""

    index: int
    at: int
    length: int
    what: str


def about_values(tables: Tables) -> Iterator[InSource]:
    """Comparisons with a number below 0, those that are always or never true or take in an `&`, and elements past an
    array's end."""
    for index, name in enumerate(tables.names("module")):
        tree = tables.tree(name)
        statements = [it for handler in (tree.handlers if tree else []) for it in walk(handler.body)]
        found = [place for it in statements for place in of_statement(tree, it)] if tree else []
        found += precedence.places(tree) if tree else []
        yield from (InSource(index, *place) for place in found[:MOST_PLACES])


def of_values(teller: Teller) -> List[str]:
    tables, lines = teller.tables, []
    for it in about_values(tables) if tables else ():
        line, column = language.place_of(str(tables.modules[it.index]["source"]), it.at)  # type: ignore[union-attr]
        lines += [f"warning: {it.what}", *teller.in_source(it.index, line, column, it.length)]
    return lines


def of_keys(tables: Tables) -> List[str]:
    return list(map(str, about_keys(tables)))


def of_deployment(tables: Tables) -> List[str]:
    return [*of_keys(tables), *map(str, about_ports(tables))]


def of_text(teller: Teller) -> List[str]:
    """All that is warned of; nothing of a text that is no TOML."""
    return [*of_deployment(teller.tables), *of_values(teller)] if teller.tables else []
