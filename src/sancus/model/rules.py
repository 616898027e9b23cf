"""Where in a source a rule of docs/LANGUAGE.md is broken: the program names the rule, and this the name and its
place.
"""

from __future__ import annotations

from typing import Iterator, List, Set

from sancus.model import language
from sancus.model.language import Element, Emit, Expression, Handler, Let, Module, Repeat, Send, Statement, Store
from sancus.model.language import Variable
from sancus.records import dataclass


@dataclass(frozen=True)
class Broken:
    """A place in a source, and what is wrong there."""

    at: int
    what: str
    length: int = 1


def a(kind: str) -> str:
    return ("an " if kind[0] in "aeiou" else "a ") + kind


def walk(block: List[Statement]) -> Iterator[Statement]:
    for it in block:
        yield it
        for inner in language.blocks_of(it):
            yield from walk(inner)


def handler_name(it: Handler) -> str:
    return f"`on {it.input}`" if it.input is not None else "`sample`"


def duplicate(module: Module) -> Iterator[Broken]:
    seen: Set[str] = set()
    devices = [it for it in module.declared if it.kind in ("sensor", "actuator")]
    for it in module.declared:
        if it.name and it.name in seen:
            yield Broken(it.at, f"`{it.name}` is declared a second time", len(it.name))
        seen.add(it.name)
    for it in devices[1:]:
        yield Broken(it.at, "a second device is declared: a module has one sensor or one actuator", len(it.kind))
    handled = []
    for handler in module.handlers:
        if handler.input in handled:
            yield Broken(handler.at, f"{handler_name(handler)} has a second handler", len(handler.input or "sample"))
        handled.append(handler.input)
        yield from local_twice(module, handler)


def local_twice(module: Module, handler: Handler) -> Iterator[Broken]:
    taken = {handler.parameter}
    if module.named(handler.parameter):
        yield Broken(
            handler.parameter_at, f"the parameter `{handler.parameter}` has a declared name", len(handler.parameter)
        )
    for it in walk(handler.body):
        if isinstance(it, Let):
            if module.named(it.name):
                yield Broken(it.at, f"the local `{it.name}` has a declared name", len(it.name))
            elif it.name in taken:
                yield Broken(
                    it.at,
                    f"the handler has a local `{it.name}` already; write `{it.name} = ..` for a new value",
                    len(it.name),
                )
            taken.add(it.name)


@dataclass(frozen=True)
class Use:
    """A name as it is used: as a value or to be assigned (`var`), as an array, an output or an input."""

    name: str
    wanted: str
    is_local: bool
    at: int


def uses(handler: Handler) -> Iterator[Use]:
    if handler.input is not None:
        yield Use(handler.input, "input", False, handler.at)
    yield from block_uses(handler.body, {handler.parameter})


def expression_uses(it: Expression, seen: Set[str]) -> Iterator[Use]:
    for part in language.subexpressions(it):
        if isinstance(part, Variable):
            yield Use(part.name, "var", part.name in seen, part.at)
        elif isinstance(part, Element):
            yield Use(part.name, "array", part.name in seen, part.at)


def block_uses(block: List[Statement], outer: Set[str]) -> Iterator[Use]:
    seen = set(outer)
    for it in block:
        if isinstance(it, Send):
            yield Use(it.output, "output", it.output in seen, it.at)
        elif isinstance(it, Store):
            yield Use(it.name, "array", it.name in seen, it.at)
        elif isinstance(it, language.Assign):
            yield Use(it.name, "var", it.name in seen, it.at)
        for expression in language.expressions_of(it):
            yield from expression_uses(expression, seen)
        for inner in language.blocks_of(it):
            yield from block_uses(inner, seen)
        if isinstance(it, Let):
            seen.add(it.name)


def near(name: str, names: List[str]) -> str:
    # (imported here: it takes a while, and few runs need it)
    from difflib import get_close_matches

    found = get_close_matches(name, [it for it in names if it], 1)
    return f"; did you mean `{found[0]}`?" if found else ""


def unknown(module: Module) -> Iterator[Broken]:
    for handler in module.handlers:
        lets = [it.name for it in walk(handler.body) if isinstance(it, Let)]
        for use in uses(handler):
            if use.is_local or module.named(use.name):
                continue
            what = f"`{use.name}` isn't declared"
            if use.name in lets:
                what = f"the local `{use.name}` is out of sight here: before its `let`, or after the end of its block"
            elif use.wanted in ("input", "output"):
                what = f"no {use.wanted} `{use.name}` is declared"
            known = [it.name for it in module.declared] + lets + [handler.parameter]
            yield Broken(use.at, what + ("" if use.name in lets else near(use.name, known)), len(use.name))


SAID = {"var": "a value", "array": "an array", "output": "an output", "input": "an input"}


def wrong_kind(module: Module) -> Iterator[Broken]:
    for handler in module.handlers:
        for use in uses(handler):
            found = module.named(use.name)
            kind = "local" if use.is_local else found.kind if found else use.wanted
            if kind != use.wanted and not (use.is_local and use.wanted == "var"):
                kind = {"var": "variable"}.get(kind, kind)
                yield Broken(
                    use.at, f"`{use.name}` is {a(kind)}, and is used as {SAID[use.wanted]} here", len(use.name)
                )
        if handler.input is None and not any(it.kind == "sensor" for it in module.declared):
            yield Broken(handler.at, "there is a `sample` handler, and no line `sensor;`", 6)
        for it in walk(handler.body):
            if isinstance(it, Emit) and not any(it.kind == "actuator" for it in module.declared):
                yield Broken(it.at, "there is an `emit`, and no line `actuator;`", 4)


def depth(module: Module) -> Iterator[Broken]:
    def inside(block: List[Statement], level: int) -> Iterator[Broken]:
        for it in block:
            for expression in language.expressions_of(it):
                if language.height(expression) > 32:
                    yield Broken(
                        it.at, f"the expression here has height {language.height(expression)}, and at most 32 may be"
                    )
            if language.blocks_of(it) and level == 15:
                yield Broken(it.at, "the block here is inside more than 15 others")
            for inner in language.blocks_of(it):
                yield from inside(inner, level + 1)

    for handler in module.handlers:
        yield from inside(handler.body, 0)


def locals_(module: Module) -> Iterator[Broken]:
    for handler in module.handlers:
        lets = [it for it in walk(handler.body) if isinstance(it, Let)]
        if len(lets) > 15:
            yield Broken(
                lets[15].at,
                f"the handler {handler_name(handler)} has {len(lets) + 1} locals with its parameter; this is the 17th",
                len(lets[15].name),
            )


def repeat(module: Module) -> Iterator[Broken]:
    for handler in module.handlers:
        for it in walk(handler.body):
            if isinstance(it, Repeat) and not 1 <= it.count <= 256:
                yield Broken(it.at, f"the count is {it.count}, and must be 1 to 256", 6)


def packets(module: Module) -> Iterator[Broken]:
    for it in module.handlers:
        if language.sends(it.body) > 16:
            yield Broken(
                it.at, f"the handler {handler_name(it)} can send {language.sends(it.body)} times, and at most 16 may be"
            )


def too_costly(module: Module) -> Iterator[Broken]:
    for it in module.handlers:
        total = 64 + language.block_cost(it.body)
        if total > 262_144:
            yield Broken(
                it.at,
                f"the handler {handler_name(it)} costs {total:,}, and at most 262,144 may be; a `repeat` counts its "
                "block as often as it runs",
            )


def too_many(module: Module) -> Iterator[Broken]:
    total = language.nodes(module)
    for kind in ("input", "output"):
        if len(module.names(kind)) > 255:
            yield Broken(0, f"there are {len(module.names(kind))} {kind}s, and at most 255 may be")
    if total > 512:
        yield Broken(0, f"the source has {total} nodes, and at most 512 may be: split the module")


def cells(module: Module) -> Iterator[Broken]:
    for it in module.declared:
        if it.kind == "array" and not 1 <= it.value <= 1024:
            yield Broken(it.at, f"the array `{it.name}` has length {it.value}, and 1 to 1,024 may be", len(it.name))
    if language.cells(module) > 1024:
        yield Broken(0, f"variables and arrays have {language.cells(module):,} cells in all, and at most 1,024 may be")


RULES = {
    "1": duplicate,
    "2": unknown,
    "3": wrong_kind,
    "4": depth,
    "5": locals_,
    "6": repeat,
    "7": packets,
    "8": too_costly,
    "9": too_many,
    "10": cells,
}


def places(module: Module, rule: str) -> List[Broken]:
    """Where the rule is broken, in the order of the text; at most four places."""
    found = RULES[rule](module) if rule in RULES else iter(())
    return sorted(found, key=lambda it: it.at)[:4]
