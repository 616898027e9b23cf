"""Reads a module's source as docs/LANGUAGE.md has it, and a property as docs/PROPERTIES.md has it: tokens, tree and
sizes, and at a fault what could have stood there.

The program alone judges a source. This finds words for its answer.
"""

from __future__ import annotations

import re
from typing import FrozenSet, Iterator, List, Optional, Set, Tuple, Union

from sancus.records import dataclass, field


WORDS = frozenset("sensor actuator input output var array on sample let if else repeat send emit".split())
# A property has these words too. Its handlers stand at items: of these kinds, each with what its name is of.
PROPERTY_WORDS = WORDS | {"fail", "assume"}
WATCHED = {
    "sense": "device",
    "drain": "device",
    "raw": "device",
    "read": "module",
    "out": "module",
    "protect": "module",
    "attested": "module",
    "take": "connection",
    "reset": "node",
}
# The kinds whose items have a value.
VALUED = ("sense", "raw", "read", "out", "take")
SPACE = re.compile(rb"(?:[ \t\n]|//[^\n]*)*")
NAME = re.compile(rb"[a-z][a-z0-9_]{0,15}")
DIGITS = re.compile(rb"0x[0-9A-Fa-f]+|[0-9]+")
SIGN = re.compile(rb"==|!=|<=|>=|[-+|^*&~!<>=;(){}\[\]]")
COMPARED, SUMMED, MULTIPLIED = ("==", "!=", "<", "<=", ">", ">="), ("+", "-", "|", "^"), ("*", "&")
UNARY = ("-", "~", "!")
NAMED, NUMBER, END, NONE = "a name", "a number", "the end", "none"
# How many brackets and unary operators are open at a time, and how many operators one sum or term has.
MOST_OPEN = MOST_IN_CHAIN = 48
GREATEST = 65535


@dataclass(frozen=True)
class Token:
    """A token: its kind is the word or sign itself, or one of the names above."""

    kind: str
    text: str
    at: int


def number_end(data: bytes, at: int, end: int) -> int:
    """Where the longest number ends that isn't above 65,535."""
    base, first = (16, at + 2) if data[at : at + 2] == b"0x" else (10, at)
    stop, value = first, 0
    while stop < end:
        value = value * base + int(data[stop : stop + 1], base)
        if value > GREATEST:
            break
        stop += 1
    return stop


def next_token(data: bytes, at: int, words: FrozenSet[str] = WORDS) -> Token:
    at = SPACE.match(data, at).end()  # type: ignore[union-attr]
    if at == len(data):
        return Token(END, "", at)
    found = DIGITS.match(data, at)
    if found:
        return Token(NUMBER, data[at : number_end(data, at, found.end())].decode(), at)
    found = NAME.match(data, at)
    if found:
        text = found.group().decode()
        return Token(text if text in words else NAMED, text, at)
    found = SIGN.match(data, at)
    if found:
        return Token(found.group().decode(), found.group().decode(), at)
    return Token(NONE, data[at : at + 1].decode(errors="replace"), at)


# --- The tree ---------------------------------------------------------------------------------------------------------


@dataclass(frozen=True)
class Constant:
    value: int
    at: int


@dataclass(frozen=True)
class Variable:
    name: str
    at: int


@dataclass(frozen=True)
class Element:
    name: str
    index: "Expression"
    at: int


@dataclass(frozen=True)
class Applied:
    sign: str
    operand: "Expression"
    at: int


@dataclass(frozen=True)
class Combined:
    sign: str
    left: "Expression"
    right: "Expression"
    at: int


Expression = Union[Constant, Variable, Element, Applied, Combined]


@dataclass(frozen=True)
class Let:
    name: str
    value: Expression
    at: int


@dataclass(frozen=True)
class Assign:
    name: str
    value: Expression
    at: int


@dataclass(frozen=True)
class Store:
    name: str
    index: Expression
    value: Expression
    at: int


@dataclass(frozen=True)
class If:
    test: Expression
    then: List["Statement"]
    other: List["Statement"]
    at: int


@dataclass(frozen=True)
class Repeat:
    count: int
    body: List["Statement"]
    at: int


@dataclass(frozen=True)
class Send:
    output: str
    value: Expression
    at: int


@dataclass(frozen=True)
class Emit:
    value: Expression
    at: int


@dataclass(frozen=True)
class Fail:
    """`fail;` of a property: it is broken here."""

    at: int


@dataclass(frozen=True)
class Assume:
    """`assume TEST;` of a property: if the test is 0, nothing is asked from here on."""

    test: Expression
    at: int


Statement = Union[Let, Assign, Store, If, Repeat, Send, Emit, Fail, Assume]


@dataclass(frozen=True)
class Declared:
    """A declaration: its kind is its first word; the value is a variable's first one, or an array's length."""

    kind: str
    name: str
    value: int
    at: int


@dataclass(frozen=True)
class Heading:
    """Where a handler of a property stands: at the items of a kind, of what is named."""

    kind: str
    name: str
    at: int

    @property
    def words(self) -> str:
        return f"{self.kind} {self.name}"


@dataclass(frozen=True)
class Handler:
    """A handler of an input, or of the samples if that is None. That of a property has a heading, whose words are its
    input; without a value it has the parameter that no name is."""

    input: Optional[str]
    parameter: str
    body: List[Statement]
    at: int
    parameter_at: int
    heading: Optional[Heading] = None


@dataclass
class Module:
    declared: List[Declared] = field(default_factory=list)
    handlers: List[Handler] = field(default_factory=list)

    def named(self, name: str) -> Optional[Declared]:
        return next((it for it in self.declared if it.name == name), None)

    def names(self, kind: str) -> List[str]:
        return [it.name for it in self.declared if it.kind == kind]

    def cells(self) -> List[Declared]:
        return [it for it in self.declared if it.kind in ("var", "array")]

    def handler_of(self, name: Optional[str]) -> Optional[Handler]:
        return next((it for it in self.handlers if it.input == name), None)


class NotInGrammar(Exception):
    """The first token that the grammar doesn't allow, and what it allows there."""

    def __init__(self, token: Token, expected: Set[str], bound: str = "") -> None:
        super().__init__(token.text)
        self.token, self.expected, self.bound = token, expected, bound


# --- The parser -------------------------------------------------------------------------------------------------------


class Parser:
    """Reads one module, or one property. What was looked for at the next token is kept, to be told if none of it is
    there."""

    def __init__(self, data: bytes, is_property: bool = False) -> None:
        self.data, self.is_property = data, is_property
        self.words = PROPERTY_WORDS if is_property else WORDS
        self.token = next_token(data, 0, self.words)
        self.looked: Set[str] = set()
        self.open = 0
        # the word before each block with the place after its brace, and `assume` with the place after its `;`
        self.places: List[Tuple[str, int]] = []

    def advance(self) -> Token:
        token = self.token
        end = token.at + max(1, len(token.text.encode()))
        self.token, self.looked = next_token(self.data, end, self.words), set()
        return token

    def sees(self, *kinds: str) -> bool:
        self.looked.update(kinds)
        return self.token.kind in kinds

    def fail(self, bound: str = "") -> NotInGrammar:
        return NotInGrammar(self.token, set(self.looked), bound)

    def take(self, *kinds: str) -> Token:
        if not self.sees(*kinds):
            raise self.fail()
        return self.advance()

    def begin(self, *kinds: str) -> Token:
        """Takes an opening bracket, or an operator before its operand."""
        if self.sees(*kinds) and self.open == MOST_OPEN:
            raise self.fail("more than 48 brackets and unary operators are open here")
        token = self.take(*kinds)
        self.open += 1
        return token

    def finish(self, kind: str) -> None:
        self.take(kind)
        self.open -= 1

    def module(self) -> Module:
        module = Module()
        while self.sees("sensor", "actuator", "input", "output", "var", "array"):
            module.declared.append(self.declaration())
        while self.sees("on", "sample"):
            module.handlers.append(self.handler())
        self.take(END)
        return module

    def property(self) -> Module:
        module = Module()
        while self.sees("var", "array"):
            module.declared.append(self.declaration())
        while self.sees("on"):
            module.handlers.append(self.watching())
        self.take(END)
        return module

    def watching(self) -> Handler:
        """A handler of a property."""
        self.advance()
        kind = self.watched_kind()
        name = self.take(NAMED)
        heading, parameter = Heading(kind.text, name.text, name.at), Token(NAMED, "", name.at)
        if kind.text in VALUED:
            self.take("(")
            parameter = self.take(NAMED)
            self.take(")")
        return Handler(heading.words, parameter.text, self.block("on"), name.at, parameter.at, heading)

    def watched_kind(self) -> Token:
        """The kind of the items at which a handler stands: a name that is one of these."""
        self.looked.update(WATCHED)
        if self.token.kind != NAMED or self.token.text not in WATCHED:
            raise self.fail()
        return self.advance()

    def declaration(self) -> Declared:
        first = self.advance()
        name, value = "", 0
        place = first.at
        if first.kind not in ("sensor", "actuator"):
            token = self.take(NAMED)
            name, place = token.text, token.at
        if first.kind == "var" and self.sees("="):
            self.advance()
            value = number_of(self.take(NUMBER))
        if first.kind == "array":
            self.take("[")
            value = number_of(self.take(NUMBER))
            self.take("]")
        self.take(";")
        return Declared(first.kind, name, value, place)

    def handler(self) -> Handler:
        first = self.advance()
        name = self.take(NAMED) if first.kind == "on" else None
        self.take("(")
        parameter = self.take(NAMED)
        self.take(")")
        body = self.block("on")
        return Handler(name.text if name else None, parameter.text, body, (name or first).at, parameter.at)

    def block(self, of: str) -> List[Statement]:
        self.places.append((of, self.begin("{").at + 1))
        found = []
        while not self.sees("}"):
            found.append(self.statement())
        self.finish("}")
        return found

    def statement(self) -> Statement:
        if self.sees("if"):
            return self.choice()
        if self.sees("repeat"):
            first = self.advance()
            count = number_of(self.take(NUMBER))
            return Repeat(count, self.block("repeat"), first.at)
        made = self.simple()
        end = self.take(";")
        if isinstance(made, Assume):
            self.places.append(("assume", end.at + 1))
        return made

    def choice(self) -> If:
        first = self.advance()
        test, then = self.expression(), self.block("if")
        other: List[Statement] = []
        if self.sees("else"):
            self.advance()
            other = self.block("else")
        return If(test, then, other, first.at)

    def simple(self) -> Statement:
        first = self.take("let", *(("fail", "assume") if self.is_property else ("send", "emit")), NAMED)
        if first.kind == "fail":
            return Fail(first.at)
        if first.kind == "assume":
            return Assume(self.expression(), first.at)
        if first.kind == "emit":
            return Emit(self.expression(), first.at)
        if first.kind == "send":
            name = self.take(NAMED)
            self.begin("(")
            value = self.expression()
            self.finish(")")
            return Send(name.text, value, name.at)
        if first.kind == "let":
            name = self.take(NAMED)
            self.take("=")
            return Let(name.text, self.expression(), name.at)
        if self.sees("["):
            self.begin("[")
            index = self.expression()
            self.finish("]")
            self.take("=")
            return Store(first.text, index, self.expression(), first.at)
        self.take("=")
        return Assign(first.text, self.expression(), first.at)

    def expression(self) -> Expression:
        left = self.chain(SUMMED)
        if not self.sees(*COMPARED):
            return left
        sign = self.advance()
        return Combined(sign.kind, left, self.chain(SUMMED), sign.at)

    def chain(self, signs: Tuple[str, ...]) -> Expression:
        below = (lambda: self.chain(MULTIPLIED)) if signs == SUMMED else self.unary
        made, count = below(), 0
        while self.sees(*signs):
            if count == MOST_IN_CHAIN:
                raise self.fail("one sum or product has more than 48 operators")
            sign, count = self.advance(), count + 1
            made = Combined(sign.kind, made, below(), sign.at)
        return made

    def unary(self) -> Expression:
        signs = []
        while self.sees(*UNARY):
            signs.append(self.begin(*UNARY))
        made = self.primary()
        self.open -= len(signs)
        for sign in reversed(signs):
            made = Applied(sign.kind, made, sign.at)
        return made

    def primary(self) -> Expression:
        if self.sees("("):
            self.begin("(")
            made = self.expression()
            self.finish(")")
            return made
        token = self.take(NUMBER, NAMED)
        if token.kind == NUMBER:
            return Constant(number_of(token), token.at)
        if not self.sees("["):
            return Variable(token.text, token.at)
        self.begin("[")
        index = self.expression()
        self.finish("]")
        return Element(token.text, index, token.at)


def number_of(token: Token) -> int:
    return int(token.text, 16 if token.text.startswith("0x") else 10)


def parse(source: str) -> Module:
    """The module of a source; NotInGrammar tells why it is none."""
    return Parser(source.encode(errors="surrogateescape")).module()


def parse_property(source: str) -> Module:
    """The tree of a property; NotInGrammar tells why it is none."""
    return Parser(source.encode(errors="surrogateescape"), is_property=True).property()


def place_of(source: str, at: int) -> Tuple[int, int]:
    """Line and byte column, from 1, of a place in a source."""
    data = source.encode(errors="surrogateescape")
    return data.count(b"\n", 0, at) + 1, at - data.rfind(b"\n", 0, at)


# --- Sizes ------------------------------------------------------------------------------------------------------------


def parts_of(it: Expression) -> List[Expression]:
    if isinstance(it, Element):
        return [it.index]
    if isinstance(it, Applied):
        return [it.operand]
    return [it.left, it.right] if isinstance(it, Combined) else []


def subexpressions(it: Expression) -> Iterator[Expression]:
    """An expression and all in it, from the left. (One of operators alone may be higher than calls may be nested; so below.)"""
    left = [it]
    while left:
        it = left.pop()
        yield it
        left += reversed(parts_of(it))


def expressions_of(it: Statement) -> List[Expression]:
    if isinstance(it, (If, Assume)):
        return [it.test]
    if isinstance(it, Store):
        return [it.index, it.value]
    return [] if isinstance(it, (Repeat, Fail)) else [it.value]


def blocks_of(it: Statement) -> List[List[Statement]]:
    if isinstance(it, If):
        return [it.then, it.other]
    return [it.body] if isinstance(it, Repeat) else []


def size(it: Expression) -> int:
    return sum(1 for _ in subexpressions(it))


def height(it: Expression) -> int:
    level, count = [it], 0
    while level:
        level = [part for over in level for part in parts_of(over)]
        count += 1
    return count


def block_size(block: List[Statement]) -> int:
    return sum(1 + sum(size(e) for e in expressions_of(it)) + sum(block_size(b) for b in blocks_of(it)) for it in block)


def nodes(module: Module) -> int:
    return len(module.cells()) + sum(1 + block_size(it.body) for it in module.handlers)


def cells(module: Module) -> int:
    return sum(it.value if it.kind == "array" else 1 for it in module.cells())


def own_cost(it: Expression) -> int:
    if isinstance(it, Combined) and it.sign == "*":
        return 512
    return 64 if isinstance(it, Element) else 32


def cost(it: Expression) -> int:
    return sum(map(own_cost, subexpressions(it)))


def statement_cost(it: Statement) -> int:
    inner = sum(cost(e) for e in expressions_of(it))
    if isinstance(it, Repeat):
        return 64 + it.count * (64 + block_cost(it.body))
    if isinstance(it, If):
        return 64 + inner + max(block_cost(it.then), block_cost(it.other))
    return {Store: 96, Send: 8192}.get(type(it), 64) + inner


def block_cost(block: List[Statement]) -> int:
    return sum(statement_cost(it) for it in block)


def sends(block: List[Statement]) -> int:
    """How often a block can send at most."""
    total = 0
    for it in block:
        if isinstance(it, If):
            total += max(sends(it.then), sends(it.other))
        elif isinstance(it, Repeat):
            total += it.count * sends(it.body)
        else:
            total += isinstance(it, Send)
    return total
