"""What a name of a text means, and where it is declared."""

from __future__ import annotations

import re
from dataclasses import dataclass
from typing import List, Optional, Sequence, Tuple

from sancus.lsp.checks import Placed
from sancus.lsp.documents import Deployment, Document
from sancus.lsp.text import Range
from sancus.model import language
from sancus.model.acts import ACTS, fields_told, told
from sancus.model.deployment import KINDS, Entry, Tables, module_of, port_of, source_start
from sancus.model.described import Module
from sancus.model.kinds import Kind
from sancus.model.language import VALUED, WATCHED, Let
from sancus.model.language import Module as Tree
from sancus.model.rules import a, handler_name, walk
from sancus.model.schedule import FORMS
from sancus.model.shown import text_of

WORD = re.compile(rb"[A-Za-z_][A-Za-z0-9_]*")
KEY = re.compile(rb"(\w+)[ \t]*=[ \t]*[\"'][^\"']*$")
# What the words of lines for people name.
OF_FORMS = {"deploy": ("module",) * 32, "sample": ("module",), "carry": ("module", "module", "connection")}
# What the keys of a deployment name.
OF_KEYS = {"node": ("node",), "device": ("device",), "from": ("module",), "to": ("module",)}


@dataclass(frozen=True)
class Source:
    """A source, or a property: where it begins in the plain text, what it is, and the module whose source it is."""

    start: int
    text: str
    tree: Optional[Tree]
    module: str = ""


@dataclass(frozen=True)
class Meaning:
    """What a name means in words, and the text and the range of its declaration."""

    words: str
    uri: str = ""
    where: Optional[Range] = None


@dataclass(frozen=True)
class Word:
    """The word at a place of a text."""

    text: str
    begin: int
    end: int


def word_at(it: Document, at: int) -> Optional[Word]:
    number = it.text.line_of(at)
    begin = it.text.lines[number - 1]
    found = (one for one in WORD.finditer(it.text.line(number)) if begin + one.start() <= at <= begin + one.end())
    return next((Word(text_of(one.group()), begin + one.start(), begin + one.end()) for one in found), None)


def before(it: Document, at: int) -> bytes:
    """What stands before a place on its line."""
    return it.text.data[it.text.lines[it.text.line_of(at) - 1] : at]


# --- Sources ----------------------------------------------------------------------------------------------------------


def parsed(text: str) -> Optional[Tree]:
    try:
        return language.parse_property(text)
    except (language.NotInGrammar, ValueError, RecursionError):
        return None


def sources(it: Document) -> List[Source]:
    """The sources of a deployment that stand there as they are; of a property, the property."""
    if it.kind is Kind.PROPERTY:
        text = text_of(it.text.plain)
        return [Source(0, text, parsed(text))]
    tables = it.tables
    if it.kind is not Kind.DEPLOYMENT or not tables:
        return []
    starts = [(source_start(it.text.plain, tables, at), one) for at, one in enumerate(tables.modules)]
    names = [(start, str(one.get("name")), str(one.get("source"))) for start, one in starts if start is not None]
    return [Source(start, text, tables.tree(name), name) for start, name, text in names]


def source_at(it: Document, at: int) -> Optional[Source]:
    at = it.text.in_plain(at)
    return next((one for one in sources(it) if one.start <= at <= one.start + len(one.text.encode())), None)


def declaration(it: Document, source: Source, found: Tuple[str, int], name: str) -> Meaning:
    """What a name of a source means, by its words and its place there."""
    words, at = found
    begin = it.text.of_plain(source.start + at)
    return Meaning(words, it.uri, it.text.range(begin, begin + len(name)))


def peers(tables: Tables, module: str, port: str) -> List[str]:
    """The connections of an input or output, each with its other end."""
    port = f"{module}.{port}"
    sent = [f"{it.get('name')}: to {it.get('to')}" for it in tables.connections if it.get("from") == port]
    return sent + [f"{it.get('name')}: from {it.get('from')}" for it in tables.connections if it.get("to") == port]


def declared(tree: Tree, name: str, module: str, tables: Optional[Tables]) -> Optional[Tuple[str, int]]:
    """A declared name in words, and where it is."""
    found = tree.named(name)
    if not found:
        return None
    size = {"array": f"[{found.value}]", "var": f" = {found.value}"}.get(found.kind, "")
    of = f" of module {module}" if module else ""
    ways = peers(tables, module, name) if tables and module else []
    return "\n\n".join([f"`{found.kind} {name}{size}`{of}", *(f"connection {it}" for it in ways)]), found.at


def local(tree: Tree, name: str, at: int) -> Optional[Tuple[str, int]]:
    """A local or a parameter of the handler at a place."""
    handler = next((it for it in reversed(tree.handlers) if it.at <= at), None)
    if not handler:
        return None
    if name == handler.parameter:
        return f"`{name}`: the value of {handler_name(handler)}", handler.parameter_at
    lets = [it for it in walk(handler.body) if isinstance(it, Let) and it.name == name and it.at <= at]
    return (f"`let {name}` of {handler_name(handler)}", lets[-1].at) if lets else None


def in_source(it: Document, source: Source, word: Word) -> Optional[Meaning]:
    tree = source.tree
    if not tree:
        return None
    at = it.text.in_plain(word.begin) - source.start
    found = local(tree, word.text, at) or declared(tree, word.text, source.module, it.tables)
    if not found:
        return in_heading(it, word) if it.kind is Kind.PROPERTY else None
    return declaration(it, source, found, word.text)


def in_heading(it: Document, word: Word) -> Optional[Meaning]:
    """A word of a property's heading: the kind of items, or what it names."""
    words = [text_of(one) for one in before(it, word.begin).split()]
    if words[-1:] == ["on"] and word.text in WATCHED:
        value = "with a value" if word.text in VALUED else "without a value"
        return Meaning(f"items `{word.text}` of {a(WATCHED[word.text])}, {value}")
    return entry(it, word.text, [WATCHED[words[-1]]]) if words and words[-1] in WATCHED else None


# --- Entries of a deployment ------------------------------------------------------------------------------------------


def of_module(tables: Tables, one: Entry, read: Optional[Module]) -> str:
    """A module in words; its sections and its cost, if the program read it."""
    name = str(one.get("name"))
    tree = tables.tree(name)
    lines = [f"module {name} on node {one.get('node')}" + (f", drives {one['device']}" if "device" in one else "")]
    if read:
        text, data = read.text, read.data
        lines.append(f"text 0x{text.start:04x} to 0x{text.stop:04x}, data 0x{data.start:04x} to 0x{data.stop:04x}")
    if tree:
        lines += [f"{it}s: {' '.join(tree.names(it)) or 'none'}" for it in ("input", "output")]
    if read:
        lines.append(f"its dearest handler costs {read.cost:,}")
    return "\n\n".join(lines)


def of_entry(home: Deployment, tables: Tables, kind: str, one: Entry) -> str:
    name = one.get("name")
    if kind == "module":
        return of_module(tables, one, home.read.modules.get(str(name)) if home.read else None)
    if kind == "device":
        driver = tables.driver_of(str(name))
        by = f", driven by {driver['name']}" if driver else ""
        at = f" at 0x{one['at']:04x}" if isinstance(one.get("at"), int) else ""
        return f"{one.get('kind')} {name} on node {one.get('node')}{at}{by}"
    if kind == "connection":
        return f"connection {name} from {one.get('from')} to {one.get('to')}"
    modules = [str(it.get("name")) for it in tables.modules if it.get("node") == name]
    return f"node {name}, with the modules {' '.join(modules) or '(none)'}"


def entry(it: Document, name: str, kinds: Sequence[str]) -> Optional[Meaning]:
    """An entry of the deployment, of the first of these kinds that has it."""
    tables, home = it.tables, it.deployment
    kind = next((one for one in kinds if tables and tables.named(one, name)), None)
    if not tables or not home or not kind:
        return None
    line = Placed(it.kept()).entry_line(kind, tables.names(kind).index(name))
    words = of_entry(home, tables, kind, tables.named(kind, name) or {})
    return Meaning(words, home.uri, home.text.span(line)) if line else Meaning(words)


def in_head(it: Document, word: Word) -> Optional[Meaning]:
    """A name in a deployment's tables: of an entry, or of a module's input or output."""
    key = KEY.search(before(it, word.begin))
    if not key:
        return None
    quoted = text_of(it.text.data[: word.begin].rpartition(b'"')[2]) + word.text
    module, port = module_of(quoted), port_of(quoted)
    source = next((one for one in sources(it) if one.module == module), None)
    found = declared(source.tree, port, module, it.tables) if port and source and source.tree else None
    if source and found:
        return declaration(it, source, found, port)
    return entry(it, word.text, OF_KEYS.get(text_of(key[1]), KINDS))


# --- Lines of a schedule ----------------------------------------------------------------------------------------------


def kinds_of(words: Sequence[str], at: int) -> Sequence[str]:
    """Of which kinds of entries a word of a line is, by its place from 0."""
    act = words[0]
    if act in ACTS:
        fields = ACTS[act][at - 1 : at]
        return [it.name.lower() for it in fields if it.name.lower() in KINDS]
    return OF_FORMS[act][at - 1 : at] if act in OF_FORMS else KINDS


def of_act(it: Document, act: str) -> Optional[Meaning]:
    if act in FORMS:
        return Meaning(f"`{FORMS[act][2]}`: a line for people")
    if act not in ACTS:
        return None
    fields = [f"{field.name}: {told(field, it.tables)}" for field in ACTS[act]]
    return Meaning("\n\n".join([f"`{fields_told(act, ACTS)}`", *fields]))


def in_line(it: Document, word: Word) -> Optional[Meaning]:
    words = [*map(text_of, before(it, word.begin).split()), word.text]
    if len(words) == 1:
        return of_act(it, word.text) or entry(it, word.text, KINDS)
    return entry(it, word.text, kinds_of(words, len(words) - 1))


def meaning(it: Document, at: int) -> Optional[Meaning]:
    """What the name at a place means."""
    word = word_at(it, at)
    if not word:
        return None
    source = source_at(it, word.begin)
    if source:
        return in_source(it, source, word)
    is_line = it.kind is Kind.LINES or it.kind is Kind.DEPLOYMENT and word.begin > len(it.head)
    return in_line(it, word) if is_line else in_head(it, word)
