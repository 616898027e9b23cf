"""What can be written at a place of a text, and what a text holds."""

from __future__ import annotations

import re
from typing import Any, Dict, Iterable, List, Optional, Sequence

from sancus.lsp.checks import Placed
from sancus.lsp.documents import Document
from sancus.lsp.names import OF_KEYS, Source, before, kinds_of, source_at, sources
from sancus.model.acts import ACTS, fields_told
from sancus.model.deployment import KINDS, Tables, module_of
from sancus.model.guesses import NEEDED
from sancus.model.kinds import Kind
from sancus.model.language import PROPERTY_WORDS, VALUED, WATCHED, WORDS
from sancus.model.schedule import FORMS
from sancus.model.shown import text_of
from sancus.model.tables import OPTIONAL, TYPES

Offer = Dict[str, Any]
# Kinds of what is offered, and of symbols, as the protocol numbers them.
FUNCTION, VARIABLE, KEYWORD, VALUE, FIELD = 3, 6, 14, 12, 5
SYMBOLS = {"node": 2, "device": 8, "module": 5, "connection": 24}
HANDLER = 12

DECLARED = re.compile(r"\b(var|array|input|output|let)\s+([a-z][a-z0-9_]*)")
PARAMETER = re.compile(r"\(\s*([a-z][a-z0-9_]*)\s*\)\s*\{")
WORD_BEFORE = re.compile(r"(\w+)\s+\w*$")
OF_MODULES = {"sensor", "actuator", "input", "output", "sample", "send", "emit"}
# A text in quotes that isn't closed, after its key.
QUOTED = re.compile(r"(\w+)\s*=\s*\"([^\"]*)$")
TABLE = re.compile(r"(?m)^\s*\[\[\s*(\w+)\s*\]\]")
KEY_BEGUN = re.compile(r"(?:^|[{,])\s*\w*$")


def offers(labels: Iterable[str], kind: int, detail: str = "") -> List[Offer]:
    return [{"label": it, "kind": kind, **({"detail": detail} if detail else {})} for it in labels]


def entries(tables: Optional[Tables], kinds: Sequence[str]) -> List[Offer]:
    return [it for kind in kinds for it in offers(tables.names(kind), VARIABLE, kind)] if tables else []


# --- Sources ----------------------------------------------------------------------------------------------------------


def declared(source: Source) -> List[Offer]:
    """The names of a source, found by the words before them: a text that is being written is seldom in the grammar."""
    names = [{"label": it[2], "kind": VARIABLE, "detail": it[1]} for it in DECLARED.finditer(source.text)]
    return [*names, *offers(sorted({it[1] for it in PARAMETER.finditer(source.text)}), VARIABLE, "value")]


def in_source(source: Source, line: str) -> List[Offer]:
    """Names and words of the handler language."""
    before_it = WORD_BEFORE.search(line)
    wanted = {"send": "output", "on": "input"}.get(before_it[1]) if before_it else None
    if wanted:
        return [it for it in declared(source) if it["detail"] == wanted]
    return [*declared(source), *offers(sorted(WORDS), KEYWORD)]


def watched(tables: Tables, kind: str) -> List[str]:
    """What items of a kind can be of, as rule P3 of a property has it."""
    what, needed = WATCHED[kind], NEEDED.get(kind)
    devices = [str(it.get("name")) for it in tables.devices if needed in (None, it.get("kind"))]
    if what == "device":
        return devices
    drives = [str(it.get("name")) for it in tables.modules if it.get("device") in devices]
    return drives if what == "module" and needed else tables.names(what)


def in_property(it: Document, source: Source, line: str) -> List[Offer]:
    words = line.split()
    heading = words[words.index("on") :] if "on" in words and "{" not in line else []
    place = len(heading) - (0 if line.endswith((" ", "\t")) else 1)
    if heading and place == 1:
        return [{"label": kind, "kind": KEYWORD, "detail": of} for kind, of in WATCHED.items()]
    if heading and place == 2 and heading[1] in WATCHED:
        made = offers(watched(it.known, heading[1]) if it.known else [], VARIABLE, WATCHED[heading[1]])
        return [{**one, "insertText": f"{one['label']}(v)"} for one in made] if heading[1] in VALUED else made
    return [*declared(source), *offers(sorted(PROPERTY_WORDS - OF_MODULES), KEYWORD)]


# --- Tables and lines -------------------------------------------------------------------------------------------------


def ports(it: Document, kind: str) -> List[Offer]:
    """The outputs, or the inputs, of all modules."""
    tables = it.known
    trees = [(name, tables.tree(name)) for name in tables.names("module")] if tables else []
    return offers((f"{name}.{port}" for name, tree in trees if tree for port in tree.names(kind)), FIELD, kind)


def in_head(it: Document, text: str, line: str) -> List[Offer]:
    """A name between quotes, or a key."""
    quoted = QUOTED.search(line)
    if quoted:
        key = quoted[1]
        if key == "kind":
            return offers(("sensor", "actuator"), VALUE)
        if key in ("from", "to"):
            return ports(it, "output" if key == "from" else "input")
        return entries(it.known, OF_KEYS.get(key, ()))
    if not KEY_BEGUN.search(line):
        return []
    inline = re.findall(r"(\w+)\s*=\s*\[", text) if "{" in line else []
    table = inline[-1] if inline else next((one[1] for one in reversed([*TABLE.finditer(text)])), "top")
    return offers([*TYPES.get(table, {}), *OPTIONAL.get(table, {})], FIELD)


def packets(tables: Tables) -> List[str]:
    """The names that `deploy` and `carry` give to packets."""
    ways = [(module_of(it.get("from")), module_of(it.get("to"))) for it in tables.connections]
    asked = [f"{what}.{it}" for it in tables.names("module") for what in ("ask", "answer")]
    return [*dict.fromkeys(f"event.{sender}.{receiver}" for sender, receiver in ways), *asked]


def in_line(it: Document, line: str) -> List[Offer]:
    words = line.split()
    place = len(words) - (0 if not line or line.endswith((" ", "\t")) else 1)
    if place == 0:
        acts = [{"label": act, "kind": FUNCTION, "detail": fields_told(act, ACTS)} for act in ACTS]
        return acts + [{"label": act, "kind": FUNCTION, "detail": form} for act, (_, _, form) in FORMS.items()]
    tables, field = it.known, "".join(one.name for one in ACTS.get(words[0], [])[place - 1 : place])
    if not tables or words[0] in ("#", "#:", "#>"):
        return []
    if field == "PACKET":
        return offers(packets(tables), VALUE)
    if field == "DEVICE" or words[0] == "flow":
        return offers(tables.sensors, VARIABLE, "sensor")
    return entries(tables, kinds_of(words, place) if words[0] in FORMS or words[0] in ACTS else [])


def completion(it: Document, at: int) -> List[Offer]:
    """What can be written at a place."""
    line, source = text_of(before(it, at)), source_at(it, at)
    if it.kind is Kind.PROPERTY and source:
        return in_property(it, source, line)
    if it.kind is Kind.LINES or at > len(it.head):
        return in_line(it, line)
    text = text_of(it.text.data[:at])
    if text.count('"""') % 2:
        return in_source(source or Source(0, text.rpartition('"""')[2], None), line)
    return in_head(it, text, line)


# --- Symbols ----------------------------------------------------------------------------------------------------------


def symbols(it: Document) -> List[Dict[str, Any]]:
    """The entries of a deployment, or the handlers of a property."""
    if it.kind is Kind.PROPERTY:
        tree = sources(it)[0].tree
        headings = [one.heading for one in (tree.handlers if tree else []) if one.heading]
        places = [(head, it.text.of_plain(head.at)) for head in headings]
        spans = [(f"on {head.words}", HANDLER, it.text.range(at, at + len(head.name))) for head, at in places]
    elif it.kind is Kind.DEPLOYMENT and it.tables:
        teller, tables = Placed(it.kept()), it.tables
        named = [(kind, at, name) for kind in KINDS for at, name in enumerate(tables.names(kind)) if tables.toml.get(kind)]
        lines = [(name, SYMBOLS[kind], teller.entry_line(kind, at)) for kind, at, name in named]
        spans = [(name, kind, it.text.span(line)) for name, kind, line in lines if line]
    else:
        spans = []
    return [{"name": name, "kind": kind, "range": where, "selectionRange": where} for name, kind, where in spans]
