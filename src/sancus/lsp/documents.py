"""The texts that an editor has open, each with the deployment that it belongs to."""

from __future__ import annotations

import re
from dataclasses import dataclass, field
from functools import cached_property
from pathlib import Path
from typing import Dict, Optional
from urllib.parse import unquote, urlsplit

from sancus.lsp.text import Text
from sancus.model import described
from sancus.model.deployment import Tables, tables_of
from sancus.model.kinds import Kind, kind_of
from sancus.model.texts import MARK, Input, Kept, Origin

# How lines, or a property, name their deployment: a path from the folder of the file.
NAMED = re.compile(rb"(?m)^(?:#|//):[ \t]*deployment[ \t]+(.*?)[ \t\r]*$")
# A trace without an item, of which a property says nothing.
NO_ITEMS = b"trace\nend\n"


def path_of(uri: str) -> Optional[Path]:
    """The file of an address, if it is of one here."""
    parts = urlsplit(uri)
    return Path(unquote(parts.path)) if parts.scheme == "file" else None


def ended(text: bytes) -> bytes:
    return text if text.endswith(b"\n") or not text else text + b"\n"


@dataclass
class Deployment:
    """A deployment, and the text in which it stands."""

    uri: str
    text: Text
    # as the program read it, after a check
    read: Optional[described.Deployment] = None

    @cached_property
    def head(self) -> bytes:
        return ended(Input(self.text.data).head)

    @cached_property
    def tables(self) -> Optional[Tables]:
        return tables_of(self.head)

    @property
    def name(self) -> str:
        return unquote(self.uri.rpartition("/")[2])


@dataclass
class Document:
    """A text that is open: what it is, and the deployment that it has or belongs to."""

    uri: str
    text: Text
    kind: Kind
    deployment: Optional[Deployment]
    # the tables of its deployment as they could be read last: a text that is being written is often none
    known: Optional[Tables] = None

    @property
    def name(self) -> str:
        return unquote(self.uri.rpartition("/")[2])

    @property
    def tables(self) -> Optional[Tables]:
        return self.deployment.tables if self.deployment else None

    @property
    def head(self) -> bytes:
        return self.deployment.head if self.deployment else b""

    @cached_property
    def first(self) -> int:
        """The line with which what follows the deployment begins: after the mark, if there is one."""
        data = Input(self.text.data)
        return data.head.count(b"\n") + 2 if data.has_mark and self.kind is not Kind.PROPERTY else 1

    @cached_property
    def rest(self) -> bytes:
        """What follows the deployment, as the program reads it."""
        data = Input(self.text.data)
        if self.kind is Kind.PROPERTY:
            return ended(data.data) + MARK + b"\n" + NO_ITEMS
        return data.rest if data.has_mark or self.kind is Kind.DEPLOYMENT else data.data

    @property
    def whole(self) -> bytes:
        """The input of the program: the deployment, the mark, and what follows."""
        return self.head + MARK + b"\n" + self.rest

    @property
    def mark(self) -> int:
        """The line of the mark in the whole."""
        return self.head.count(b"\n") + 1

    def kept(self) -> Kept:
        """The whole, with the places of its lines."""
        head = self.deployment.name if self.deployment else self.name
        origins = [Origin(1, head, 1), Origin(self.mark + 1, self.name, self.first)]
        kept = Kept(origins=origins)
        kept.add(self.whole)
        return kept

    def own_line(self, line: int) -> Optional[int]:
        """The line of this text that a line of the whole is; None if that is one of another file."""
        if line > self.mark:
            return line - self.mark + self.first - 1
        return line if self.kind is Kind.DEPLOYMENT else None


@dataclass
class Documents:
    """The texts that are open, by their addresses."""

    by_uri: Dict[str, Document] = field(default_factory=dict)

    def open(self, uri: str, content: str) -> Document:
        text = Text(content)
        kind = kind_of(str(path_of(uri) or uri), text.data)
        found = Deployment(uri, text) if kind is Kind.DEPLOYMENT else self.deployment_of(uri, text)
        before = self.by_uri.get(uri)
        made = self.by_uri[uri] = Document(uri, text, kind, found)
        made.known = made.tables or (before.known if before else None)
        return made

    def deployment_of(self, uri: str, text: Text) -> Optional[Deployment]:
        """The deployment that a text names, or the only one in its folder."""
        path, named = path_of(uri), NAMED.search(text.data)
        if path is None:
            return None
        if named:
            return self.read((path.parent / named[1].decode(errors="surrogateescape")).resolve())
        found = [it for it in map(self.read, sorted(path.parent.glob("*.toml"))) if it]
        there = [it for it in found if it.tables and it.tables.modules] if len(found) > 1 else found
        return there[0] if len(there) == 1 else None

    def read(self, path: Path) -> Optional[Deployment]:
        """The deployment of a file: as it is open, or else as it stands there."""
        uri = path.as_uri()
        if uri in self.by_uri:
            return Deployment(uri, self.by_uri[uri].text)
        try:
            return Deployment(uri, Text(path.read_bytes().decode(errors="replace")))
        except (OSError, ValueError):
            return None
