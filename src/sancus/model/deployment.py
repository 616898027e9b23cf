"""A deployment as its text has it, whether the program accepts it or not: what words about it need. docs/FORMATS.md has
the rules.
"""

from __future__ import annotations

from typing import Any, Dict, List, Optional

from sancus.model import language, toml

Entry = Dict[str, Any]
NODE_BY_DEFAULT: Entry = {"name": "n", "key": "00" * 16}
KINDS = ("node", "device", "module", "connection")


def module_of(port: Any) -> str:
    return str(port).split(".", 1)[0]


def port_of(port: Any) -> str:
    return str(port).partition(".")[2]


class Tables:
    """The tables of a deployment. An entry may lack keys, as long as the program hasn't accepted it."""

    def __init__(self, document: Entry) -> None:
        self.toml = document
        self.nodes = self.rows("node") or [NODE_BY_DEFAULT]
        self.devices, self.modules, self.connections = self.rows("device"), self.rows("module"), self.rows("connection")
        self.trees: Dict[str, Optional[language.Module]] = {}

    def rows(self, key: str) -> List[Entry]:
        """The entries of a kind; one that is no table has no keys."""
        found = self.toml.get(key, [])
        return [it if isinstance(it, dict) else {} for it in found] if isinstance(found, list) else []

    def entries(self, kind: str) -> List[Entry]:
        return {"node": self.nodes, "device": self.devices, "module": self.modules}.get(kind, self.connections)

    def named(self, kind: str, name: Any) -> Optional[Entry]:
        return next((it for it in self.entries(kind) if it.get("name") == name), None)

    def names(self, kind: str) -> List[str]:
        return [str(it.get("name")) for it in self.entries(kind)]

    @property
    def sensors(self) -> List[str]:
        return [str(it.get("name")) for it in self.devices if it.get("kind") == "sensor"]

    def driver_of(self, device: str) -> Optional[Entry]:
        return next((it for it in self.modules if it.get("device") == device), None)

    def tree(self, module: str) -> Optional[language.Module]:
        """The tree of a module's source, or None if it is no module."""
        if module not in self.trees:
            source = (self.named("module", module) or {}).get("source")
            try:
                self.trees[module] = language.parse(source) if isinstance(source, str) else None
            except (language.NotInGrammar, ValueError, RecursionError):
                self.trees[module] = None
        return self.trees[module]


def tables_of(head: bytes) -> Optional[Tables]:
    """The tables of a text, or None if it is no TOML."""
    try:
        return Tables(toml.read(head.decode("utf-8-sig")))
    except (ValueError, RecursionError):
        return None


def source_start(head: bytes, tables: Tables, index: int) -> Optional[int]:
    """Where a module's source begins in the text of its deployment, whose lines end in a newline alone; None if it
    isn't found there as it is."""
    modules = tables.modules
    source = modules[index].get("source") if index < len(modules) else None
    if not isinstance(source, str) or not source:
        return None
    found, at = source.encode(errors="surrogateescape"), -1
    for _ in range(sum(it.get("source") == source for it in modules[:index]) + 1):
        at = head.find(found, at + 1)
        # a source's text begins after a quote, or at the line after one
        while at >= 0 and head[:at].rstrip(b"\n")[-1:] not in (b'"', b"'"):
            at = head.find(found, at + 1)
        if at < 0:
            return None
    return at
