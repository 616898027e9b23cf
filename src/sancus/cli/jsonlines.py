"""The output of `run`, `drive`, `explain` and `check` as JSON, an object a line; docs/FORMATS.md has the form."""

from __future__ import annotations

import json
from typing import Any, Dict, List, Optional

from sancus.cli.sinks import Lines
from sancus.model.described import Deployment
from sancus.model.items import ITEMS, Item, node_of
from sancus.records import dataclass


def line_of(made: Dict[str, Any]) -> bytes:
    return (json.dumps(made, ensure_ascii=False) + "\n").encode(errors="surrogateescape")


def item_object(item: Item, deployment: Optional[Deployment], line: Optional[int]) -> Dict[str, Any]:
    """An item: its number, the schedule's line that gave it, its node, its words by name, and its text."""
    made: Dict[str, Any] = {"item": item.number, "line": line, "kind": item.kind}
    made["node"] = node_of(item, deployment) if deployment else None
    made["module"] = None
    made.update(item.fields())
    made["text"] = item.text
    return made


def fault_object(text: str, told: List[str]) -> Dict[str, Any]:
    """A fault: what it is of, its rule, its place as the program has it, and words for people."""
    words = text.split()
    made: Dict[str, Any] = {"kind": "fault", "of": words[1] if len(words) > 1 else None}
    made["rule"] = words[2] if len(words) > 2 else None
    made["place"] = [int(it) if it.isdigit() else it for it in words[3:] if it != "-"]
    made["text"], made["words"] = text, told
    return made


@dataclass
class JsonSink(Lines):
    """Takes what the program writes, and passes on objects. A fault waits for its words until the run has ended."""

    deployment: Optional[Deployment] = None
    has_images: bool = True
    # the schedule's line of the item that comes
    line_now: Optional[int] = None
    items: int = 0
    fault: str = ""

    def line(self, line: bytes) -> bytes:
        text = line.decode(errors="surrogateescape")
        made = self.object(text)
        return line_of(made) if made else b""

    def object(self, text: str) -> Optional[Dict[str, Any]]:
        words = text.split(" ")
        if words[0] == "image" and len(words) == 3:
            return {"kind": "image", "module": words[1], "bytes": words[2]} if self.has_images else None
        if words[0] == ">":
            self.line_now = (self.line_now or 0) + 1
            return {"kind": "line", "line": self.line_now, "text": text[2:]}
        if words[0] in ITEMS:
            self.items += 1
            return item_object(Item(self.items, text), self.deployment, self.line_now)
        return self.last(text, words)

    def last(self, text: str, words: List[str]) -> Optional[Dict[str, Any]]:
        if text == "trace":
            return None
        if text == "end":
            return {"kind": "end"}
        if words[0] == "steps" and len(words) == 2:
            return {"kind": "steps", "steps": int(words[1])}
        if words[0] == "fault":
            self.fault = text
            return None
        return {"kind": "line", "text": text}

    def finish(self, told: List[str]) -> None:
        """Writes the fault that ended the run, with its words."""
        if self.fault:
            self.to.write(line_of(fault_object(self.fault, told)))
            self.fault = ""


@dataclass
class CheckSink(JsonSink):
    """The same for what `check` writes."""

    def object(self, text: str) -> Optional[Dict[str, Any]]:
        words = text.split(" ")
        if words[0] != "module" or len(words) != 8:
            return self.last(text, words)
        bounds = [int(words[at], 16) for at in (3, 4, 6, 7)]
        node = self.deployment.node_of(words[1]) if self.deployment else None
        return {"kind": "module", "module": words[1], "node": node, "text": bounds[:2], "data": bounds[2:]}


@dataclass
class ExplainSink(JsonSink):
    """The same for what `explain` writes."""

    def object(self, text: str) -> Optional[Dict[str, Any]]:
        words = text.split(" ")
        if words[0] == "because":
            item, cause = int(words[1]), int(words[2])
            return {"kind": "because", "item": item, "cause": cause}
        if words[0] == "legal":
            return {"kind": "legal", "items": int(words[1])}
        if words[0] in ("illegal", "forged"):
            return {"kind": words[0], "item": int(words[1])}
        return self.last(text, words)
