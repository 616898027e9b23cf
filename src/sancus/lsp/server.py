"""The server: reads messages, answers requests, and says what is wrong with a text when no message waits."""

from __future__ import annotations

import json
import sys
import traceback
from dataclasses import dataclass, field
from difflib import SequenceMatcher
from queue import SimpleQueue
from threading import Thread
from typing import Any, BinaryIO, Callable, Dict, List, Optional, Set

from sancus import __version__
from sancus.lsp.checks import Checker, Limited
from sancus.lsp.completion import completion, symbols
from sancus.lsp.documents import Document, Documents, path_of
from sancus.lsp.names import Meaning, meaning
from sancus.model.formatting import formatted
from sancus.model.layout import CantLayOut

Message = Dict[str, Any]
# Why a request isn't answered, as the protocol numbers it.
PARSE_ERROR, INVALID_REQUEST, NO_METHOD, INTERNAL_ERROR = -32700, -32600, -32601, -32603
NOT_INITIALIZED, FAILED = -32002, -32803
CAPABILITIES = {
    "positionEncoding": "utf-16",
    "textDocumentSync": {"openClose": True, "change": 1},
    "hoverProvider": True,
    "definitionProvider": True,
    "documentSymbolProvider": True,
    "documentFormattingProvider": True,
    "completionProvider": {"triggerCharacters": [" ", '"', "."]},
}


class Failed(Exception):
    """A request that isn't answered: its code, and why."""

    def __init__(self, code: int, why: str) -> None:
        super().__init__(why)
        self.code = code


def read_message(stream: BinaryIO) -> Optional[bytes]:
    """The next message, or none at the end."""
    length = None
    while True:
        line = stream.readline()
        if not line:
            return None
        if not line.strip():
            break
        name, _, value = line.partition(b":")
        if name.strip().lower() == b"content-length":
            length = int(value)
    return stream.read(length) if length is not None else b""


def edits(it: Document, new: bytes) -> List[Message]:
    """The changes of lines that make a text this one."""
    old, made = it.text.data.splitlines(keepends=True), new.splitlines(keepends=True)
    starts = [0]
    for line in old:
        starts.append(starts[-1] + len(line))
    changes = [one for one in SequenceMatcher(None, old, made, autojunk=False).get_opcodes() if one[0] != "equal"]
    return [
        {"range": it.text.range(starts[a], starts[b]), "newText": b"".join(made[c:d]).decode(errors="replace")}
        for _, a, b, c, d in changes
    ]


@dataclass
class Server:
    """A server for one client."""

    program: Limited
    reading: BinaryIO
    writing: BinaryIO
    documents: Documents = field(default_factory=Documents)
    # the texts that changed since they were checked
    changed: Set[str] = field(default_factory=set)
    waiting: "SimpleQueue[Optional[bytes]]" = field(default_factory=SimpleQueue)
    is_begun: bool = False
    is_shut: bool = False

    def serve(self) -> int:
        """Answers until the client says `exit` or goes; the status is 0 if it said `shutdown` before."""
        Thread(target=self.read_all, daemon=True).start()
        try:
            while True:
                data = self.next()
                if data is None or self.handle(data):
                    break
        except BrokenPipeError:
            # (the client went without a word)
            pass
        return 0 if self.is_shut else 1

    def read_all(self) -> None:
        data: Optional[bytes] = b""
        while data is not None:
            try:
                data = read_message(self.reading)
            except (OSError, ValueError):
                data = None
            self.waiting.put(data)

    def next(self) -> Optional[bytes]:
        """The next message; while none waits, what changed is checked."""
        while self.changed and self.waiting.empty():
            uri = min(self.changed)
            self.changed.remove(uri)
            self.publish(uri)
        return self.waiting.get()

    def send(self, **message: Any) -> None:
        data = json.dumps({"jsonrpc": "2.0", **message}).encode()
        self.writing.write(b"Content-Length: %d\r\n\r\n" % len(data) + data)
        self.writing.flush()

    def handle(self, data: bytes) -> bool:
        """Handles a message; true if it is the last."""
        try:
            message = json.loads(data)
            method, params = message.get("method"), message.get("params") or {}
        except (ValueError, AttributeError):
            self.send(id=None, error={"code": PARSE_ERROR, "message": "this is no message"})
            return False
        if "id" not in message:
            self.take_in(str(method), params)
            return bool(method == "exit")
        if method is not None:
            self.answer(message["id"], str(method), params)
        return False

    # --- Requests ---

    def answer(self, number: Any, method: str, params: Any) -> None:
        try:
            self.send(id=number, result=self.result(method, params))
        except Failed as error:
            self.send(id=number, error={"code": error.code, "message": str(error)})
        except BrokenPipeError:
            raise
        except Exception as error:  # noqa: BLE001 (a server goes on)
            traceback.print_exc(file=sys.stderr)
            self.send(id=number, error={"code": INTERNAL_ERROR, "message": f"{type(error).__name__}: {error}"})

    def result(self, method: str, params: Any) -> Any:
        if self.is_shut:
            raise Failed(INVALID_REQUEST, "the server is shut down")
        if method == "initialize":
            self.is_begun = True
            return {"capabilities": CAPABILITIES, "serverInfo": {"name": "sancus", "version": __version__}}
        if not self.is_begun:
            raise Failed(NOT_INITIALIZED, "`initialize` comes first")
        if method == "shutdown":
            self.is_shut = True
            return None
        answers: Dict[str, Callable[[Document, Any], Any]] = {
            "textDocument/hover": self.hover,
            "textDocument/definition": self.definition,
            "textDocument/completion": lambda it, given: completion(it, it.text.place(given["position"])),
            "textDocument/documentSymbol": lambda it, _given: symbols(it),
            "textDocument/formatting": self.formatting,
        }
        if method not in answers:
            raise Failed(NO_METHOD, f"there is no method {method}")
        it = self.documents.by_uri.get(params["textDocument"]["uri"])
        return answers[method](it, params) if it else None

    def meaning(self, it: Document, params: Any) -> Optional[Meaning]:
        return meaning(it, it.text.place(params["position"]))

    def hover(self, it: Document, params: Any) -> Any:
        found = self.meaning(it, params)
        return {"contents": {"kind": "markdown", "value": found.words}} if found else None

    def definition(self, it: Document, params: Any) -> Any:
        found = self.meaning(it, params)
        return {"uri": found.uri, "range": found.where} if found and found.where else None

    def formatting(self, it: Document, _params: Any) -> List[Message]:
        try:
            return edits(it, formatted(self.program, str(path_of(it.uri) or it.name), it.text.data))
        except CantLayOut as error:
            raise Failed(FAILED, str(error)) from None

    # --- Texts ---

    def take_in(self, method: str, params: Any) -> None:
        """Takes in what the client tells; what isn't known, or lacks something, changes nothing."""
        try:
            document = params["textDocument"]
            uri = str(document["uri"])
            if method == "textDocument/didOpen":
                self.open(uri, document["text"])
            elif method == "textDocument/didChange":
                self.open(uri, params["contentChanges"][-1]["text"])
            elif method == "textDocument/didClose":
                self.close(uri)
        except (KeyError, IndexError, TypeError, AttributeError):
            return

    def close(self, uri: str) -> None:
        self.documents.by_uri.pop(uri, None)
        self.send(method="textDocument/publishDiagnostics", params={"uri": uri, "diagnostics": []})

    def open(self, uri: str, content: str) -> None:
        """Takes in a text; those that belong to it as their deployment are checked again too."""
        self.documents.open(uri, content)
        others = [it for it in self.documents.by_uri.values() if it.deployment and it.deployment.uri == uri != it.uri]
        for it in others:
            self.documents.open(it.uri, it.text.data.decode(errors="replace"))
        self.changed.update([uri, *(it.uri for it in others)])

    def publish(self, uri: str) -> None:
        it = self.documents.by_uri.get(uri)
        if not it:
            return
        try:
            found = Checker(self.program).check(it)
        except Exception:  # noqa: BLE001 (a server goes on)
            traceback.print_exc(file=sys.stderr)
            found = []
        self.send(method="textDocument/publishDiagnostics", params={"uri": uri, "diagnostics": found})
