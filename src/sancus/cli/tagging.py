"""`sancus tag`: packets for those who hold a key. Keys and tags are those of docs/MACHINE.md, and packets those of
docs/PROTOCOL.md; the keys are the deployment's.
"""

from __future__ import annotations

import hashlib
import hmac
import re
from typing import Callable, Dict, List, Tuple

from sancus.cli.commands import Given, Usage
from sancus.cli.context import Context
from sancus.cli.output import print_lines
from sancus.cli.reading import read_all
from sancus.model.deployment import Tables, tables_of
from sancus.model.described import Deployment, Module, described
from sancus.model.numbers import number
from sancus.model.rules import near
from sancus.model.texts import Input
from sancus.records import dataclass
from sancus.status import BAD_TEXT, Ended

TAG = 16
DERIVE, CIPHER, SEAL = b"\x4b", b"\x53", b"\x54"
SET_KEY, ASK, EVENT = b"\x01\x00", b"\x02\x00", b"\x03\x00"
SIDES = ("from", "to")


def mac(key: bytes, text: bytes) -> bytes:
    return hmac.new(key, text, hashlib.sha256).digest()


def low_first(value: int, size: int) -> bytes:
    return value.to_bytes(size, "little")


def derived(key: bytes, text: bytes) -> bytes:
    return mac(key, DERIVE + text)[:TAG]


def wrapped(key: bytes, header: bytes, body: bytes) -> bytes:
    """The header, and what wrap makes of a body: its cipher and the tag."""
    begun = low_first(len(header), 1) + header
    stream = mac(key, CIPHER + begun + b"\x00")
    cipher = bytes(a ^ b for a, b in zip(body, stream))
    return header + cipher + mac(key, SEAL + begun + cipher)[:TAG]


def field_of(link: int, epoch: int) -> bytes:
    """The connection field of a packet."""
    return low_first(link + 256 * epoch, 2)


def connection_key(tables: Tables, link: int, epoch: int) -> bytes:
    return derived(bytes.fromhex(tables.toml.get("secret", "00" * TAG)), field_of(link, epoch))


def module_key(tables: Tables, module: Module, image: bytes, boot: int) -> bytes:
    """The key that a node has, at one of its boots, for a module with this image."""
    node, text, data = tables.named("node", module.node) or {}, module.text, module.data
    layout = b"".join(low_first(it, 2) for it in (text.start, text.stop, data.start, data.stop))
    key = bytes.fromhex(str(node["key"]))
    for part in (low_first(boot, 4), low_first(module.provider, 2), image + layout):
        key = derived(key, part)
    return key


@dataclass
class Holder:
    """Who holds the keys of a deployment, and is asked for a packet."""

    context: Context
    given: Given
    # the keys are in its text, and not in what was read of it
    tables: Tables
    deployment: Deployment

    def number(self, option: str, greatest: int) -> int:
        """The value of an option; absent, 0."""
        word = self.given.text(option) or "0"
        value = number(word)
        if value is None or value > greatest:
            raise Usage(f"--{option} takes a number from 0 to {greatest:,}, and not `{word}`", self.given.command)
        return value

    def index(self, kind: str, name: str) -> int:
        """The number of what has a name."""
        known = self.deployment.names(kind)
        if name not in known:
            raise Ended(BAD_TEXT, f"there is no {kind} {name}; the {kind}s: {' '.join(known) or 'none'}{near(name, known)}")
        return known.index(name)

    def module_key(self, module: str) -> bytes:
        output = self.context.program.ask(["run"], self.deployment.head + b"%%\n")
        image = re.search(rb"(?m)^image " + module.encode() + rb" ([0-9a-f]+)$", output)
        if not image:
            raise Ended(BAD_TEXT, f"the program gives no image of {module}")
        boot = self.number("boot", 2**32 - 1)
        return module_key(self.tables, self.deployment.modules[module], bytes.fromhex(image[1].decode()), boot)

    def event(self, names: List[str]) -> bytes:
        link, epoch = self.index("connection", names[0]), self.number("epoch", 255)
        header = EVENT + field_of(link, epoch) + low_first(self.number("number", 65535), 2)
        return wrapped(connection_key(self.tables, link, epoch), header, low_first(self.number("value", 65535), 2))

    def set_key(self, names: List[str]) -> bytes:
        connection, side = names
        if side not in SIDES:
            raise Usage(f"an end is `from` or `to`, and not `{side}`", self.given.command)
        link, epoch = self.index("connection", connection), self.number("epoch", 255)
        it = self.deployment.connections[connection]
        module = it.sender if side == "from" else it.receiver
        header = SET_KEY + field_of(link, epoch) + low_first(SIDES.index(side), 2)
        return wrapped(self.module_key(module), header, connection_key(self.tables, link, epoch))

    def answer(self, names: List[str]) -> bytes:
        ask = ASK + low_first(self.number("challenge", 2**64 - 1), 16)
        self.index("module", names[0])
        return wrapped(self.module_key(names[0]), ask, b"")[len(ask) :]


@dataclass(frozen=True)
class Packet:
    """A packet: how it is made, the words that name it, and the options that it heeds."""

    make: Callable[[Holder, List[str]], bytes]
    names: Tuple[str, ...]
    options: Tuple[str, ...]


PACKETS: Dict[str, Packet] = {
    "event": Packet(Holder.event, ("CONNECTION",), ("epoch", "number", "value")),
    "set-key": Packet(Holder.set_key, ("CONNECTION", "SIDE"), ("epoch", "boot")),
    "answer": Packet(Holder.answer, ("MODULE",), ("boot", "challenge")),
}
OPTIONS = ("epoch", "number", "value", "boot", "challenge")


def holder_of(context: Context, given: Given, name: str) -> Holder:
    """The holder of the keys of a deployment that the program accepts."""
    head = Input(read_all(name)).head
    made = described(context.program, head)
    if not made.is_accepted:
        raise Ended(BAD_TEXT, f"{name} has no deployment that is accepted: {made.last}; `sancus check` says why")
    tables = tables_of(head)
    if tables is None:
        raise Ended(BAD_TEXT, f"{name} is no TOML 1.0, so its keys aren't read")
    return Holder(context, given, tables, made)


def answer(context: Context, given: Given) -> int:
    what, names = given.text("PACKET"), given.texts("NAME")
    if what not in PACKETS:
        raise Usage(f"{what} is no packet: {', '.join(PACKETS)}", given.command)
    packet = PACKETS[what]
    if len(names) != len(packet.names):
        raise Usage(f"`tag {what}` takes DEPLOYMENT {' '.join(packet.names)}", given.command)
    idle = [it for it in OPTIONS if given.text(it) and it not in packet.options]
    if idle:
        raise Usage(f"`tag {what}` has no use for --{idle[0]}", given.command)
    holder = holder_of(context, given, given.text("DEPLOYMENT"))
    print_lines(f"forge {packet.make(holder, names).hex()}")
    return 0
