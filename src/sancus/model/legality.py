"""Why the sources don't allow an item: the conditions of docs/LANGUAGE.md and docs/PROTOCOL.md, item by item, in
words.

The program judges; this only finds the condition that fails at the item that the program calls illegal.
"""

from __future__ import annotations

from typing import Any, Callable, Dict, List, Optional, Tuple

from sancus.model.described import Deployment
from sancus.model.items import Item
from sancus.model.meaning import first_cells, react
from sancus.model.numbers import counted
from sancus.records import dataclass, field

MOST_SENT, LAST_EPOCH = 65535, 255


class Fails(Exception):
    """The condition that fails, in words."""


@dataclass
class EndView:
    """An end as a module has it: its epoch, none while it isn't open, and the next event that it takes."""

    epoch: Optional[int] = None
    next: int = 0


@dataclass
class Owed:
    """What a module still owes of the event that an item began."""

    emits: List[int]
    pieces: int
    item: int
    what: str


@dataclass
class Present:
    """A module that is protected."""

    cells: Dict[str, List[int]]
    ends: Dict[Tuple[str, str], EndView]
    owed: Optional[Owed] = None


@dataclass
class Reading:
    """A sensor's last value, and whether nobody read it yet."""

    value: int = 0
    is_fresh: bool = False


@dataclass
class Attestation:
    """When a module was attested last, and the epochs of all connections then."""

    boot: int
    floors: Dict[str, int]


@dataclass
class Model:
    """The state of the sources after some items."""

    deployment: Deployment
    boots: Dict[str, int] = field(default_factory=dict)
    readings: Dict[str, Reading] = field(default_factory=dict)
    present: Dict[str, Present] = field(default_factory=dict)
    asked: Dict[str, int] = field(default_factory=dict)
    vouched: List[Tuple[str, int, int]] = field(default_factory=list)
    attested: Dict[str, Attestation] = field(default_factory=dict)
    epochs: Dict[str, int] = field(default_factory=dict)
    sent: Dict[Tuple[str, int], List[int]] = field(default_factory=dict)
    asks: int = 0

    def step(self, item: Item) -> None:
        """Takes an item in; Fails says which condition it breaks."""
        act = STEPS.get(item.kind)
        if act:
            act(self, item, item.fields())

    # --- Modules ---

    def boot_of(self, module: str) -> int:
        """How often the module's node was reset."""
        return self.boots.get(self.deployment.node_of(module), 0)

    def protected(self, module: str) -> Present:
        if module not in self.present:
            node = self.deployment.node_of(module)
            raise Fails(f"{module} isn't there: it wasn't protected since power-on or the last reset of {node}")
        return self.present[module]

    def idle(self, module: str) -> Present:
        found = self.protected(module)
        if found.owed:
            raise Fails(
                f"{module} is still at {found.owed.what} (item {found.owed.item}): a `done` of it must come before"
            )
        return found

    def reacts(self, module: str, event: Optional[str], value: int, item: Item) -> None:
        """A module's handler runs: what it sends is sent, and it owes what it emits and a `done`."""
        present, emits, pieces = self.protected(module), [], 0
        said = []
        for kind, output, it in react(self.deployment.tree(module), event, value, present.cells):
            if kind == "emit":
                emits.append(it)
                said.append(f"emits {it}")
            else:
                pieces += self.send(module, output, it)
                said.append(f"sends {output}({it})")
        handler = f"`on {event}({value})`" if event is not None else f"`sample({value})`"
        present.owed = Owed(
            emits, pieces, item.number, f"{handler}, which {' and '.join(said) or 'sends and emits nothing'}"
        )

    def send(self, module: str, output: str, value: int) -> int:
        pieces = 0
        for end in self.deployment.modules[module].ends:
            view = self.present[module].ends[(end.connection, end.side)]
            if (end.side, end.port) != ("from", output) or view.epoch is None:
                continue
            words = self.sent.setdefault((end.connection, view.epoch), [])
            if len(words) < MOST_SENT:
                words.append(value)
                pieces += 1
        return pieces

    def end(self, present: Present, module: str, connection: str, side: str) -> EndView:
        view = present.ends.get((connection, side))
        if view is None:
            raise Fails(f"{module} has no {'sending' if side == 'from' else 'receiving'} end of {connection}")
        return view


def protect(model: Model, _item: Item, made: Dict[str, Any]) -> None:
    module = made["module"]
    if not module:
        return
    it = model.deployment.modules[module]
    if it.node != made["node"]:
        raise Fails(f"{module} is deployed on {it.node}, and not on {made['node']}")
    if module in model.present:
        raise Fails(
            f"{module} is protected already: its section can't be protected twice without a reset of " f"{made['node']}"
        )
    ends = {(end.connection, end.side): EndView() for end in it.ends}
    model.present[module] = Present(first_cells(model.deployment.tree(module)), ends)


def reset(model: Model, _item: Item, made: Dict[str, Any]) -> None:
    node = made["node"]
    model.boots[node] = model.boots.get(node, 0) + 1
    for device in model.deployment.devices.values():
        if device.node == node and device.name in model.readings:
            model.readings[device.name].is_fresh = False
    for module in model.deployment.modules_of(node):
        model.present.pop(module.name, None)


def sense(model: Model, _item: Item, made: Dict[str, Any]) -> None:
    if made["device"] not in model.deployment.sensors:
        raise Fails(f"{made['device']} is no sensor")
    model.readings[made["device"]] = Reading(made["value"], True)


def read(model: Model, item: Item, made: Dict[str, Any]) -> None:
    module = made["module"]
    model.idle(module)
    device = model.deployment.modules[module].sensor
    if not device:
        raise Fails(f"{module} drives no sensor")
    reading = model.readings.get(device, Reading())
    if not reading.is_fresh:
        raise Fails(f"the sensor {device} has no new sample: the last was read, or a reset made it old")
    if reading.value != made["value"]:
        raise Fails(f"the sensor {device} has the value {reading.value}, and not {made['value']}")
    reading.is_fresh = False
    model.reacts(module, None, made["value"], item)


def undriven(model: Model, device: str) -> None:
    driver = model.deployment.devices[device].driver
    if driver in model.present:
        raise Fails(f"the driver of {device}, {driver}, is protected: no other code reaches its device")


def drain(model: Model, _item: Item, made: Dict[str, Any]) -> None:
    reading = model.readings.get(made["device"], Reading())
    if not reading.is_fresh:
        raise Fails(f"the sensor {made['device']} has no new sample")
    undriven(model, made["device"])
    reading.is_fresh = False


def raw(model: Model, _item: Item, made: Dict[str, Any]) -> None:
    undriven(model, made["device"])


def ask(model: Model, _item: Item, made: Dict[str, Any]) -> None:
    if made["challenge"] != model.asks:
        raise Fails(f"challenges count the asks before: this one is {model.asks}")
    model.asks += 1
    model.asked[made["module"]] = made["challenge"]


def vouch(model: Model, item: Item, made: Dict[str, Any]) -> None:
    module = made["module"]
    present = model.idle(module)
    model.vouched.append((module, made["challenge"], model.boot_of(module)))
    present.owed = Owed([], 1, item.number, "its answer, of one piece")


def attested(model: Model, _item: Item, made: Dict[str, Any]) -> None:
    module, boot = made["module"], made["boot"]
    if module not in model.asked:
        raise Fails(f"no ask of {module} is open")
    if (module, model.asked[module], boot) not in model.vouched:
        raise Fails(f"{module} didn't vouch for challenge {model.asked[module]} at boot {boot}")
    own = sorted({it.connection for it in model.deployment.modules[module].ends})
    before = model.attested.get(module)
    if before and before.boot >= boot:
        raise Fails(f"{module} was attested at boot {before.boot} already, and this is boot {boot}")
    if before and any(model.epochs.get(it, 0) >= LAST_EPOCH for it in own):
        raise Fails(f"a connection of {module} is at its last epoch, {LAST_EPOCH}")
    for it in own if before else []:
        model.epochs[it] = model.epochs.get(it, 0) + 1
    del model.asked[module]
    model.attested[module] = Attestation(boot, dict(model.epochs))


def open_(model: Model, item: Item, made: Dict[str, Any]) -> None:
    module, connection, epoch = made["module"], made["connection"], made["epoch"]
    present = model.idle(module)
    view = model.end(present, module, connection, made["side"])
    if view.epoch is not None and view.epoch >= epoch:
        raise Fails(f"this end is open in epoch {view.epoch} already, and takes a key of a later one only")
    boot, found = model.boot_of(module), model.attested.get(module)
    if not found or found.boot != boot:
        raise Fails(f"the deployer made no key for {module} at boot {boot}: it wasn't attested at it")
    if not found.floors.get(connection, 0) <= epoch <= model.epochs.get(connection, 0):
        raise Fails(
            f"the deployer made no key of epoch {epoch} for this end: {found.floors.get(connection, 0)} to "
            f"{model.epochs.get(connection, 0)}"
        )
    view.epoch, view.next = epoch, 0
    present.owed = Owed([], 0, item.number, "opening its end")


def take(model: Model, item: Item, made: Dict[str, Any]) -> None:
    module, connection, epoch, event = made["module"], made["connection"], made["epoch"], made["event"]
    present = model.idle(module)
    view = model.end(present, module, connection, "to")
    if view.epoch != epoch:
        is_open = "isn't open" if view.epoch is None else f"is open in epoch {view.epoch}, and not in {epoch}"
        raise Fails(f"{module}'s end of {connection} {is_open}")
    if event < view.next:
        raise Fails(f"event {event} of {connection} was taken before, or a later one was: the next is {view.next}")
    words, sender = model.sent.get((connection, epoch), []), model.deployment.connections[connection].sender
    if event >= len(words):
        raise Fails(
            f"{sender} sent {counted(len(words), 'event')} over {connection} in epoch {epoch}, so there is no event "
            f"{event}"
        )
    if words[event] != made["value"]:
        raise Fails(f"{sender} sent the value {words[event]} as event {event} of {connection}, and not {made['value']}")
    view.next = event + 1
    model.reacts(module, model.deployment.connections[connection].input, made["value"], item)


def out(model: Model, _item: Item, made: Dict[str, Any]) -> None:
    module = made["module"]
    owed = model.protected(module).owed
    if not owed:
        raise Fails(f"{module} is at no event, so it writes nothing")
    if not owed.emits:
        raise Fails(f"{module} is at {owed.what} (item {owed.item}), and has nothing more to emit")
    if owed.emits[0] != made["value"]:
        raise Fails(
            f"{module} is at {owed.what} (item {owed.item}): it emits {owed.emits[0]} now, and not {made['value']}"
        )
    owed.emits.pop(0)


def done(model: Model, _item: Item, made: Dict[str, Any]) -> None:
    module, status, pieces = made["module"], made["status"], made["pieces"]
    present = model.protected(module)
    if status == 1:
        owed = present.owed
        if not owed:
            raise Fails(
                f"status 1 says that {module} did what was asked, and no item shows what: an `open`, `vouch`, `take` "
                "or `read` of it is missing"
            )
        if owed.emits:
            raise Fails(f"{module} is at {owed.what} (item {owed.item}), and emits {owed.emits[0]} before it is done")
        if owed.pieces != pieces:
            raise Fails(
                f"{module} is at {owed.what} (item {owed.item}), which makes {counted(owed.pieces, 'piece')} over its "
                f"open ends, and not {pieces}"
            )
        present.owed = None
        return
    if not 2 <= status <= 8:
        raise Fails(f"there is no status {status}")
    if pieces:
        raise Fails(f"with status {status} nothing is written, and here it is {counted(pieces, 'piece')}")
    if present.owed:
        raise Fails(
            f"{module} is at {present.owed.what} (item {present.owed.item}), so it can't be refused with status "
            f"{status}"
        )
    device = model.deployment.modules[module].sensor
    if status == 8 and (not device or model.readings.get(device, Reading()).is_fresh):
        raise Fails(
            f"status 8 says that the sensor has no new sample, and {device} has one, or {module} drives no sensor"
        )


STEPS: Dict[str, Callable[[Model, Item, Dict[str, Any]], None]] = {
    "protect": protect,
    "reset": reset,
    "sense": sense,
    "read": read,
    "drain": drain,
    "raw": raw,
    "ask": ask,
    "vouch": vouch,
    "attested": attested,
    "open": open_,
    "take": take,
    "out": out,
    "done": done,
}


def reason(deployment: Deployment, items: List[Item], number: int) -> Optional[str]:
    """Which condition the item of this number breaks after those before it; None if none is found here."""
    model = Model(deployment)
    for item in items[:number]:
        try:
            model.step(item)
        except Fails as error:
            return str(error) if item.number == number else None
        except (KeyError, IndexError, ValueError, TypeError):
            return None
    return None
