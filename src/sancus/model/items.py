"""Items of a trace: what their words are, which node and module they belong to, and what they say to people."""

from __future__ import annotations

from typing import Any, Callable, Dict, List, Optional, Tuple

from sancus.model.described import Deployment
from sancus.model.table import words as table_words
from sancus.records import dataclass

EPOCH = 65536
ITEMS: Dict[str, Tuple[str, ...]] = {
    "protect": ("node", "module"),
    "reset": ("node", "cause"),
    "ask": ("module", "challenge"),
    "vouch": ("module", "challenge"),
    "attested": ("module", "boot"),
    "denied": ("module",),
    "open": ("module", "connection", "side", "epoch"),
    "take": ("module", "connection", "number", "value"),
    "sense": ("device", "value"),
    "read": ("module", "value"),
    "drain": ("device",),
    "out": ("module", "value"),
    "raw": ("device", "value"),
    "done": ("module", "status", "pieces"),
    "packet": ("packet", "length"),
    "forged": ("module",),
    "busy": ("node",),
    "skip": ("node",),
    "budget": ("node",),
}
NUMBERS = frozenset("challenge boot epoch number value status pieces packet length".split())


@dataclass(frozen=True)
class Item:
    """An item of a trace, by its number from 1 after `trace`."""

    number: int
    text: str

    @property
    def words(self) -> List[str]:
        return self.text.split(" ")

    @property
    def kind(self) -> str:
        return self.words[0]

    def fields(self) -> Dict[str, Any]:
        """Its words by name, numbers as numbers."""
        made: Dict[str, Any] = {}
        for name, word in zip(ITEMS.get(self.kind, ()), self.words[1:]):
            made[name] = int(word) if name in NUMBERS and word.isdigit() else word
        if self.kind == "open":
            made.setdefault("epoch", 0)
        if self.kind == "take":
            made["epoch"], made["event"] = divmod(made["number"], EPOCH)
        if made.get("module") in ("-", "deployer"):
            made["module"] = None
        return made


def node_of(item: Item, deployment: Deployment) -> Optional[str]:
    """The node on which an item came about; none for those of the deployer and the network."""
    made = item.fields()
    if "node" in made:
        return str(made["node"])
    if "device" in made:
        return deployment.devices[made["device"]].node
    if item.kind in ("ask", "attested", "denied", "packet") or not made.get("module"):
        return None
    return deployment.node_of(made["module"])


def connection_said(name: str, deployment: Optional[Deployment]) -> str:
    it = deployment.connections.get(name) if deployment else None
    return f"{name} ({it.sender}.{it.output} to {it.receiver}.{it.input})" if it else name


def say_open(made: Dict[str, Any], deployment: Optional[Deployment]) -> str:
    way = "send on" if made["side"] == "from" else "take from"
    return f"{made['module']} can {way} {connection_said(made['connection'], deployment)}, in epoch {made['epoch']}"


def say_take(made: Dict[str, Any], deployment: Optional[Deployment]) -> str:
    epoch = f" of epoch {made['epoch']}" if made["epoch"] else ""
    return (
        f"{made['module']} took event {made['event']}{epoch} of {connection_said(made['connection'], deployment)}, with "
        f"the value {made['value']}"
    )


def say_done(made: Dict[str, Any], _deployment: Optional[Deployment]) -> str:
    status = table_words()["statuses"].get(str(made["status"]), ["?", "?"])[1]
    pieces = made["pieces"]
    sent = f", and wrote {pieces} piece{'' if pieces == 1 else 's'}" if pieces else ""
    return f"{made['module']} was left with status {made['status']}: {status}{sent}"


def say_protect(made: Dict[str, Any], _deployment: Optional[Deployment]) -> str:
    if not made["module"]:
        return f"other code was protected on node {made['node']}"
    return f"{made['module']} was protected on node {made['node']}, with its first values and no key"


def say_forged(made: Dict[str, Any], _deployment: Optional[Deployment]) -> str:
    who = made["module"] or "the deployer"
    return f"{who} accepts a tag that its rightful maker hadn't made"


def say_reset(made: Dict[str, Any], _deployment: Optional[Deployment]) -> str:
    cause = table_words()["causes"].get(made["cause"], made["cause"])
    return f"node {made['node']} was reset: {cause}"


SAID: Dict[str, Callable[[Dict[str, Any], Optional[Deployment]], str]] = {
    "protect": say_protect,
    "reset": say_reset,
    "open": say_open,
    "take": say_take,
    "done": say_done,
    "forged": say_forged,
    "ask": lambda it, _: f"the deployer asked {it['module']}, with challenge {it['challenge']}",
    "vouch": lambda it, _: f"{it['module']} answered challenge {it['challenge']} with its own key",
    "attested": lambda it, _: f"the deployer accepted {it['module']}'s answer, for boot {it['boot']}",
    "denied": lambda it, _: f"the deployer refused the answer that was given for {it['module']}",
    "sense": lambda it, _: f"the sensor {it['device']} got the value {it['value']}",
    "read": lambda it, _: f"{it['module']} read {it['value']} from its sensor",
    "drain": lambda it, _: f"code that is no driver of it read the sensor {it['device']}",
    "out": lambda it, _: f"{it['module']} wrote {it['value']} to its actuator",
    "raw": lambda it, _: f"code that is no driver of it wrote {it['value']} to the actuator {it['device']}",
    "packet": lambda it, _: f"packet {it['packet']} of {it['length']} bytes was made",
    "busy": lambda it, _: f"refused, since a module runs on node {it['node']}",
    "skip": lambda it, _: (
        f"refused on node {it['node']}: a section, a device, the end of memory, masked interrupts, or no such packet"
    ),
    "budget": lambda it, _: f"1,000,000 steps were taken, and a module of node {it['node']} still runs",
}


def say(item: Item, deployment: Optional[Deployment] = None) -> str:
    """What an item says to people."""
    try:
        return SAID[item.kind](item.fields(), deployment)
    except KeyError:
        # (words that are no item of a deployment)
        return item.text
