"""A deployment as the program read it, from the lines that `describe` prints (docs/FORMATS.md has their form), with the
trees of its modules' sources.
"""

from __future__ import annotations

from typing import Dict, List, Optional, Tuple

from sancus.model import language, toml
from sancus.model.asking import Program
from sancus.model.shown import text_of
from sancus.records import dataclass, field

# The bytes of a cell.
CELL = 2


@dataclass(frozen=True)
class Device:
    """A device with the address of its word, and the module that drives it, if any."""

    name: str
    node: str
    kind: str
    at: int
    driver: Optional[str]


@dataclass(frozen=True)
class Variable:
    """A variable or an array: where its cells begin, how many it has, and what each begins with."""

    kind: str
    name: str
    at: int
    length: int
    first: int


@dataclass(frozen=True)
class End:
    """An end of a module, with the module at its other end and the address of its slot."""

    module: str
    connection: str
    side: str
    port: str
    peer: str
    at: int


@dataclass(frozen=True)
class Connection:
    """A connection from an output of one module to an input of another."""

    name: str
    sender: str
    output: str
    receiver: str
    input: str


@dataclass
class Module:
    """A module: its sections, each with an exclusive end, what its dearest handler costs, its ports and variables in order
    of declaration, and its ends in connection order."""

    name: str
    node: str
    provider: int
    text: range
    data: range
    cost: int
    device: Optional[Device] = None
    inputs: List[str] = field(default_factory=list)
    outputs: List[str] = field(default_factory=list)
    variables: List[Variable] = field(default_factory=list)
    ends: List[End] = field(default_factory=list)

    @property
    def cells(self) -> range:
        """The addresses of its variables and arrays."""
        return range(self.data.stop - CELL * sum(it.length for it in self.variables), self.data.stop)

    @property
    def kept(self) -> range:
        """The addresses of what it keeps between events: its ends' slots, and its cells after them."""
        return range(self.ends[0].at if self.ends else self.cells.start, self.data.stop)

    @property
    def sensor(self) -> Optional[str]:
        """The sensor that it drives."""
        return self.device.name if self.device and self.device.kind == "sensor" else None


@dataclass
class Deployment:
    """What an accepted deployment has, each kind by name and in its order; with its text, and the last line of what
    `describe` printed: `end`, or the fault of one that is refused."""

    head: bytes = b""
    last: str = ""
    nodes: List[str] = field(default_factory=list)
    devices: Dict[str, Device] = field(default_factory=dict)
    modules: Dict[str, Module] = field(default_factory=dict)
    connections: Dict[str, Connection] = field(default_factory=dict)
    trees: Dict[str, language.Module] = field(default_factory=dict)

    @property
    def is_accepted(self) -> bool:
        return self.last == "end"

    def read(self, line: str) -> None:
        """Takes a line of `describe`."""
        match line.split(" "):
            case ["node", name]:
                self.nodes.append(name)
            case ["device", name, "node", node, "kind", kind, "at", at, "driver", driver]:
                self.devices[name] = Device(name, node, kind, int(at, 16), None if driver == "-" else driver)
            case [
                "module", name, "node", node, "provider", provider,
                "text", begin, end, "data", first, last, "weight", _, "cost", cost,
            ]:  # fmt: skip
                text, data = range(int(begin, 16), int(end, 16)), range(int(first, 16), int(last, 16))
                device = next((it for it in self.devices.values() if it.driver == name), None)
                self.modules[name] = Module(name, node, int(provider), text, data, int(cost), device)
            case ["input", module, name]:
                self.modules[module].inputs.append(name)
            case ["output", module, name]:
                self.modules[module].outputs.append(name)
            case ["var", module, name, "at", at, "first", value]:
                self.modules[module].variables.append(Variable("var", name, int(at, 16), 1, int(value)))
            case ["array", module, name, "at", at, "length", length]:
                self.modules[module].variables.append(Variable("array", name, int(at, 16), int(length), 0))
            case ["slot", module, connection, side, "port", port, "peer", peer, "at", at]:
                self.modules[module].ends.append(End(module, connection, side, port, peer, int(at, 16)))
            case ["connection", name, "from", output, "to", input]:
                self.connections[name] = Connection(name, *output.split("."), *input.split("."))

    def names(self, kind: str) -> List[str]:
        """The names of a kind of entries."""
        known = {"node": self.nodes, "device": [*self.devices], "module": [*self.modules]}
        return known.get(kind, [*self.connections])

    @property
    def sensors(self) -> List[str]:
        return [it.name for it in self.devices.values() if it.kind == "sensor"]

    def modules_of(self, node: str) -> List[Module]:
        return [it for it in self.modules.values() if it.node == node]

    def node_of(self, module: str) -> str:
        """The node of a module; nothing if that isn't deployed."""
        return self.modules[module].node if module in self.modules else ""

    @property
    def ends(self) -> List[End]:
        """All ends in the order of the connections, the sending one first."""
        by_place = {(it.connection, it.side): it for module in self.modules.values() for it in module.ends}
        return [by_place[name, side] for name in self.connections for side in ("from", "to")]

    def tree(self, module: str) -> language.Module:
        """The tree of a module's source."""
        if not self.trees:
            tables = toml.read(self.head.decode("utf-8-sig"))["module"]
            self.trees.update((it["name"], language.parse(it["source"])) for it in tables)
        return self.trees[module]

    def at(self, node: str, address: int) -> Optional[Module]:
        """The module of a node in whose public section an address lies."""
        return next((it for it in self.modules_of(node) if address in it.text), None)

    def taken(self, node: str) -> List[Tuple[str, range]]:
        """What has its place on a node, in order: sections, and the words of devices that no module drives."""
        devices = [it for it in self.devices.values() if it.node == node and not it.driver]
        found = [(f"the word of {it.name}", range(it.at, it.at + CELL)) for it in devices]
        for it in self.modules_of(node):
            found += [(f"the public section of {it.name}", it.text), (f"the private section of {it.name}", it.data)]
        return sorted(found, key=lambda it: it[1].start)


def described(program: Program, head: bytes) -> Deployment:
    """The deployment of a text, which has nothing but the fault if the program refuses it."""
    answer = program.answer(["describe"], head + b"%%\n")
    made = Deployment(head, answer.last)
    for line in answer.lines:
        made.read(text_of(line))
    return made
