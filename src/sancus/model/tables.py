"""What is wrong with the tables of a deployment, a line each: keys, names, ties, places and counts (rules D4, D5, D6,
D9, D10).
"""

from __future__ import annotations

import re
from typing import Any, Dict, List, Optional, Tuple

from sancus.model import language
from sancus.model.deployment import KINDS, Entry, Tables, module_of, port_of
from sancus.model.rules import a, near
from sancus.records import dataclass

LOWEST, HIGHEST = 0x0200, 0xFFE0
# Below this place are the windows to which lines for people have packets written.
ABOVE_WINDOWS = 0x0600
MOST = {"node": 16, "device": 32, "module": 32, "connection": 64}
TYPES: Dict[str, Dict[str, str]] = {
    "top": {"secret": "32 digits", "node": "tables", "device": "tables", "module": "tables", "connection": "tables"},
    "node": {"name": "text", "key": "32 digits"},
    "device": {"name": "text", "node": "text", "kind": "kind", "at": "word"},
    "module": {"name": "text", "node": "text", "provider": "word", "text": "word", "source": "text"},
    "connection": {"name": "text", "from": "port", "to": "port"},
}
OPTIONAL: Dict[str, Dict[str, str]] = {"module": {"data": "word", "device": "text"}}
SAID = {
    "word": "an integer from 0 to 65,535",
    "tables": "an array of tables",
    "32 digits": "32 hexadecimal digits",
    "kind": "`sensor` or `actuator`",
    "port": "`module.port`",
    "text": "a string",
}
FORMS = {"32 digits": r"[0-9A-Fa-f]{32}", "kind": "sensor|actuator", "port": r"[^.]*\.[^.]*", "text": r"(?s).*"}


def suits(value: Any, wanted: str) -> bool:
    """Whether a value has the type and form that a key wants."""
    if wanted == "word":
        return type(value) is int and 0 <= value <= 65535
    if wanted == "tables":
        return isinstance(value, list) and all(isinstance(it, dict) for it in value)
    return isinstance(value, str) and bool(re.fullmatch(FORMS[wanted], value))


def given(value: Any, wanted: str) -> str:
    """What a value is that doesn't suit."""
    if isinstance(value, str) and wanted == "32 digits":
        return f"has {len(value)} characters" if len(value) != 32 else "has others"
    if isinstance(value, str):
        return f'is "{value[:40]}"'
    return "is one table" if isinstance(value, dict) else f"is {str(value)[:40]}"


def keys(kind: str, entry: Any) -> List[str]:
    """What is wrong with the keys of an entry."""
    if not isinstance(entry, dict):
        return [f"it is {str(entry)[:40]}, and must be a table"]
    wanted, optional = TYPES[kind], OPTIONAL.get(kind, {})
    known = [*wanted, *optional]
    lines = [f"the key `{it}` is unknown here{near(it, known)}" for it in entry if it not in known]
    if kind != "top":
        lines += [f"the key `{it}` is missing" for it in wanted if it not in entry]
    if kind == "module" and ("data" in entry) == ("device" in entry):
        lines.append("exactly one of `data` and `device` must be there")
    for key, form in {**wanted, **optional}.items():
        if key in entry and not suits(entry[key], form):
            lines.append(f"`{key}` must be {SAID[form]}, and {given(entry[key], form)}")
    return lines


def names(kind: str, index: int, tables: Tables) -> List[str]:
    """What is wrong with the names of an entry."""
    entry, lines = tables.entries(kind)[index], []
    name = str(entry.get("name", ""))
    if not re.fullmatch(r"[a-z][a-z0-9_]{0,15}", name):
        lines.append(f"`{name}` is no name: a lower-case letter and up to 15 lower-case letters, digits or _")
    if name in tables.names(kind)[:index]:
        lines.append(f"the name `{name}` is taken by an earlier {kind}")
    if kind == "module" and name == "deployer":
        lines.append("no module may be named `deployer`")
    for key in ("node", "device"):
        if kind in ("device", "module") and key in entry and entry[key] not in tables.names(key):
            lines.append(f"there is no {key} `{entry[key]}`{near(str(entry[key]), tables.names(key))}")
    return lines


def ties_of_connection(entry: Entry, tables: Tables) -> List[str]:
    lines = []
    for key, word in (("from", "output"), ("to", "input")):
        module, port = module_of(entry[key]), port_of(entry[key])
        if not tables.named("module", module):
            lines.append(f"`{key}` names no module `{module}`{near(module, tables.names('module'))}")
            continue
        tree = tables.tree(module)
        found = tree.names(word) if tree else []
        if port not in found:
            lines.append(
                f"`{key}`: the module {module} has no {word} `{port}`; its {word}s: "
                f"{' '.join(found) or 'none'}{near(port, found)}"
            )
    return lines


def ties(kind: str, index: int, tables: Tables) -> List[str]:
    """How a module and its device, or a connection and its modules, don't fit."""
    entry = tables.entries(kind)[index]
    if kind == "connection":
        return ties_of_connection(entry, tables)
    tree = tables.tree(str(entry["name"]))
    device = tables.named("device", entry.get("device"))
    declared = next((it.kind for it in tree.declared if it.kind in ("sensor", "actuator")), None) if tree else None
    lines = []
    if device and device["node"] != entry["node"]:
        lines.append(f"the device {device['name']} is on node {device['node']}, and the module on {entry['node']}")
    if device and not declared:
        lines.append(
            f"its source declares no {device['kind']}, which its device {device['name']} is: a line `{device['kind']};`"
        )
    elif device and declared != device["kind"]:
        lines.append(f"its source declares {a(str(declared))}, and its device {device['name']} is {a(device['kind'])}")
    elif declared and not device:
        lines.append(f"its source declares {a(declared)}, and it has no `device`")
    ends = ends_of(tables, entry["name"])
    if ends > 16:
        lines.append(f"it has {ends} ends of connections, and at most 16 may be there")
    return lines or [
        "a handler of it can make more than 16 packets: its sends, each once for each connection from that output"
    ]


@dataclass(frozen=True)
class Range:
    """The addresses of something, its end exclusive."""

    what: str
    begin: int
    end: int

    def told(self) -> str:
        return f"{self.what}, 0x{self.begin:04x} to 0x{self.end:04x},"

    def shares(self, other: "Range") -> str:
        """The part that two ranges share, in words, or nothing."""
        begin, end = max(self.begin, other.begin), min(self.end, other.end)
        return f"share 0x{begin:04x} to 0x{end:04x}, {end - begin} bytes" if begin < end else ""


def ends_of(tables: Tables, module: Any) -> int:
    """How many ends of connections a module has."""
    return sum(module_of(it.get(side)) == module for it in tables.connections for side in ("from", "to"))


def sizes(tables: Tables, module: Entry) -> Optional[Tuple[int, int]]:
    """How long a module's sections are; None if its source doesn't tell."""
    tree, ends = tables.tree(str(module.get("name"))), ends_of(tables, module.get("name"))
    return (2048 + 192 * ends + 64 * language.nodes(tree), 512 + 24 * ends + 2 * language.cells(tree)) if tree else None


def sections(tables: Tables, module: Entry) -> List[Range]:
    """The public and the private section of a module, if they have a place and a size."""
    device, name = tables.named("device", module.get("device")) or {}, module.get("name")
    places = (("public", module.get("text")), ("private", module.get("data", device.get("at"))))
    return [
        Range(f"the {which} section of {name}", at, at + size)
        for (which, at), size in zip(places, sizes(tables, module) or ())
        if isinstance(at, int)
    ]


def section_places(tables: Tables, index: int) -> List[str]:
    """What is wrong with the places of a module's sections, and where they have room."""
    module, lines = tables.modules[index], []
    own = sections(tables, module)
    earlier = [it for it in tables.modules[:index] if it.get("node") == module.get("node")]
    others = [it for other in earlier for it in sections(tables, other)]
    wrong = []
    for it in own:
        found = section_faults(tables, module, it, [*others, *([own[0]] if it is not own[0] else [])])
        lines += found
        wrong += [it] if found else []
    return lines + rooms(tables, module, wrong)


def section_faults(tables: Tables, module: Entry, it: Range, others: List[Range]) -> List[str]:
    """What is wrong with the place of a section of a module, beside other sections."""
    lines = []
    if it.begin % 2:
        lines.append(f"{it.told()} begins at an odd place")
    if it.begin < LOWEST:
        lines.append(f"{it.told()} begins below 0x0200")
    if it.end > HIGHEST:
        lines.append(f"{it.told()} ends {it.end - HIGHEST} bytes above 0xffe0")
    lines += [f"{it.told()} and {other.told()} {it.shares(other)}" for other in others if it.shares(other)]
    for device in tables.devices:
        drives = device["name"] == module.get("device") and it.what.startswith("the private")
        if device["node"] == module.get("node") and not drives and it.shares(word_of(device)):
            lines.append(f"{it.told()} holds the word of the device {device['name']}, 0x{device['at']:04x}")
    return lines


def word_of(device: Entry) -> Range:
    return Range(f"the word of {device.get('name')}", device["at"], device["at"] + 2)


def taken_on(tables: Tables, node: Any) -> List[Range]:
    """What a node has: sections and words of devices, those of a driver in its private section."""
    modules = [it for it in tables.modules if it.get("node") == node]
    driven = [it.get("device") for it in modules]
    words = [word_of(it) for it in tables.devices if it.get("node") == node and it.get("name") not in driven]
    return [*words, *(it for module in modules for it in sections(tables, module))]


def free_place(size: int, taken: List[Range], begin: int) -> Optional[int]:
    """The first place from one on, or else above the windows, where so many bytes meet nothing; at a page, if one has
    room."""
    for unit in (256, 2):
        starts = {-(-at // unit) * unit for at in (begin, ABOVE_WINDOWS, *(it.end for it in taken))}
        free = [
            at
            for at in sorted(starts)
            if ABOVE_WINDOWS <= at <= HIGHEST - size and not any(it.shares(Range("", at, at + size)) for it in taken)
        ]
        if free:
            return next((at for at in free if at >= begin), free[0])
    return None


def rooms(tables: Tables, module: Entry, wrong: List[Range]) -> List[str]:
    """Where on its node sections of a module have room, one beside the other."""
    taken, lines = [it for it in taken_on(tables, module.get("node")) if it not in wrong], []
    for it in wrong:
        at = free_place(it.end - it.begin, taken, it.begin)
        is_public = it.what.startswith("the public")
        key = "text" if is_public else "data" if "data" in module else "at"
        of = f" of its device {module.get('device')}" if key == "at" else ""
        lines.append(room_told(it, module.get("node"), key, at) + of)
        taken += [Range("", at, at + it.end - it.begin)] if at is not None else []
    return lines


def room_told(it: Range, node: Any, key: str, at: Optional[int]) -> str:
    if at is None:
        return f"node {node} has no room for {it.what}, {it.end - it.begin:,} bytes"
    return f"the next free place on {node} for {it.what}: `{key} = 0x{at:04x}`"


def places(kind: str, index: int, tables: Tables) -> List[str]:
    return section_places(tables, index) if kind == "module" else device_places(tables, tables.devices[index])


def device_places(tables: Tables, device: Entry) -> List[str]:
    """What is wrong with the place of a device, and where it has room, with its driver's private section."""
    at, lines = device["at"], []
    if at % 2 or not LOWEST <= at < HIGHEST:
        lines.append(f"its place 0x{at:04x} is odd, below 0x0200, or 0xffe0 or above")
    for other in tables.devices:
        if other is not device and (other["node"], other["at"]) == (device["node"], at):
            lines.append(f"the device {other['name']} is at 0x{at:04x} too")
    own = (sections(tables, tables.driver_of(device["name"]) or {})[1:] or [word_of(device)])[0]
    taken = [it for it in taken_on(tables, device["node"]) if it != own]
    return [*lines, room_told(own, device["node"], "at", free_place(own.end - own.begin, taken, at))]


def counts(tables: Tables) -> List[str]:
    """Which of the entries are too many."""
    lines = [
        f"{len(tables.entries(it))} {it}s, and at most {MOST[it]}" for it in KINDS if len(tables.entries(it)) > MOST[it]
    ]
    for node in tables.names("node"):
        there = sum(it.get("node") == node for it in tables.modules)
        lines += [f"{there} modules on node {node}, and at most 8"] if there > 8 else []
    return lines
