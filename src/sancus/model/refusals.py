"""Why something was refused: a reset, a line, an answer or a call, by the line of the schedule that gave it.

The program is asked what `steps` asks: by which instruction, with which registers, and what was in memory then.
"""

from __future__ import annotations

import re
from typing import Callable, Dict, Iterator, List, Optional, Set, Tuple

from sancus.model import stepping
from sancus.model.forged import presented_by
from sancus.model.inspection import Inspected, broken
from sancus.model.items import Item
from sancus.model.legality import LAST_EPOCH, Fails, Model
from sancus.model.numbers import number
from sancus.model.session import Stopped, snapped
from sancus.records import dataclass

IN_WINDOW, OUT_WINDOW, TOP = 40, 384, 0x10000
# Packets by their first word; the entries 0, 1 and 2 take them in this order.
KINDS = {1: "a set-key packet", 2: "an ask", 3: "an event"}
OPERAND = re.compile(r"(?:&?(?P<at>0x[0-9a-f]+)(?:\((?P<indexed>\w+)\))?|@(?P<by>\w+)\+?)")


@dataclass(frozen=True)
class Place:
    """A section or a device's word, its end exclusive."""

    what: str
    begin: int
    end: int
    module: str = ""
    is_private: bool = False

    def told(self) -> str:
        return f"{self.what}, 0x{self.begin:04x} to 0x{self.end - 1:04x}"


@dataclass
class Moment:
    """An item of a run, with the line that gave it and what the items before it showed."""

    seen: Inspected
    item: Item
    before: List[Item]
    # the line's number in the schedule, and how many items of this text it gave before
    at: int
    which: int = 0

    def __post_init__(self) -> None:
        self.words = self.seen.lines[self.at - 1].split()
        self.model = Model(self.seen.deployment)
        for it in self.before:
            try:
                self.model.step(it)
            except (Fails, KeyError, IndexError, ValueError, TypeError):
                # (an item that isn't legal, or of code that belongs to no module)
                continue

    def said(self) -> str:
        """The line, by its place."""
        return f"{self.seen.said(self.at)}, `{stepping.shortened(self.seen.lines[self.at - 1].strip())}`"

    def protected(self) -> Set[str]:
        """The modules that are protected on any node."""
        return set(self.model.present)

    def places(self, node: str) -> List[Place]:
        """The sections of protected modules, and the words of devices, of a node."""
        found = []
        for module in sorted(self.protected()):
            it = self.seen.deployment.modules[module]
            if it.node == node:
                found.append(Place(f"the public section of {module}", it.text.start, it.text.stop, module))
                found.append(Place(f"the private section of {module}", it.data.start, it.data.stop, module, True))
        devices = [it for it in self.seen.deployment.devices.values() if it.node == node]
        return found + [Place(f"the word of the device {it.name}", it.at, it.at + 2) for it in devices]

    def connection(self, number: int) -> str:
        """The connection of a packet's number, if there is one."""
        names = self.seen.deployment.names("connection")
        return names[number] if number < len(names) else f"connection number {number}"

    def ask(self, queries: List[str]) -> List[str]:
        try:
            return snapped(self.seen.program, self.seen.head, self.seen.lines, queries)
        except Stopped as error:
            raise broken(self.seen, str(error)) from None

    def registers(self, node: str) -> List[int]:
        """The registers of a node before the line."""
        return [int(it, 16) for it in self.ask([f"regs {node} {self.at - 1}"])[0].split(" ")[3:]]


# --- What an instruction did ------------------------------------------------------------------------------------------


@dataclass
class Executed:
    """The instruction that gave an item: its number in its line, its text, the registers before it, and the text of the
    one before it."""

    which: int
    text: str
    registers: List[int]
    earlier: str = ""

    @property
    def pc(self) -> int:
        return self.registers[0]


def executed(moment: Moment, node: str) -> Optional[Executed]:
    """The instruction of a line that gave an item; none if the line is too long to be taken apart."""
    seen = moment.seen
    parts = stepping.parts_of(seen, seen.lines[moment.at - 1])
    if parts.note:
        return None
    if moment.words[0] == "load":
        parts.before = stepping.load_parts(seen, moment.words[1], stepping.image_of(seen, moment.words[1]))
    walk = stepping.walked(seen, moment.at, parts)
    shown = [at for at, items in enumerate(walk.items) for it in items if it == moment.item.text]
    if len(shown) <= moment.which:
        return None
    which = shown[moment.which]
    first = max(0, which - 1)
    line = moment.at - 1 + len(parts.before)
    values = stepping.registers(seen, node, walk.lines, line + first, which - first + 1)
    places = {it[0]: line + first + at for at, it in enumerate(values)}
    texts = stepping.disassembled(seen, stepping.code_at(seen, node, walk.lines, places), list(places))
    earlier = said_at(seen, node, values[0][0], texts) if which else ""
    return Executed(which + 1, said_at(seen, node, values[-1][0], texts), values[-1], earlier)


def said_at(seen: Inspected, node: str, pc: int, texts: Dict[int, str]) -> str:
    module = stepping.module_at(seen, node, pc)
    where = "outside the deployed modules" if module is None else f"in {module}"
    return f"`{texts.get(pc, '?')}` at 0x{pc:04x}, {where}"


def accessed(text: str, registers: List[int]) -> List[int]:
    """The addresses that an instruction reads or writes, by its text and the registers before it."""
    by_name = dict(zip(stepping.NAMES, registers))
    mnemonic, _, operands = text.partition(" ")
    found = []
    for it in (OPERAND.fullmatch(word) for word in operands.split(", ")):
        if it and it["by"]:
            found.append(by_name.get(it["by"], 0))
        elif it:
            found.append((int(it["at"], 16) + (by_name.get(it["indexed"], 0) if it["indexed"] else 0)) % TOP)
    if mnemonic.startswith(("push", "call")):
        found.append((by_name["sp"] - 2) % TOP)
    if mnemonic == "reti":
        found += [by_name["sp"], (by_name["sp"] + 2) % TOP]
    return found


def of_reset(moment: Moment) -> Iterator[str]:
    made = moment.item.fields()
    node, cause = made["node"], made["cause"]
    if cause == "asked":
        yield f"asked for by {moment.said()}"
        return
    if moment.words[0] == "irq":
        sp = moment.registers(node)[1]
        yield f"by {moment.said()}: an interrupt writes PC and SR below SP, which is 0x{sp:04x}"
        yield from met(moment, node, "", [(sp - 2) % TOP, (sp - 4) % TOP], cause)
        return
    found = executed(moment, node)
    if not found:
        yield f"by {moment.said()}"
        return
    yield f"by {moment.said()}, step {found.which}: {found.text}"
    own = stepping.module_at(moment.seen, node, found.pc)
    if cause in ("order", "fetch") and found.earlier:
        yield f"step {found.which - 1} was {found.earlier}"
    if cause in ("order", "fetch", "illegal"):
        yield from entered(moment, node, found.pc, cause)
    else:
        text = found.text.split("`")[1]
        yield from met(moment, node, own, accessed(text, found.registers), cause)


def entered(moment: Moment, node: str, pc: int, cause: str) -> Iterator[str]:
    """In which section PC is."""
    for it in moment.places(node):
        if it.begin <= pc < it.end:
            more = f", which is entered at 0x{it.begin:04x} alone" if cause == "order" else ""
            yield f"0x{pc:04x} is in {it.told()}{more}"


def met(moment: Moment, node: str, own: Optional[str], addresses: List[int], cause: str) -> Iterator[str]:
    """Which sections of others, or devices, have some addresses."""
    for at in dict.fromkeys(addresses):
        for it in moment.places(node):
            is_own = it.is_private and it.module == own
            if it.begin <= at < it.end and not is_own and (not it.module) == (cause == "device"):
                yield f"0x{at:04x} is in {it.told()}"


def of_touch(moment: Moment) -> Iterator[str]:
    """By which instruction other code than its driver used a device."""
    device = moment.item.fields()["device"]
    it = moment.seen.deployment.devices[device]
    found = executed(moment, it.node)
    yield f"by {moment.said()}" + (f", step {found.which}: {found.text}" if found else "")
    if it.driver:
        yield f"{it.driver}, which drives {device}, isn't protected: until it is, any code can do this"
    else:
        yield f"no module drives {device}, so any code can do this"


# --- Lines that are refused -------------------------------------------------------------------------------------------


def of_busy(moment: Moment) -> Iterator[str]:
    node = moment.item.fields()["node"]
    pc = moment.registers(node)[0]
    module = stepping.module_at(moment.seen, node, pc)
    yield f"at {moment.said()} PC is 0x{pc:04x}, in {module or 'other code'}, which isn't done: `finish {node}` lets it go on"


def of_skip(moment: Moment) -> Iterator[str]:
    node, act = moment.item.fields()["node"], moment.words[0]
    yield f"by {moment.said()}"
    packets = {it.fields()["packet"]: it.fields()["length"] for it in moment.before if it.kind == "packet"}
    if act == "irq":
        yield f"interrupts are masked: GIE in SR, 0x{moment.registers(node)[2]:04x}, is 0"
        return
    if act == "give" and number(moment.words[1]) not in packets:
        yield f"there is no packet {moment.words[1]}: {len(packets)} were made before"
        return
    begin, size = span_of(moment, packets)
    if begin + size > TOP:
        yield f"0x{begin:04x} and {size} bytes pass the end of memory"
    for it in moment.places(node):
        is_refused = it.is_private or not it.module or act != "take"
        if begin < it.end and it.begin < begin + size and is_refused:
            yield f"0x{begin:04x} to 0x{begin + size - 1:04x} meet {it.told()}"


def span_of(moment: Moment, packets: Dict[int, int]) -> Tuple[int, int]:
    """The bytes that a line reads or writes: a place, and how many."""
    words, act = moment.words, moment.words[0]
    if act == "take":
        return number(words[2]) or 0, number(words[3]) or 0
    if act == "give":
        return number(words[3]) or 0, packets.get(number(words[1]) or 0, 0)
    if act == "put":
        return number(words[2]) or 0, len(words[3]) // 2
    if act == "load":
        section = moment.seen.deployment.modules[words[1]].text
        return section.start, len(section)
    if act == "asm":
        text = " ".join(words[3:]).replace(";", "\n")
        listing = moment.seen.program.ask(["asm", words[2]], text.encode(errors="surrogateescape")).split(b"\n")
        code = [it.split(b" ")[1] for it in listing if it.startswith(b"0x")]
        return number(words[2]) or 0, sum(len(it) for it in code) // 2
    return 0, 0


def of_denied(moment: Moment) -> Iterator[str]:
    """The first of the deployer's conditions that fails."""
    yield f"by {moment.said()}"
    module, boot, packet = moment.words[1], number(moment.words[2]) or 0, number(moment.words[3]) or 0
    model, made = moment.model, sum(it.kind == "packet" for it in moment.before)
    challenge, attested = model.asked.get(module), model.attested.get(module)
    vouched = [it for it in model.vouched if it[:2] == (module, challenge)]
    epochs = [model.epochs.get(it.connection, 0) for it in moment.seen.deployment.modules[module].ends]
    if packet >= made:
        yield f"there is no packet {packet}: {made} were made before"
    elif challenge is None:
        yield f"no ask of {module} is open: `ask {module}` comes first, and an answer is accepted once"
    elif not vouched:
        yield f"{module} didn't answer its last ask, with challenge {challenge}, before"
    elif (module, challenge, boot) not in vouched:
        yield f"{module} answered challenge {challenge} at boot {vouched[-1][2]}, and not at boot {boot}"
    elif attested and attested.boot >= boot:
        yield f"{module} was attested at boot {attested.boot} already, and an answer for boot {boot} comes too late"
    elif attested and LAST_EPOCH in epochs:
        yield f"a connection of {module} is at its last epoch, {LAST_EPOCH}"
    else:
        yield f"packet {packet} isn't the answer that {module} made to its last ask, with challenge {challenge}"


# --- Calls ------------------------------------------------------------------------------------------------------------


@dataclass(frozen=True)
class Header:
    """What the packet in an in-window says of itself."""

    kind: int
    link: int
    epoch: int
    number: int


def header_of(moment: Moment, module: str, window: int) -> Header:
    node, size = moment.seen.deployment.node_of(module), min(6, TOP - window)
    data = bytes.fromhex(moment.ask([f"bytes {node} 0x{window:x} {size} {moment.at - 1}"])[0].split(" ")[-1])
    words = [int.from_bytes(data[it : it + 2], "little") for it in (0, 2, 4)]
    return Header(words[0], words[1] & 255, words[1] >> 8, words[2])


def of_done(moment: Moment) -> Iterator[str]:
    """Why a call did nothing."""
    made, words = moment.item.fields(), moment.words
    module, status = made["module"], made["status"]
    if words[0] != "call" or words[1] != module:
        yield f"by other code, at {moment.said()}: `sancus steps` shows it"
        return
    yield f"by {moment.said()}{presented_by(moment.seen.lines, moment.at, moment.seen.deployment)}"
    told = STATUSES.get(status)
    if told:
        yield from told(moment, module, number(words[2]) or 0, number(words[3]) or 0)


def no_entry(moment: Moment, module: str, entry: int, _window: int) -> Iterator[str]:
    known = "0 set-key, 1 attest, 2 input" + (", 3 sample" if moment.seen.deployment.modules[module].sensor else "")
    yield f"{module} has no entry {entry}: {known}"


def no_window(moment: Moment, module: str, _entry: int, _window: int) -> Iterator[str]:
    data = moment.seen.deployment.modules[module].data
    for name, word, size in (("in", moment.words[3], IN_WINDOW), ("out", moment.words[4], OUT_WINDOW)):
        begin = number(word) or 0
        told = f"the {name}-window of {size} bytes, 0x{begin:04x} to 0x{(begin + size - 1) % TOP:04x},"
        if begin + size > TOP:
            yield f"{told} passes the end of memory"
        elif begin < data.stop and data.start < begin + size:
            yield f"{told} meets the private section of {module}, 0x{data.start:04x} to 0x{data.stop - 1:04x}"


def other_packet(moment: Moment, module: str, entry: int, window: int) -> Iterator[str]:
    found = header_of(moment, module, window)
    there = KINDS.get(found.kind, f"no packet: its first word is {found.kind}")
    yield f"entry {entry} takes {KINDS.get(entry + 1, '?')}, and in the in-window is {there}"


def end_not_open(moment: Moment, module: str, entry: int, window: int) -> Iterator[str]:
    found = header_of(moment, module, window)
    side = "to" if entry == 2 else "to" if found.number else "from"
    name = moment.connection(found.link)
    if (name, side) not in [(it.connection, it.side) for it in moment.seen.deployment.modules[module].ends]:
        yield f"{module} has no {'receiving' if side == 'to' else 'sending'} end of connection number {found.link}"
        return
    view = moment.model.present[module].ends[(name, side)] if module in moment.model.present else None
    is_open = "isn't open" if not view or view.epoch is None else f"is open in epoch {view.epoch}"
    yield f"the packet is for {name} in epoch {found.epoch}, and {module}'s end of it {is_open}"


def event_told(moment: Moment, module: str, window: int) -> str:
    found = header_of(moment, module, window)
    name = moment.connection(found.link)
    if found.kind == 1:
        return f"the packet is a key for {name} in epoch {found.epoch}"
    view = moment.model.present[module].ends.get((name, "to")) if module in moment.model.present else None
    following = f", and the next that {module} takes is {view.next}" if view else ""
    return f"the packet is event {found.number} of {name} in epoch {found.epoch}{following}"


def old_number(moment: Moment, module: str, _entry: int, window: int) -> Iterator[str]:
    yield event_told(moment, module, window)


def other_tag(moment: Moment, module: str, entry: int, window: int) -> Iterator[str]:
    yield event_told(moment, module, window)
    if entry == 0:
        node = moment.seen.deployment.node_of(module)
        yield f"a key is for one module at one boot, and {node} is at boot {moment.model.boot_of(module)}"


def no_sample(moment: Moment, module: str, _entry: int, _window: int) -> Iterator[str]:
    device = moment.seen.deployment.modules[module].sensor
    for it in reversed(moment.before):
        made = it.fields()
        if it.kind == "read" and made["module"] == module or it.kind == "drain" and made["device"] == device:
            yield f"the last sample of {device} was read at item {it.number}, {it.text}"
            return
        if it.kind == "sense" and made["device"] == device:
            yield f"a reset came after the last sample of {device}, item {it.number}"
            return
    yield f"{device} had no sample yet"


STATUSES: Dict[int, Callable[[Moment, str, int, int], Iterator[str]]] = {
    2: no_entry,
    3: no_window,
    4: other_packet,
    5: end_not_open,
    6: old_number,
    7: other_tag,
    8: no_sample,
}
BY_ITEM: Dict[str, Callable[[Moment], Iterator[str]]] = {
    "reset": of_reset,
    "raw": of_touch,
    "drain": of_touch,
    "busy": of_busy,
    "skip": of_skip,
    "denied": of_denied,
    "done": of_done,
}


def told(moment: Moment) -> List[str]:
    """Why an item says no, in lines; none if it doesn't."""
    found = BY_ITEM.get(moment.item.kind)
    return list(found(moment)) if found else []
