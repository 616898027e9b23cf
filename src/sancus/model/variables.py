"""The state of a module after a line, or as it changes: its variables, arrays and ends by name, read by `snap` from its
private section.

docs/PROTOCOL.md has the section's form: from 512 on a slot for each end, then the cells, each less its first value.
"""

from __future__ import annotations

from typing import Dict, Iterator, List, Optional, Tuple, Union

from sancus.model.described import CELL, Module
from sancus.model.inspection import Inspected, Line, broken
from sancus.model.lines import run_by_line
from sancus.model.session import Stopped, snapped
from sancus.model.shown import text_of
from sancus.records import dataclass, field

MOST_BYTES = 64
WORD = 0xFFFF


@dataclass
class Seen:
    """What the run showed of a module up to a line: the boot of its node, and since which line it is protected."""

    boot: int = 0
    since: Optional[int] = None


def items_up_to(seen: Inspected, line: int) -> List[Tuple[int, str]]:
    """The items of a run up to a line, each with its line."""
    text = seen.head + b"%%\n" + "".join(f"{it}\n" for it in seen.lines[:line]).encode(errors="surrogateescape")
    run = run_by_line(text, seen.program)
    if run.last.startswith("fault "):
        raise broken(seen, run.last)
    return [(at, text_of(it)) for at, it in run.items]


def presence(seen: Inspected, module: str, line: int) -> Iterator[Tuple[int, Seen]]:
    """The lines up to one at which the module comes or goes, with what was seen of it then."""
    node, found = seen.deployment.modules[module].node, Seen()
    for at, item in items_up_to(seen, line):
        words = item.split(" ")
        if words[:2] == ["reset", node]:
            found = Seen(found.boot + 1)
        elif words == ["protect", node, module]:
            found = Seen(found.boot, at)
        else:
            continue
        yield at, found


def looked_up(seen: Inspected, module: str, line: int) -> Seen:
    """Whether the module is protected after a line, by the items up to there."""
    found = Seen()
    for _, found in presence(seen, module, line):
        pass
    return found


def pieces_of(begin: int, end: int) -> List[Tuple[int, int]]:
    """Places and sizes of the queries for some bytes."""
    return [(at, min(MOST_BYTES, end - at)) for at in range(begin, end, MOST_BYTES)]


def bytes_of(answers: List[str]) -> bytes:
    return b"".join(bytes.fromhex(it.split(" ")[-1]) for it in answers)


def private_bytes(seen: Inspected, module: Module, line: int) -> Tuple[bytes, List[str]]:
    """The slots and cells of a private section, and the registers of its node."""
    pieces, node = pieces_of(module.kept.start, module.kept.stop), module.node
    queries = [f"regs {node} {line}", *(f"bytes {node} 0x{at:x} {size} {line}" for at, size in pieces)]
    answers = snapped(seen.program, seen.head, seen.lines, queries)
    return bytes_of(answers[1:]), answers[0].split(" ")[3:]


def words_of(data: bytes) -> List[int]:
    return [int.from_bytes(data[at : at + 2], "little") for at in range(0, len(data), 2)]


@dataclass(frozen=True)
class Cells:
    """A variable or an array, with its values."""

    kind: str
    name: str
    values: List[int]

    def told(self) -> str:
        return f"{self.kind} {self.name} = {' '.join(map(str, self.values))}"

    def changes(self, after: Cells) -> Iterator[str]:
        """The words that differ later."""
        for at, (old, new) in enumerate(zip(self.values, after.values)):
            if old != new:
                yield f"{self.name}{f'[{at}]' if self.kind == 'array' else ''} {old} -> {new}"


def cells_of(module: Module, data: bytes, begin: int) -> List[Cells]:
    """The variables and arrays of a module, in the bytes from an address on."""
    cells = []
    for it in module.variables:
        stored = words_of(data[it.at - begin : it.at - begin + CELL * it.length])
        cells.append(Cells(it.kind, it.name, [(value + it.first) & WORD for value in stored]))
    return cells


@dataclass(frozen=True)
class State:
    """A module after a line of the schedule: the boot of its node, since which line it is protected if it is, its cells,
    the epoch and the next event of each end that is open, and PC of its node."""

    module: str
    line: int
    boot: int
    since: Optional[int] = None
    cells: List[Cells] = field(default_factory=list)
    ends: Dict[Tuple[str, str], Optional[Tuple[int, int]]] = field(default_factory=dict)
    pc: int = 0

    @property
    def is_protected(self) -> bool:
        return self.since is not None

    @property
    def variables(self) -> Dict[str, Union[int, List[int]]]:
        """Variables and arrays by their names."""
        return {it.name: it.values if it.kind == "array" else it.values[0] for it in self.cells}


def state_of(seen: Inspected, module: str, line: int) -> State:
    """A module after a line of the schedule."""
    found = looked_up(seen, module, line)
    if found.since is None:
        return State(module, line, found.boot)
    described = seen.deployment.modules[module]
    try:
        data, registers = private_bytes(seen, described, line)
    except Stopped as error:
        raise broken(seen, str(error)) from None
    ends, begin = {}, described.kept.start
    for end in described.ends:
        number, event, is_open = words_of(data[end.at - begin : end.at - begin + 6])
        ends[end.connection, end.side] = (number >> 8, event) if is_open else None
    return State(module, line, found.boot, found.since, cells_of(described, data, begin), ends, int(registers[0], 16))


def end_lines(seen: Inspected, state: State) -> Iterator[str]:
    for it in seen.deployment.modules[state.module].ends:
        is_open = state.ends[it.connection, it.side]
        said = f"open in epoch {is_open[0]}, next event {is_open[1]}" if is_open else "not open"
        yield f"end {it.connection} {it.side}: {said} ({'sends to' if it.side == 'from' else 'takes from'} {it.peer})"


def pc_line(seen: Inspected, node: str, pc: int) -> str:
    found = seen.deployment.at(node, pc)
    where = f"in the public section of {found.name}" if found else "outside the deployed modules"
    return f"pc of {node} 0x{pc:04x}, {where}"


def told(seen: Inspected, module: str, asked: Line) -> List[str]:
    """A module after a line, as lines."""
    it, state = seen.deployment.modules[module], state_of(seen, module, asked.last)
    head = f"module {module} on node {it.node}, boot {state.boot}"
    text, data = it.text, it.data
    where = f"text 0x{text.start:04x} to 0x{text.stop:04x}, data 0x{data.start:04x} to 0x{data.stop:04x}"
    if not state.is_protected:
        return [seen.headed(asked), f"{head}: not protected after this line; {where}"]
    since = f" since {seen.said(state.since)}" if state.since else ""
    return [
        seen.headed(asked),
        f"{head}: protected{since}; {where}",
        *(it.told() for it in state.cells),
        *end_lines(seen, state),
        pc_line(seen, it.node, state.pc),
    ]


# --- Changes ---


def runs_on(seen: Inspected, node: str, line: str) -> bool:
    """Whether a line executes instructions of a node."""
    act, *fields = line.split()[:2] or [""]
    if act in ("run", "finish"):
        return fields == [node]
    return act in ("call", "load") and seen.deployment.node_of(fields[0] if fields else "") == node


def cells_after(seen: Inspected, module: str, lines: List[int]) -> Iterator[Tuple[int, List[Cells]]]:
    """The variables and arrays after each of some lines."""
    it = seen.deployment.modules[module]
    pieces = pieces_of(it.cells.start, it.cells.stop)
    queries = [f"bytes {it.node} 0x{at:x} {size} {line}" for line in lines for at, size in pieces]
    try:
        answers = snapped(seen.program, seen.head, seen.lines, queries)
    except Stopped as error:
        raise broken(seen, str(error)) from None
    for which, line in enumerate(lines):
        begin = which * len(pieces)
        yield line, cells_of(it, bytes_of(answers[begin : begin + len(pieces)]), it.cells.start)


def protected_after(moments: List[int], met: Dict[int, Seen]) -> Iterator[int]:
    """Those of some lines after which the module is protected."""
    is_there = False
    for at in moments:
        is_there = met[at].since is not None if at in met else is_there
        if is_there:
            yield at


def changes(seen: Inspected, module: str, asked: Line) -> List[str]:
    """What changes in a module up to a line, a line for each word; and where the module comes and goes."""
    node = seen.deployment.modules[module].node
    met = dict(presence(seen, module, asked.last))
    moments = [at for at in range(1, asked.last + 1) if at in met or runs_on(seen, node, seen.lines[at - 1])]
    present = list(protected_after(moments, met))
    cells = dict(cells_after(seen, module, present))
    lines: List[str] = []
    before: List[Cells] = []
    was_there = False
    for at in moments:
        now, said = cells.get(at, []), seen.said(at)
        if at in met and (at in cells or was_there):
            lines.append(f"{said}: {came_or_went(node, met[at], now)}")
        elif at not in met:
            lines += [f"{said}: {it}" for old, new in zip(before, now) for it in old.changes(new)]
        before, was_there = now, at in cells
    return lines or [f"{module} isn't protected in this run"]


def came_or_went(node: str, found: Seen, cells: List[Cells]) -> str:
    if found.since is None:
        return f"not protected any more: {node} was reset"
    return "; ".join([f"protected, boot {found.boot}", *(it.told() for it in cells)])
