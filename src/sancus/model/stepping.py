"""The instructions that a line of a schedule executed: each with its address, text, module, and the registers that it
changed.

The line is taken apart into steps (`run NODE 1`), which the program runs and `snap` is asked about.
"""

from __future__ import annotations

from typing import Dict, Iterator, List, Optional

from sancus.model.acts import ACTS, suits
from sancus.model.inspection import Inspected, Line, broken
from sancus.model.numbers import number
from sancus.model.session import Stopped, snapped, start
from sancus.model.shown import plain
from sancus.model.texts import is_act
from sancus.records import dataclass, field
from sancus.status import BAD_TEXT, Ended

# More steps than this aren't shown: a schedule has room for 65,536 lines.
MOST_STEPS = 20_000
MOST_LISTED = 8192
LONGEST = 6
NOTHING = "the line executes no instruction"
NAMES = ["pc", "sp", "sr", *(f"r{it}" for it in range(3, 16))]
FLAGS = [(1, "C"), (2, "Z"), (4, "N"), (8, "GIE"), (16, "CPUOFF"), (256, "V")]


@dataclass
class Parts:
    """A line taken apart: what is set first, and then steps of a node, so many or until no module runs."""

    node: str
    before: List[str] = field(default_factory=list)
    most: int = MOST_STEPS
    is_whole: bool = False
    note: str = ""


@dataclass(frozen=True)
class Step:
    """A step: its instruction, the module in whose public section that lies, the registers before and after it, and
    its items."""

    before: List[int]
    after: List[int]
    items: List[str]
    text: str = "?"
    module: Optional[str] = None

    @property
    def pc(self) -> int:
        return self.before[0]

    @property
    def registers(self) -> Dict[str, int]:
        """The registers that it changed, but PC."""
        three = list(zip(NAMES, self.before, self.after))[1:]
        return {name: new for name, old, new in three if old != new}


@dataclass
class Stepped:
    """The steps of a line, with what was set before them, and what else is to be said."""

    steps: List[Step] = field(default_factory=list)
    before: List[str] = field(default_factory=list)
    note: str = ""


def parts_of(seen: Inspected, line: str) -> Parts:
    words = line.split()
    act = words[0] if words else ""
    if act == "run":
        return Parts(words[1], most=number(words[2]) or 0)
    if act == "finish":
        return Parts(words[1], is_whole=True)
    if act == "call":
        it = seen.deployment.modules[words[1]]
        sets = [
            ("r12", words[2]),
            ("r13", words[3]),
            ("r14", words[4]),
            ("r15", "0"),
            ("pc", f"0x{it.text.start:x}"),
        ]
        return Parts(it.node, [f"set {it.node} {name} {value}" for name, value in sets], is_whole=True)
    if act == "load":
        return Parts(seen.deployment.modules[words[1]].node, most=1)
    return Parts("", note=NOTHING + (": an interrupt is no instruction" if act == "irq" else ""))


def load_parts(seen: Inspected, module: str, image: str) -> List[str]:
    """What a `load` does before its step: the image in pieces, the instruction that protects, and the registers."""
    it = seen.deployment.modules[module]
    node, text, data = it.node, it.text, it.data
    pieces = [image[at : at + 2048] for at in range(0, len(image), 2048)]
    lines = [f"put {node} 0x{text.start + 1024 * at:x} {piece}" for at, piece in enumerate(pieces)]
    values = [it.provider, text.start, text.stop, data.start, data.stop]
    return [
        *lines,
        f"asm {node} 0 protect",
        *(f"set {node} r{9 + at} {value}" for at, value in enumerate(values)),
        f"set {node} pc 0",
    ]


def image_of(seen: Inspected, module: str) -> str:
    answer = seen.program.ask(["run"], seen.head + b"%%\n").decode(errors="replace")
    return answer.partition(f"image {module} ")[2].partition("\n")[0]


@dataclass
class Walk:
    """The steps of a line, as the program takes them one by one."""

    items: List[List[str]] = field(default_factory=list)
    lines: List[str] = field(default_factory=list)
    is_busy: bool = False
    # whether the schedule has no room for further steps
    is_cut: bool = False


def walked(seen: Inspected, at: int, parts: Parts) -> Walk:
    """Takes the steps, and finds how many they are."""
    session = start(seen.program, seen.head)
    walk = Walk()
    try:
        session.skip(seen.lines[: at - 1])
        for it in parts.before:
            items = session.do(it)
            walk.is_busy = walk.is_busy or f"busy {parts.node}" in items
        while not walk.is_busy and len(walk.items) < parts.most and session.has_room:
            items, runs = session.step(parts.node)
            walk.items.append(items)
            if any(it.startswith(f"reset {parts.node} ") for it in items) or (parts.is_whole and not runs):
                break
        walk.lines, walk.is_cut = session.lines, not session.has_room
    except Stopped as error:
        raise broken(seen, str(error)) from None
    finally:
        session.close()
    return walk


def registers(seen: Inspected, node: str, lines: List[str], first: int, count: int) -> List[List[int]]:
    """The registers of a node after each of some lines."""
    answers = snapped(seen.program, seen.head, lines, [f"regs {node} {at}" for at in range(first, first + count)])
    return [[int(it, 16) for it in answer.split(" ")[3:]] for answer in answers]


def code_at(seen: Inspected, node: str, lines: List[str], places: Dict[int, int]) -> Dict[int, int]:
    """The bytes at some addresses, each as it is after a line."""
    queries = [f"bytes {node} 0x{pc:x} {min(LONGEST, 0x10000 - pc)} {line}" for pc, line in places.items()]
    memory: Dict[int, int] = {}
    for pc, answer in zip(places, snapped(seen.program, seen.head, lines, queries)):
        for offset, byte in enumerate(bytes.fromhex(answer.split(" ")[-1])):
            memory.setdefault(pc + offset, byte)
    return memory


def run_of_bytes(memory: Dict[int, int], begin: int) -> bytes:
    end = begin
    while end in memory and end - begin < MOST_LISTED:
        end += 1
    return bytes(memory[at] for at in range(begin, end))


def disassembled(seen: Inspected, memory: Dict[int, int], addresses: List[int]) -> Dict[int, str]:
    """The text of the instruction at each address, by the program's `dis`; neighbours are listed together."""
    found: Dict[int, str] = {}
    for pc in sorted(addresses):
        if pc in found:
            continue
        code = run_of_bytes(memory, pc)
        answer = seen.program.ask(["dis", str(pc)], code[: len(code) & ~1].hex("\n", 1024).encode() + b"\n")
        for line in answer.decode(errors="replace").split("\n"):
            words = line.split(" ", 2)
            if len(words) == 3 and words[0].startswith("0x"):
                found.setdefault(int(words[0], 16), words[2])
        found.setdefault(pc, "?")
    return found


def changes(step: Step) -> str:
    """The registers that a step changed, but PC."""
    made = []
    for name, new in step.registers.items():
        flags = " ".join(flag for bit, flag in FLAGS if new & bit)
        made.append(f"{name}=0x{new:04x}" + (f" ({flags})" if name == "sr" and flags else ""))
    return " ".join(made)


def module_at(seen: Inspected, node: str, pc: int) -> Optional[str]:
    found = seen.deployment.at(node, pc)
    return found.name if found else None


def rows(steps: List[Step]) -> Iterator[str]:
    for at, step in enumerate(steps, 1):
        row = f"{at:5} 0x{step.pc:04x} {step.module or '-':<10} {step.text:<28} {changes(step)}"
        yield row.rstrip()
        for it in step.items:
            yield f"      {it}"


def told(seen: Inspected, asked: Line) -> List[str]:
    """The steps of a line, as lines; of a line for people those of each line that it became."""
    if not asked.last:
        raise Ended(BAD_TEXT, "line 0 is power-on: no instruction is executed there")
    made = [at for at in range(asked.first, asked.last + 1) if is_act(seen.lines[at - 1].encode(errors="replace"))]
    if asked.first == asked.last:
        return [seen.headed(asked), *told_line(seen, asked.first, MOST_STEPS)]
    lines, left = [seen.headed(asked)], MOST_STEPS
    for at in made:
        steps = told_line(seen, at, left)
        left -= sum(it[:5].strip().isdigit() for it in steps)
        lines += [f"> {shortened(seen.lines[at - 1])}", *([] if steps[0] == NOTHING else steps)]
        if left <= 0:
            break
    return lines


def is_in_form(seen: Inspected, line: str) -> bool:
    """Whether a line has the words of an act; the text of an `asm` isn't looked at."""
    act, *words = line.split()
    fields = ACTS.get(act, [])
    is_long_enough = len(words) >= len(fields) if act == "asm" else len(words) == len(fields)
    return bool(fields) and is_long_enough and all(suits(it, word, seen.deployment) for it, word in zip(fields, words))


def must_be_an_act(seen: Inspected, line: str, at: int) -> None:
    """If a line isn't in form, says how the schedule breaks off there."""
    if not is_act(line.encode(errors="replace")) or is_in_form(seen, line):
        return
    schedule = "".join(f"{it}\n" for it in seen.lines[:at]).encode(errors="surrogateescape")
    answer = seen.program.ask(["run"], seen.head + b"%%\n" + schedule).decode(errors="replace").split("\n")
    raise broken(seen, answer[-2] if len(answer) > 1 else "")


def told_line(seen: Inspected, at: int, most: int) -> List[str]:
    """The steps of a line of the schedule, so many at most, as lines."""
    made = steps_of(seen, at, most)
    return [*map(shortened, made.before), *rows(made.steps), *([made.note] if made.note else [])]


def steps_of(seen: Inspected, at: int, most: int = MOST_STEPS) -> Stepped:
    """The steps of a line of the schedule, so many at most."""
    line = seen.lines[at - 1]
    must_be_an_act(seen, line, at)
    parts = parts_of(seen, line)
    if parts.note:
        return Stepped(note=parts.note)
    parts.most = min(parts.most, most)
    if line.split()[0] == "load":
        module = line.split()[1]
        parts.before = load_parts(seen, module, image_of(seen, module))
    walk = walked(seen, at, parts)
    if walk.is_busy:
        return Stepped(note=f"refused, since a module runs on {parts.node}: no instruction is executed")
    steps = with_texts(seen, parts.node, walk, at - 1 + len(parts.before))
    note = "and perhaps more: a schedule has no room for further steps" if walk.is_cut else ""
    if not note and len(walk.items) == most:
        note = f"and more: {MOST_STEPS:,} steps are shown at most"
    return Stepped(steps, parts.before, note)


def with_texts(seen: Inspected, node: str, walk: Walk, first: int) -> List[Step]:
    """The steps of a walk, with the registers after each of its lines, and the texts of the instructions."""
    values = registers(seen, node, walk.lines, first, len(walk.items) + 1)
    places: Dict[int, int] = {}
    for which in range(len(walk.items)):
        places.setdefault(values[which][0], first + which)
    texts = disassembled(seen, code_at(seen, node, walk.lines, places), list(places))
    return [
        Step(old, new, items, texts.get(old[0], "?"), module_at(seen, node, old[0]))
        for old, new, items in zip(values, values[1:], walk.items)
    ]


def shortened(line: str) -> str:
    return plain(line if len(line) < 80 else f"{line[:60]}.. ({len(line.split()[-1]) // 2} bytes)")
