#!/usr/bin/env python3
"""The processor's instructions that a step takes, by the kind of code, outside every module and as the code of one.

    bench/steps.py             all of the following, some ten minutes
    bench/steps.py programs    the C programs of bench/c as clang compiles them: each runs to its end, and its result is compared
    bench/steps.py forms       straight-line code of one form of instruction, on words and on bytes
    bench/steps.py shapes      code of odd shapes: words that repeat, computed jumps, small modules, many sections, devices
    bench/steps.py dear        what one module instruction takes, and one line of a schedule, where that is much

The module isn't deployed: its text is the code and its data what the code uses. A module of a deployment is compiled code, on words but for packets
(`bench/compare.py --instructions`). It takes valgrind, and for the programs clang with the target msp430, lld and llvm.
"""

import os
import subprocess
import sys
import tempfile
from concurrent.futures import ThreadPoolExecutor
from dataclasses import dataclass, field

from counting import TOP, counted, joined, printed, protected

HERE = os.path.join(TOP, "bench", "c")
FLAGS = ["--target=msp430", "-mhwmult=none", "-ffreestanding", "-fno-builtin", "-fomit-frame-pointer", "-Wall", "-Werror"]
# Each with its result, as mspdebug has it.
RESULTS = {"sort": 6150, "fir": 19330, "crc": 43945, "memory": 22191, "strings": 91, "packets": 752}
BEGIN, LOW, HIGH = 0x8000, 0x0600, 0x7FF0
# The most steps of a line, and queries of a call.
LINE, QUERIES = 65535, 64


# --- Programs -----------------------------------------------------------------------------------------------------------


@dataclass
class Image:
    """A compiled program: its bytes from BEGIN on, and the addresses of its names."""

    code: bytes
    names: dict

    def lines(self, is_module):
        put = [f"put n {BEGIN + at:#x} {self.code[at : at + 1024].hex()}" for at in range(0, len(self.code), 1024)]
        return [*put, *(protected(BEGIN, BEGIN + len(self.code), LOW, HIGH) if is_module else []), f"set n pc {BEGIN:#x}"]


def compiled(name, level, folder):
    """Compiles a program of bench/c."""
    objects = []
    for source in (f"{HERE}/start.S", f"{HERE}/{name}.c", f"{TOP}/examples/c_attacker/arithmetic.c"):
        objects.append(os.path.join(folder, f"{os.path.basename(source)}.o"))
        flags = [*FLAGS, level] if source.endswith(".c") else FLAGS[:1]
        subprocess.run(["clang", *flags, "-c", source, "-o", objects[-1]], check=True)
    linked, raw = (os.path.join(folder, it) for it in ("program.elf", "program.bin"))
    subprocess.run(["ld.lld", "-T", f"{HERE}/node.ld", "--gc-sections", *objects, "-o", linked], check=True)
    subprocess.run(["llvm-objcopy", "-O", "binary", linked, raw], check=True)
    listed = subprocess.run(["llvm-nm", linked], stdout=subprocess.PIPE, check=True, text=True).stdout
    with open(raw, "rb") as file:
        code = file.read()
    return Image(code + bytes(len(code) % 2), {it.split()[-1]: int(it.split()[0], 16) for it in listed.splitlines()})


def runs(steps):
    return [f"run n {LINE}"] * (steps // LINE) + [f"run n {steps % LINE}"] * (steps % LINE > 0)


def stops_at(lines, steps, stop):
    """Whether so many steps end at this address."""
    after = [*lines, *runs(steps)]
    answer = printed(["snap"], joined(["%%", *after, "%%", f"regs n {len(after)}"]))
    return int(answer[0].split()[3], 16) == stop


def steps_until(lines, stop):
    """The steps up to an address at which a program stays."""
    few, many = 0, LINE
    while not stops_at(lines, many, stop):
        few, many = many, 2 * many
    while many - few > 1:
        middle = (few + many) // 2
        few, many = (few, middle) if stops_at(lines, middle, stop) else (middle, many)
    return many


def cost_of_program(name, level):
    """Its steps, and what one takes outside every module and inside one."""
    with tempfile.TemporaryDirectory() as folder:
        image = compiled(name, level, folder)
    steps = steps_until(image.lines(False), image.names["stop"])
    costs = []
    for is_module in (False, True):
        lines = image.lines(is_module)
        whole = [*lines, *runs(steps)]
        answer = printed(["snap"], joined(["%%", *whole, "%%", f"bytes n {image.names['result']} 2 {len(whole)}"]))
        found = int.from_bytes(bytes.fromhex(answer[0].split()[4]), "little")
        assert found == RESULTS[name], f"{name} {level}: {found} in place of {RESULTS[name]}"
        costs.append((counted(["run"], joined(["%%", *whole])) - counted(["run"], joined(["%%", *lines]))) / steps)
    return steps, *costs


# --- Forms --------------------------------------------------------------------------------------------------------------

# With `.b` where they are of bytes.
FORMS = (
    "add{} r5, r8",
    "add{} #4, r8",
    "add{} #0x1234, r8",
    "add{} 2(r6), r8",
    "mov{} 2(r6), r8",
    "add{} @r6, r8",
    "mov{} @r6, r8",
    "add{} r5, 4(r6)",
    "mov{} r5, 4(r6)",
    "add{} #4, &0x2004",
    "add{} 2(r6), 4(r6)",
    "mov{} 2(r6), 4(r6)",
    "add{} @r6, 4(r6)",
    "add{} 0x2000, r8",
    "rra{} 4(r6)",
)
ON_WORDS = ("bic #1, sr", "mov r9, sp")


def cost_of_form(text, is_module):
    body = "; ".join([text] * 24)
    lines = [f"asm n 0x4000 {body}; mov #0x4000, pc"]
    lines += protected(0x4000, 0x4200, 0x2000, 0x3000) if is_module else []
    return Loop([*lines, "set n r9 0x2800", "set n r6 0x2010", "set n r5 3"]).cost()


# --- Shapes -------------------------------------------------------------------------------------------------------------


@dataclass
class Loop:
    """Lines that make ready a loop at 0x4000, or elsewhere, and what stands before the schedule."""

    lines: list
    head: list = field(default_factory=list)
    begin: int = 0x4000

    def cost(self, steps=20_000):
        """What a step takes: four lines of steps more take so many more."""
        few, many = (
            [*self.head, "%%", *self.lines, "set n sp 0x2800", f"set n pc {self.begin:#x}", *[f"run n {steps}"] * count] for count in (1, 5)
        )
        return (counted(["run"], joined(many)) - counted(["run"], joined(few))) / (4 * steps)


def block(text, count):
    """A loop of an instruction of one word that comes so often."""
    pieces = [f"asm n {0x4000 + 2 * at:#x} {'; '.join([text] * min(180, count - at))}" for at in range(0, count, 180)]
    return [*pieces, f"asm n {0x4000 + 2 * count:#x} mov #0x4000, pc"]


def varied(count):
    """The same with other words in each 512 bytes."""
    pieces = [f"asm n {0x4000 + 2 * at:#x} add r5, r{6 + at // 256 % 8}" for at in range(count)]
    return [*pieces, f"asm n {0x4000 + 2 * count:#x} mov #0x4000, pc"]


def sections(count):
    """Sections of 8 bytes of code, 8 bytes apart, from 0x6000 on."""
    return [it for k in range(count) for it in protected(0x6000 + 16 * k, 0x6008 + 16 * k, 0x2000 + 16 * k, 0x2008 + 16 * k)]


def ring(count, apart, data):
    """Modules that jump to each other's entries."""
    jumps = [f"asm n {0x4000 + apart * k:#x} mov #{0x4000 + apart * ((k + 1) % count):#x}, pc" for k in range(count)]
    bounds = [(0x4000 + apart * k, 0x4006 + apart * k, 0x2000 + data * k, 0x2010 + data * k) for k in range(count)]
    return [*jumps, *(it for each in bounds for it in protected(*each))]


def sensors(count):
    each = (f'{{ name = "d{k}", node = "n", kind = "sensor", at = {0x2000 + 2 * k:#x} }}' for k in range(count))
    return [f"device = [ {', '.join(each)} ]"]


ADD = "asm n 0x4000 a: add {}; jmp a"
MODULE = protected(0x4000, 0x4010, 0x2000, 0x2010)
SHAPES = {
    "a jump": Loop(["asm n 0x4000 a: jmp a"]),
    "a jump of a module": Loop(["asm n 0x4000 a: jmp a", *MODULE]),
    "two words": Loop([ADD.format("r5, r6")]),
    "3.6 KB, words that repeat 512 bytes apart": Loop(block("add r5, r6", 1800)),
    "3.6 KB, other words in each 512 bytes": Loop(varied(1800)),
    "40 KB": Loop(block("add r5, r6", 19800)),
    "an operand on the next page": Loop(["asm n 0x40fa a: add r5, r6; add r5, r6; add #0x1234, r6; jmp a"], begin=0x40FA),
    "a word that is written over": Loop(["asm n 0x4000 a: xor r7, &0x4004; add r5, r6; jmp a", "set n r7 0xd000"]),
    "br to a register": Loop(["asm n 0x4000 mov r10, pc", "asm n 0x5000 mov r11, pc", "set n r10 0x5000", "set n r11 0x4000"]),
    "call of a register, and return": Loop(["asm n 0x4000 a: call r10; jmp a", "asm n 0x5000 mov @sp+, pc", "set n r10 0x5000"]),
    "a table of jumps": Loop(["asm n 0x4000 a: mov 0x2000(r5), pc", "put n 0x2000 0040"]),
    "two modules in a ring": Loop(ring(2, 0x20, 0x20)),
    "eight modules in a ring, on pages of their own": Loop(ring(8, 0x400, 0x100)),
    "a module that returns at once": Loop(
        ["asm n 0x4000 a: mov #0x4008, r15; mov #0x6000, pc; jmp a", "asm n 0x6000 mov r15, pc", *protected(0x6000, 0x6004, 0x2000, 0x2010)]
    ),
    "a module reads its data": Loop([ADD.format("&0x2000, r6"), *MODULE]),
    "a module reads its own text": Loop([ADD.format("&0x4000, r6"), *MODULE]),
    "a module reads outside": Loop([ADD.format("&0x5000, r6"), *MODULE]),
    "outside reads the text of one module of eight": Loop([ADD.format("&0x6000, r6"), *sections(8)]),
    "outside reads two gaps between eight in turn": Loop(["asm n 0x4000 a: add &0x6008, r6; add &0x6018, r6; jmp a", *sections(8)]),
    "outside reads three gaps in turn": Loop(["asm n 0x4000 a: add &0x6008, r6; add &0x6018, r6; add &0x6028, r6; jmp a", *sections(8)]),
    "beside 1 device on the page": Loop([ADD.format("&0x2080, r6")], sensors(1)),
    "beside 32 devices on the page": Loop([ADD.format("&0x2080, r6")], sensors(32)),
    "a refused protect": Loop(["asm n 0x4000 a: protect; jmp a", "set n r9 1", "set n r10 0x6001"]),
}


# --- Instructions and lines that take much ------------------------------------------------------------------------------

TEXT = 59392
# A module's data, with the places of a tag, a header and a text, and of what is written.
DATA = {"r9": 0, "r10": 0x0400, "r11": 32, "r12": 0x0440, "r13": 32, "r14": 0x0480, "r15": 0x04C0}


def repeated(word, length=0x0400, **registers):
    """The code of a module is this instruction, over and over."""
    begin, end = 0x1000, 0x1000 + length
    code = bytes.fromhex(word) * ((length - 4) // 2) + bytes.fromhex("3040") + begin.to_bytes(2, "little")
    put = [f"put n {begin + at:#x} {code[at : at + 1024].hex()}" for at in range(0, length, 1024)]
    settings = [f"set n {name} {value:#x}" for name, value in (DATA | registers).items()]
    return Loop([*put, *protected(begin, end, 0x0400, 0x0800, by=0x0100), *settings], begin=begin)


def large_module():
    """The lines of a deployment with one module, whose text is 30 KB."""
    declared = [f"var v{k};" for k in range(40)] + ["array a[300];", "array b[300];"]
    work = [f"if v > {k * 37} {{ v{k} = v{k + 1} + a[v{k} & 255]; }}" for k in range(36)]
    return [
        'secret = "000102030405060708090a0b0c0d0e0f"',
        'node = [ { name = "n", key = "101112131415161718191a1b1c1d1e1f" } ]',
        'connection = [ { name = "up", from = "m.level", to = "m.given" } ]',
        "[[module]]",
        'name = "m"',
        'node = "n"',
        "provider = 7",
        "text = 0x4000",
        "data = 0x0a00",
        "source = '''",
        "input given; output level;",
        *declared,
        "on given(v) {",
        *work,
        "b[v & 127] = v1; send level(v); }",
        "'''",
    ]


def cost_of_line(line):
    """What the line takes after the set-up of that module, in which it was attested at boot 0."""
    setup = ["load m", "ask m", "give 0 n 0x300", "call m 1 0x300 0x400", "take n 0x400 16", "answer m 0 1", "ask m"]
    few, many = (counted(["run"], joined([*large_module(), "%%", *setup, *[line] * count])) for count in (4, 12))
    return (many - few) / 8


def without_jump(shape, jump):
    """What the one instruction of a loop takes, without the jump back."""
    return SHAPES[shape].cost() * 2 - SHAPES[jump].cost()


DEAR = {
    "a module adds a word of its own text": lambda: without_jump("a module reads its own text", "a jump of a module"),
    "code outside adds a word of the text of one of eight": lambda: without_jump("outside reads the text of one module of eight", "a jump"),
    "attest, a byte of a text of 58 KB": lambda: repeated("8213", TEXT, r9=0x1000).cost(5) / TEXT,
    "wrap of 32 bytes": lambda: repeated("8413").cost(20),
    "unwrap of 32 bytes, with a wrong tag": lambda: repeated("8513").cost(20),
    "a refused protect": lambda: without_jump("a refused protect", "a jump"),
    "an answer of a module of 30 KB, refused by its tag": lambda: cost_of_line("answer m 1 0"),
    "the same, refused by its boot": lambda: cost_of_line("answer m 0 0"),
}


# --- Tables -------------------------------------------------------------------------------------------------------------


def programs(pool):
    print(f"{'program':<10}{'level':>6}{'steps':>12}{'outside':>10}{'inside':>10}")
    of = [(name, level) for name in RESULTS for level in ("-Os", "-O2")]
    for (name, level), (steps, outside, inside) in zip(of, pool.map(lambda it: cost_of_program(*it), of)):
        print(f"{name:<10}{level:>6}{steps:>12,}{outside:>10.1f}{inside:>10.1f}", flush=True)


def forms(pool):
    print(f"{'form':<24}{'words':>8}{'inside':>8}{'bytes':>8}{'inside':>8}")
    rows = [*([it.format(""), it.format(".b")] for it in FORMS), *([it] for it in ON_WORDS)]
    costs = pool.map(lambda it: cost_of_form(*it), [(text, is_module) for row in rows for text in row for is_module in (False, True)])
    for row in rows:
        print(f"{row[0]:<24}{''.join(f'{next(costs):>8.0f}' for _ in range(2 * len(row)))}", flush=True)


def shapes(pool):
    print(f"{'shape':<50}{'a step':>8}")
    for name, cost in zip(SHAPES, pool.map(lambda it: it.cost(), SHAPES.values())):
        print(f"{name:<50}{cost:>8.0f}", flush=True)


def dear(pool):
    print(f"{'what':<50}{'takes':>12}")
    for name, cost in zip(DEAR, pool.map(lambda it: it(), DEAR.values())):
        print(f"{name:<50}{cost:>12,.0f}", flush=True)


TABLES = {"programs": programs, "forms": forms, "shapes": shapes, "dear": dear}


def main():
    wanted = sys.argv[1:] or list(TABLES)
    if not {*wanted} <= {*TABLES}:
        sys.exit(__doc__)
    with ThreadPoolExecutor(os.cpu_count()) as pool:
        for it in wanted:
            TABLES[it](pool)


if __name__ == "__main__":
    main()
