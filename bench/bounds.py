#!/usr/bin/env python3
"""What the program may take, beside what it takes: each figure of this folder that has a bound.

    bench/bounds.py            counts all, some ten minutes; ends with status 1 if one is above its bound
    bench/bounds.py step       of these alone what has this word in its name

Instructions of the processor, but for writes and memory. It takes valgrind, and for the C programs clang with the target msp430, lld and llvm.
"""

import os
import shutil
import subprocess
import sys
from concurrent.futures import ThreadPoolExecutor
from dataclasses import dataclass
from functools import lru_cache
from typing import Callable

import compare
import growth
import instructions
import steps
from counting import PROGRAM, TOP, counted, joined, protected

MILLION = 1_000_000
MODULE = protected(0x4000, 0x4040, 0x2000, 0x2100)


@dataclass
class Bound:
    """A figure's name, the most that it may be, and how it is found."""

    name: str
    most: float
    find: Callable[[], float]


@lru_cache(maxsize=None)
def of_command(case):
    words, lines = (instructions.inputs() | instructions.long_inputs())[case]
    return counted(words, joined(lines))


def of_program(name, is_module):
    return steps.cost_of_program(name, "-Os")[1 + is_module]


def of_loop(name, sections):
    return float(compare.instructions_after(compare.CODE[name], sections))


def of_read(text, sections, jump):
    """A read of a text, without the jump back."""
    return 2 * steps.Loop([f"asm n 0x4000 a: {text}; jmp a", *sections]).cost() - steps.SHAPES[jump].cost()


def of_repeats():
    """What a step of such code takes more than one of code of the same length."""
    repeated, other = (steps.SHAPES[f"3.6 KB, {it}"].cost() for it in ("words that repeat 512 bytes apart", "other words in each 512 bytes"))
    return repeated - other


def of_one_more_schedule():
    return (of_command("batch") - of_command("lighting")) / 99


# The front end ends where it would execute the program in its place.
FRONT_END = """
import os, sys
os.execv = lambda *_: os._exit(0)
__file__, sys.argv = sys.argv[1], sys.argv[1:]
with open(__file__) as file:
    exec(file.read())
"""


# Debian's, where there is one: builds of Python differ by a third.
PYTHON = shutil.which("python3", path="/usr/bin") or sys.executable


def of_quiet_run():
    """`./sancus run --quiet`: the front end, and the program that is executed in its place. The first call compiles the front end, and isn't counted."""
    words = [os.path.join(TOP, "sancus"), "run", "--quiet", os.path.join(TOP, "examples", "lighting.txt")]
    subprocess.run([PYTHON, "-I", "-S", *words], stdout=subprocess.DEVNULL, check=True)
    front_end = counted(["-I", "-S", "-c", FRONT_END, *words], program=PYTHON)
    return front_end + of_command("lighting")


def of_snap_memory():
    """The most bytes of memory of `snap` after 65,536 packets of 384 bytes."""
    run = subprocess.Popen([PROGRAM, "snap"], stdin=subprocess.PIPE, stdout=subprocess.DEVNULL)
    run.stdin.write(joined(["%%", *["take n 0x400 384"] * 65536, "%%", *["items 65536"] * 64]))
    run.stdin.close()
    return os.wait4(run.pid, 0)[2].ru_maxrss * 1024


def of_names(case):
    words, status, lines = growth.NAMES[case]
    return counted(words, joined(lines(growth.SIZES[-1])), status=status)


def of_writes():
    with open(os.devnull, "wb") as nothing:
        return growth.writes_to(nothing, joined(instructions.events(8000)))


# A read alone, and one that adds.
READS = ("mov", "add")
BOUNDS = [
    *(Bound(f"a step of {it}.c", 80, lambda it=it: of_program(it, False)) for it in steps.RESULTS),
    *(Bound(f"a step of {it}.c inside", 95, lambda it=it: of_program(it, True)) for it in steps.RESULTS),
    *(Bound(f"a step of the {it} loop", 45 if it == "register" else 80, lambda it=it: of_loop(it, [])) for it in compare.CODE),
    *(Bound(f"a step of the {it} loop inside", 50 if it == "register" else 85, lambda it=it: of_loop(it, MODULE)) for it in compare.CODE),
    Bound("a step of a whole sample", 100, lambda: float(compare.sample_instructions())),
    Bound("a step of code whose words repeat 512 bytes apart, beyond other code", 1, of_repeats),
    *(Bound(f"a module's {it} of its own text", 110, lambda it=it: of_read(f"{it} &0x4000, r6", steps.MODULE, "a jump of a module")) for it in READS),
    *(Bound(f"{it} of the text of one module of eight", 200, lambda it=it: of_read(f"{it} &0x6000, r6", steps.sections(8), "a jump")) for it in READS),
    Bound("attest, a byte of the text", 60, steps.DEAR["attest, a byte of a text of 58 KB"]),
    Bound("a refused protect", 1500, steps.DEAR["a refused protect"]),
    Bound("a refused answer of a module of 30 KB", 60_000, steps.DEAR["an answer of a module of 30 KB, refused by its tag"]),
    Bound("gen 1000", 150 * MILLION, lambda: of_command("gen")),
    Bound("run examples/lighting.txt", 3.2 * MILLION, lambda: of_command("lighting")),
    Bound("the images of the largest deployment", 30 * MILLION, lambda: of_command("images")),
    Bound("one more schedule of batch", 0.7 * MILLION, of_one_more_schedule),
    Bound("64 queries of snap about 64,026 lines", 2000 * MILLION, lambda: of_command("snap")),
    Bound("bytes of memory of snap with 65,536 packets", 45 * MILLION, of_snap_memory),
    Bound("writes of a run of 64,026 lines", 600, of_writes),
    *(Bound(f"8,192 names: {it}", 100 * MILLION, lambda it=it: of_names(it)) for it in growth.NAMES),
    Bound("./sancus run --quiet examples/lighting.txt", 80 * MILLION, of_quiet_run),
]


def main():
    wanted = [it for it in BOUNDS if all(word in it.name for word in sys.argv[1:])]
    above = 0
    print(f"{'':<70}{'now':>15}{'at most':>15}")
    with ThreadPoolExecutor(os.cpu_count()) as pool:
        for it, now in zip(wanted, pool.map(lambda it: it.find(), wanted)):
            above += now > it.most
            print(f"{it.name:<70}{now:>15,.0f}{it.most:>15,.0f}{'   above' if now > it.most else ''}", flush=True)
    return 1 if above else 0


if __name__ == "__main__":
    sys.exit(main())
