#!/usr/bin/env python3
"""How the program's work grows with names, labels, lines and queries.

    bench/growth.py            all of the following, some five minutes
    bench/growth.py names      instructions of the processor for sources and assembly texts with many names, 2,048 to 8,192, and the exponent between
    bench/growth.py writes     the writes of `run` of 64,026 lines to a file, and to a pipe that a reader empties
    bench/growth.py snap       64 queries about 64,026 lines

No accepted module has more than 512 nodes of syntax, so only a text that is refused has so many names; the work must stay near n log n all the same.
"""

import math
import os
import subprocess
import sys
import tempfile

from counting import PROGRAM, counted, joined
from instructions import events, long_inputs

SIZES = (2048, 4096, 8192)
# A deployment with a rule broken is told so: that is what these sources are for.
HEAD = [
    'secret = "000102030405060708090a0b0c0d0e0f"',
    'node = [ { name = "n", key = "00000000000000000000000000000000" } ]',
    "[[module]]",
    'name = "m"',
    'node = "n"',
    "provider = 7",
    "text = 0x4000",
    "data = 0x600",
]


def source(lines):
    return [*HEAD, "source = '''", *lines, "'''", "%%"]


def variables(count):
    return [f"var a{k};" for k in range(count)]


def handler(statements):
    return ["on i(v) {", *statements, "}"]


# Each: the words of the command, its status, and the input with so many names.
NAMES = {
    "variables": (["check"], 1, lambda n: source(variables(n))),
    "locals": (["check"], 1, lambda n: source(["input i;", *handler(f"let a{k} = v;" for k in range(n))])),
    "locals, each used": (["check"], 1, lambda n: source(["input i;", *handler(["let a0 = v;", *(f"let a{k} = a{k - 1};" for k in range(1, n))])])),
    "inputs, each handled": (["check"], 1, lambda n: source([*(f"input a{k};" for k in range(n)), *(f"on a{k}(v) {{ }}" for k in range(n))])),
    "variables, and uses": (["check"], 1, lambda n: source(["input i;", *variables(n), *handler(f"a{n - 1} = v;" for _ in range(n))])),
    "labels": (["asm", "0"], 0, lambda n: [f"a{k}:" for k in range(n)]),
    "labels, half of them used": (["asm", "0"], 0, lambda n: [*(f"a{k}:" for k in range(n)), *(f".word a{k}" for k in range(n // 2, n))]),
}


def names():
    print(f"{'millions of instructions with':<30}" + "".join(f"{n:>10,}" for n in SIZES) + f"{'exponent':>10}")
    for case, (words, status, lines) in NAMES.items():
        counts = [counted(words, joined(lines(n)), status=status) for n in SIZES]
        exponent = math.log2(counts[-1] / counts[-2])
        print(f"{case:<30}" + "".join(f"{it / 1e6:>10.1f}" for it in counts) + f"{exponent:>10.2f}", flush=True)


def writes_to(output, text):
    """How often the program writes in a run of this text."""
    with tempfile.TemporaryFile() as given:
        given.write(text)
        given.seek(0)
        run = subprocess.Popen([PROGRAM, "run"], stdin=given, stdout=output)
        if output == subprocess.PIPE:
            while run.stdout.read(1 << 16):
                pass
        # The kernel keeps the counts until the process is waited for.
        os.waitid(os.P_PID, run.pid, os.WEXITED | os.WNOWAIT)
        with open(f"/proc/{run.pid}/io", encoding="ascii") as file:
            counts = dict(line.split(": ") for line in file.read().splitlines())
        assert run.wait() == 0
    return int(counts["syscw"])


def writes():
    text = joined(events(8000))
    with tempfile.TemporaryFile() as file:
        print(f"writes of a run of 64,026 lines: {writes_to(file, text):,} to a file, {writes_to(subprocess.PIPE, text):,} to a pipe")


def snap():
    words, lines = long_inputs()["snap"]
    print(f"64 queries about 64,026 lines: {counted(words, joined(lines)) / 1e9:.2f} thousand million instructions")


TABLES = {"names": names, "writes": writes, "snap": snap}


def main():
    wanted = sys.argv[1:] or list(TABLES)
    if not {*wanted} <= {*TABLES}:
        sys.exit(__doc__)
    for it in wanted:
        TABLES[it]()


if __name__ == "__main__":
    main()
