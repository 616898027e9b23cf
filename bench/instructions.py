#!/usr/bin/env python3
"""The processor's instructions of whole commands, and their allocations.

Clocks differ from machine to machine and from run to run; these counts don't, so work that nobody needs shows as a
few lines of difference. valgrind counts: callgrind the instructions, and memcheck's summary the allocations.

    bench/instructions.py            counts, and compares with the figures in bench/instructions.json
    bench/instructions.py --store    counts, and writes these figures
    bench/instructions.py --long [--store]    the same for long inputs, instructions alone; takes some ten minutes
    bench/instructions.py --print CASE    writes the input of a case alone
    bench/instructions.py --gate    counts instructions alone, and prints what differs by more than three parts in a hundred; nothing without valgrind,
                                    or on another processor than that of the figures

The cases: `check` and `images` of the largest deployment, `steps` of code outside modules, `events` that are carried from
the sensor to the bulb, `gen` of 1,000 samples, `lighting`, which is examples/lighting.txt, `batch` of 100 schedules, each of which carries one event
from its sensor to its bulb, and `explain` of a trace of 80,033 items; the long ones: `long`, a run of 64,026 lines, and `snap`, 64 queries about its
lines. What one more schedule of `batch` takes is its count less that of `lighting`, over 99.

Ends with status 1 if a count differs by more than one part in a hundred from its figure, or has none. `counting` says which program is measured.
Behind the gate --gate is called: what takes other ways than it did keeps every promise, and shows here alone.
"""
import json
import os
import re
import shutil
import subprocess
import sys
import tempfile

from counting import ENVIRONMENT, PROGRAM, TOP, counted, joined

FIGURES = os.path.join(TOP, "bench", "instructions.json")
TOLERANCE = 0.01
TOLERANCE_OF_GATE = 0.03
# The C library copies in other ways on other processors, so figures say which one they are of.
OF = "processor"

# The limits of a deployment: its text in bytes, a line, and what it lists.
TEXT, LINE, NODES, MODULES, CONNECTIONS = 262144, 4096, 16, 32, 64
# Two modules share a node's addresses, which leaves room for some 400 nodes of syntax in each.
STATEMENTS = 64


def name(kind, number):
    return f"{kind}_{number:02}".ljust(16, "x")


def source(number):
    """A driver's source: an event is worked on, passed on, and emitted or sampled."""
    declarations = ["sensor;" if number % 2 == 0 else "actuator;", "input level;", "output next;", "var sum;"]
    work = [f"sum = sum + v * {(number * 97 + k) % 65536};" for k in range(STATEMENTS)]
    last = "sample(v) { sum = v; }" if number % 2 == 0 else ""
    emit = "" if number % 2 == 0 else "emit sum;"
    return declarations + ["on level(v) {"] + work + [emit, "send next(sum);", "}", last]


def entry(number, filling):
    """A module with its source, of which comments fill what is left of the text."""
    lines = ["[[module]]", f'name = "{name("module", number)}"', f'node = "{name("node", number // 2)}"',
             "provider = 7", f"text = {0x1000 + number % 2 * 0x7000:#x}", f'device = "{name("device", number)}"',
             "source = '''"] + source(number)
    while filling > 0:
        comment = min(filling, LINE + 1)
        lines.append("//".ljust(comment - 1, "-")[:comment - 1])
        filling -= comment
    return lines + ["'''"]


def deployment():
    """As many nodes, devices, modules and connections as there may be, in a text of as many bytes."""
    head = ['secret = "000102030405060708090a0b0c0d0e0f"', "node = ["]
    head += [f'  {{ name = "{name("node", k)}", key = "{k:032x}" }},' for k in range(NODES)] + ["]", "device = ["]
    head += [f'  {{ name = "{name("device", k)}", node = "{name("node", k // 2)}", '
             f'kind = "{"sensor" if k % 2 == 0 else "actuator"}", at = {0x0200 + k % 2 * 0x0700:#x} }},' for k in range(MODULES)]
    head += ["]", "connection = ["]
    head += [f'  {{ name = "{name("link", k)}", from = "{name("module", k % MODULES)}.next", '
             f'to = "{name("module", (k + 1 + k // MODULES) % MODULES)}.level" }},' for k in range(CONNECTIONS)] + ["]"]
    bare = sum(len(line) + 1 for line in head + [line for k in range(MODULES) for line in entry(k, 0)])
    left = TEXT - bare
    fillings = [left // MODULES + (k < left % MODULES) for k in range(MODULES)]
    lines = head + [line for k in range(MODULES) for line in entry(k, fillings[k])]
    assert sum(len(line) + 1 for line in lines) == TEXT
    return lines


def steps():
    """The node n of an empty deployment: the longest bytes that a line may have are put, and it is set, stepped and reset, as
    often as there may be modules."""
    schedule = ["%%"]
    for _ in range(MODULES):
        schedule += [f"put n 0x4000 {'0345' * 510}ff3f", "set n r5 7", "set n pc 0x4000", "run n 10000", "irq n 3", "reset n"]
    return schedule


def lighting():
    """The lines of the lighting application."""
    with open(os.path.join(TOP, "examples", "lighting.txt"), encoding="utf-8") as file:
        return [line for line in file.read().split("\n") if line and not line.startswith("#")]


def events(samples):
    """The lighting application with its keys set, and so many samples that are carried to the bulb."""
    lines = lighting()
    lines = lines[:lines.index("sense light 120")]
    for k in range(samples):
        lines += [f"sense light {k}", "call eye 3 0x300 0x400", "take a 0x400 24", f"give {10 + 2 * k} a 0x300",
                  "call logic 2 0x300 0x400", "take a 0x400 24", f"give {11 + 2 * k} b 0x300", "call lamp 2 0x300 0x400"]
    return lines


def schedules(count):
    """The lighting application with its keys set, and so many schedules that go on from there: each is the rest of its lines."""
    lines = lighting()
    begin = lines.index("sense light 120")
    return lines[:begin] + count * ["%%", *lines[begin:]]


def traced(schedule):
    """What `explain` reads: a deployment, and the trace of this schedule's run."""
    ran = subprocess.run([PROGRAM, "run"], input=joined(schedule), stdout=subprocess.PIPE, check=True).stdout.decode()
    lines = ran.splitlines()
    return schedule[:schedule.index("%%") + 1] + lines[lines.index("trace"):]


def inputs():
    """The words of each case's command, and its input. `images` compiles the largest deployment and runs nothing."""
    largest = deployment() + ["%%"]
    return {"check": (["check"], largest), "images": (["run"], largest), "steps": (["run"], steps()), "events": (["run"], events(500)),
            "gen": (["gen", "1000"], []), "lighting": (["run"], lighting()), "batch": (["batch"], schedules(100)),
            "explain": (["explain"], traced(events(8000)))}


def long_inputs():
    """The same of what takes long under valgrind."""
    schedule = events(8000)
    length = len(schedule) - schedule.index("%%") - 1
    queries = [f"regs a {length - 100 * k}" for k in range(64)]
    return {"long": (["run"], schedule), "snap": (["snap"], schedule + ["%%"] + queries)}


def allocations(words, lines):
    """The allocations of a call, and their bytes."""
    with tempfile.TemporaryDirectory() as folder:
        log = os.path.join(folder, "log")
        call = ["valgrind", f"--log-file={log}", "--tool=memcheck", "--leak-check=no", PROGRAM, *words]
        subprocess.run(call, input=joined(lines), env=ENVIRONMENT, stdout=subprocess.DEVNULL, check=True)
        with open(log, encoding="utf-8") as file:
            found = re.search(r"total heap usage: ([0-9,]+) allocs, [0-9,]+ frees, ([0-9,]+) bytes", file.read())
    return {name: int(count.replace(",", "")) for name, count in zip(("allocations", "bytes allocated"), found.groups())}


def processor():
    """The name of this machine's processor, empty where the system doesn't say it."""
    try:
        with open("/proc/cpuinfo", encoding="utf-8") as file:
            return next((line.partition(":")[2].strip() for line in file if line.startswith("model name")), "")
    except OSError:
        return ""


def instructions(words, lines):
    return {"instructions": counted(words, joined(lines))}


def counts(words, lines):
    return instructions(words, lines) | allocations(words, lines)


def compared(found, stored):
    """The counts beside their figures, each with how far it is from its figure; none if it has none."""
    for case, figures in found.items():
        for what, count in figures.items():
            figure = stored.get(case, {}).get(what)
            change = None if figure is None else (count - figure) / figure
            yield f"{case:8} {what:16} {count:15,}   {'no figure' if change is None else f'{change:+.2%}'}", change


def are_near(found, stored, tolerance, is_silent):
    """Prints the counts, or those alone that are too far from their figures; whether there are none of these."""
    rows = list(compared(found, stored))
    far = [line for line, change in rows if change is None or abs(change) > tolerance]
    for line in far if is_silent else [line for line, _ in rows]:
        print(line)
    return not far


def stored_figures():
    if not os.path.exists(FIGURES):
        return {}
    with open(FIGURES, encoding="utf-8") as file:
        return json.load(file)


def store(figures):
    with open(FIGURES, "w", encoding="utf-8") as file:
        json.dump(figures, file, indent=2)
        file.write("\n")


def gate():
    if shutil.which("valgrind") is None or processor() != stored_figures().get(OF):
        return True
    found = {case: instructions(*given) for case, given in inputs().items()}
    is_well = are_near(found, stored_figures(), TOLERANCE_OF_GATE, True)
    if not is_well:
        print("the program takes other ways than bench/instructions.json was counted on: if they are meant, store (bench/instructions.py --store)")
    return is_well


def main():
    words = sys.argv[1:]
    if len(words) == 2 and words[0] == "--print" and words[1] in (cases := inputs() | long_inputs()):
        sys.stdout.write(joined(cases[words[1]][1]).decode())
        return True
    if words == ["--gate"]:
        return gate()
    if not {*words} <= {"--store", "--long"}:
        sys.exit(__doc__)
    is_long, stored = "--long" in words, stored_figures()
    found = {case: (instructions if is_long else counts)(*given) for case, given in (long_inputs() if is_long else inputs()).items()}
    if "--store" in words:
        stored |= found | {OF: processor()}
        store(stored)
    return are_near(found, stored, TOLERANCE, False)


if __name__ == "__main__":
    sys.exit(0 if main() else 1)
