#!/usr/bin/env python3
"""Instructions a second of `sancus run`, as a ratio to Debian's mspdebug simulator (apt-get install mspdebug).

Both run the same code: an inner loop of 65,536 turns inside an outer loop. The one loop counts a register, the
other a word in memory. `sancus` runs each also with one and with eight protected sections standing, which every
access is checked against. Each of five rounds times both programs one after the other, so that what else the machine does
meets both alike. The table has the median of the rates, in million instructions a second of processor time, and
of their ratios, with the least and the greatest ratio. The last column has the processor's instructions that a step of
`sancus` takes, which don't differ from run to run, so that a change of the code shows in it at once: valgrind counts them, and
a dash stands where it isn't installed. Below the table stands the median time of 20,000 resets, before each of which a
page of memory was written. `counting` says which program is measured. Not a part of the gate.

With --instructions the processor's instructions a step are printed alone, and also those of other code: of what a compiler writes, outside every module and
as the code of one, of the loop on memory where one, two and eight sections meet the page of its word, and of whole samples of `gen`: there without
what the module instructions do.

    bench/compare.py                   the table
    bench/compare.py --instructions    the instructions a step alone
"""
import re
import resource
import shutil
import statistics
import subprocess
import sys

from counting import PROGRAM, counted, protected

TURNS, ROUNDS = 160, 5
RUN = 65535  # the most steps of a line

# R5 is 0 as each inner loop begins. The words: SUB #1,R5 or SUB #1,&0x0300; JNE back; SUB #1,R6; JNE back; JMP to itself.
LOOPS = {
    "register": (["8315", "23fe", "8316", "23fc", "3fff"], 2),
    "memory": (["8392", "0300", "23fd", "8316", "23fb", "3fff"], 2),
}

# What compilers write, at 0x4000 over data at 0x2000, with SP above it: stack code for `a = a - 1`, a copy of 24 bytes, a call, loads and shifts. Each begins again.
CODE = {
    "stack": ["1212", "2000", "1213", "81b1", "0000", "413c", "4c82", "2000", "930c", "2002", "4030", "4000", "4030", "4000"],
    "bytes": ["4035", "2000", "4036", "2040", "4037", "0018", "45f6", "0000", "5316", "8317", "23fb", "4030", "4000"],
    "call": ["1205", "12b0", "400a", "4135", "3ffb", "4130"],
    "loads": ["4035", "2000", "4537", "e708", "1008", "1088", "4519", "0002", "421a", "2002", "4a82", "2004", "3ff3"],
    "register": LOOPS["register"][0],
    "memory": ["8392", "2000", "23fd", "8316", "23fb", "3fff"],
}


def protect(number):
    """The lines that protect a section of this number: 8 bytes of code on page 6, 16 bytes of data on page 7."""
    text, data = 0x600 + 16 * number, 0x700 + 16 * number
    return [f"put n {text:#x} 2645ff3f", *protected(text, text + 8, data, data + 16)]


def little(words):
    return "".join(word[2:] + word[:2] for word in words)


def processor_seconds():
    usage = resource.getrusage(resource.RUSAGE_CHILDREN)
    return usage.ru_utime + usage.ru_stime


def seconds(command, text):
    begin = processor_seconds()
    subprocess.run(command, input=text, stdout=subprocess.DEVNULL, stderr=subprocess.DEVNULL, check=True)
    return processor_seconds() - begin


def schedule(words, steps, sections):
    """A node that takes so many steps of a loop, beside so many sections."""
    return stepped(words, steps, [line for number in range(sections) for line in protect(number)])


def stepped(words, steps, sections):
    """A node that takes so many steps of code, once these lines protected sections."""
    lines = ["%%", f"put n 0x4000 {little(words)}"] + sections
    lines += [f"set n r6 {TURNS}", "set n sp 0x20f0", "set n pc 0x4000"]
    lines += [f"run n {RUN}"] * (steps // RUN) + [f"run n {steps % RUN}"] * (steps % RUN > 0)
    return ("\n".join(lines) + "\n").encode()


def ours(words, steps, sections):
    return seconds([PROGRAM, "run"], schedule(words, steps, sections))


def instructions(words, sections):
    """The processor's instructions of a step: sixteen more lines of steps take so many more. A dash where valgrind is missing."""
    return instructions_after(words, [line for number in range(sections) for line in protect(number)])


def instructions_after(words, sections):
    if shutil.which("valgrind") is None:
        return "-"
    few, many = (counted(["run"], stepped(words, lines * RUN, sections)) for lines in (1, 17))
    return f"{(many - few) / (16 * RUN):.1f}"


def in_modules(samples):
    """What steps inside modules take in a workload of so many samples, without what module instructions do, and how many steps there are."""
    stretch, module_instruction = (counted(["gen", str(samples)], options=[f"--toggle-collect={function}*"])
                                   for function in ("sx_world::quiet::module_stretch", "sx_node::node::Node::module_instruction"))
    printed = subprocess.run([PROGRAM, "gen", str(samples)], stdout=subprocess.PIPE, check=True).stdout
    return stretch - module_instruction, int(re.search(rb"^steps (\d+)$", printed, re.MULTILINE).group(1))


def sample_instructions():
    """The processor's instructions of a step of a whole sample: 500 more of them take so many more. A dash where valgrind is missing."""
    if shutil.which("valgrind") is None:
        return "-"
    (few, few_steps), (many, many_steps) = (in_modules(samples) for samples in (100, 600))
    return f"{(many - few) / (many_steps - few_steps):.1f}"


def theirs(words):
    data = little(words)
    spaced = " ".join(data[i:i + 2] for i in range(0, len(data), 2))
    end = 0x4000 + 2 * len(words) - 2
    commands = [f"mw 0x4000 {spaced}", "mw 0x300 0 0", "set 2 0", f"set 6 {TURNS}", "set 5 0", "set 0 0x4000", f"setbreak {end:#x}", "run"]
    return seconds(["mspdebug", "-q", "sim"] + commands, b"")


def resets():
    return seconds([PROGRAM, "run"], b"%%\n" + b"put n 0x4000 2645\nreset n\n" * 20_000)


def main():
    if sys.argv[1:] == ["--instructions"]:
        for name, (words, _each) in LOOPS.items():
            for sections in (0, 1, 8):
                print(f"{name:<10}{sections:<10}{instructions(words, sections):>8}")
        for name, words in CODE.items():
            print(f"{name:<10}{'outside':<10}{instructions_after(words, []):>8}")
            print(f"{name:<10}{'inside':<10}{instructions_after(words, protected(0x4000, 0x4040, 0x2000, 0x2100)):>8}")
        for sections in (1, 2, 8):
            beside = [line for k in range(sections) for line in protected(0x600 + 16 * k, 0x608 + 16 * k, 0x2080 + 8 * k, 0x2088 + 8 * k)]
            print(f"{'memory':<10}{f'page of {sections}':<10}{instructions_after(CODE['memory'], beside):>8}")
        print(f"{'sample':<10}{'inside':<10}{sample_instructions():>8}")
        return 0
    if shutil.which("mspdebug") is None:
        sys.exit("bench/compare.py: mspdebug isn't installed, which --instructions doesn't need")
    print(f"{'loop':<10}{'sections':<10}{'sancus':>8}{'mspdebug':>10}{'ratio':>7}{'least':>7}{'most':>7}{'instructions':>14}")
    for name, (words, each) in LOOPS.items():
        steps = TURNS * (65536 * each + 2)
        for sections in (0, 1, 8):
            rounds = [(steps / ours(words, steps, sections), steps / theirs(words)) for _ in range(ROUNDS)]
            ratios = sorted(ours_rate / their_rate for ours_rate, their_rate in rounds)
            ours_rate, their_rate = (statistics.median(rates) / 1e6 for rates in zip(*rounds))
            print(f"{name:<10}{sections:<10}{ours_rate:>8.1f}{their_rate:>10.1f}"
                  f"{statistics.median(ratios):>7.2f}{ratios[0]:>7.2f}{ratios[-1]:>7.2f}{instructions(words, sections):>14}")
    print(f"20,000 resets: {statistics.median(resets() for _ in range(ROUNDS)):.3f} s")
    return 0


if __name__ == "__main__":
    sys.exit(main())
