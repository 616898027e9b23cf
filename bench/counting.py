"""What the benchmarks share: the program that is measured, and the processor's instructions that a call of it takes, which valgrind counts.

The program is SANCUS_PROGRAM, else the proved build (`./sancus build`), else the released one. glibc copies large pieces by one instruction that is
repeated, and each repetition would count as an instruction, so it is told not to.
"""

import os
import re
import subprocess

TOP = os.path.dirname(os.path.dirname(os.path.abspath(__file__)))
BUILDS = [os.path.join(TOP, *it) for it in (("crates", "sancus_run", "out", "sancus_run"), ("release", "sancus_run"))]
PROGRAM = os.environ.get("SANCUS_PROGRAM") or next((it for it in BUILDS if os.path.exists(it)), BUILDS[0])
NEVER = 2_000_000_000
TUNABLES = ":".join(f"glibc.cpu.x86_rep_{it}_threshold={NEVER}" for it in ("movsb", "stosb"))
ENVIRONMENT = {**os.environ, "GLIBC_TUNABLES": TUNABLES}


def counted(words, text=b"", options=(), program=PROGRAM, status=0):
    """The processor's instructions of a call, which must end with this status."""
    command = ["valgrind", "--tool=callgrind", "--callgrind-out-file=/dev/null", *options, program, *words]
    ran = subprocess.run(command, input=text, env=ENVIRONMENT, stdout=subprocess.DEVNULL, stderr=subprocess.PIPE, check=False)
    assert ran.returncode == status, f"{words}: status {ran.returncode} in place of {status}"
    return int(re.search(rb"Collected : (\d+)", ran.stderr)[1])


def printed(words, text=b""):
    """The lines that a call of the program prints."""
    return subprocess.run([PROGRAM, *words], input=text, stdout=subprocess.PIPE, check=True).stdout.decode().split("\n")


def joined(lines):
    return "".join(f"{it}\n" for it in lines).encode()


def protected(text, text_end, data, data_end, by=0x400):
    """The lines that protect a section with these bounds, by code there."""
    registers = zip(("r9", "r10", "r11", "r12", "r13"), (1, text, text_end, data, data_end))
    return [f"put n {by:#x} 8113", *(f"set n {name} {value:#x}" for name, value in registers), f"set n pc {by:#x}", "run n 1"]
