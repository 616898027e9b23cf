#!/usr/bin/env python3
"""Compares listings of sx_asm with LLVM's assembler for the MSP430 (Debian's packages llvm and clang).

Each of the 65,536 first words is listed with two words after it. Each line of the listing is written as LLVM has it,
and the bytes that llvm-mc gives are compared with those of the line.

    tools/against_llvm.py PROGRAM WORD..    lists with this program, which gets the address as its last word

For the program that is proved here: tools/against_llvm.py crates/sancus_run/out/sancus_run dis

LLVM takes some operands in another form:
- a jump's is the number of words after the next instruction, and not its target;
- a symbolic operand's is the distance from its word, and not its address;
- #0xffff is a word of its own, and #-1 the constant.
Not compared are data, the module instructions, which LLVM doesn't have, and `##`, which LLVM can't be told.

Prints how many lines there were of each kind, and each form of instruction that LLVM refuses or gives other bytes for,
with an example. Ends with status 1 where there is such a form that isn't among the known ones.
"""
import re
import subprocess
import sys
import tempfile
from collections import Counter

# The words after each first word. Each is a line of its own where the instruction is shorter, so the next first word is
# one again. The second pair has constants, which an immediate needs `##` for.
PAIRS = [(0x1234, 0xf506), (0x0002, 0x0001)]
# A listing has at most 8,192 bytes, and a line of digits at most 4,096.
WORDS_AT_ONCE, DIGITS = 1024, 4092
ADDRESS = 0x4000

MODULE_INSTRUCTIONS = {"unprotect", "protect", "attest", "wrap", "unwrap", "getid", "getcaller"}
CONSTANTS = {0, 1, 2, 4, 8, 0xffff}

# What LLVM 14 has no form of, and what it writes with a word where the constant needs none.
KNOWN = {
    "refused": re.compile(r"push(\.b)? (@reg\+?|&n|n|n\(reg\))$|push\.b #[cn]$|mov(\.b)? @reg\+, (&n|n|n\(reg\))$"),
    "other bytes": re.compile(r"call #c$"),
}


def bytes_of(words):
    return b"".join(word.to_bytes(2, "little") for word in words)


def listing(program, code):
    """The address, bytes and text of each line."""
    digits = code.hex()
    lines = [digits[k:k + DIGITS] for k in range(0, len(digits), DIGITS)]
    answer = subprocess.run(program + [hex(ADDRESS)], input="\n".join(lines) + "\n", capture_output=True, text=True)
    if answer.returncode != 0 or not answer.stdout.endswith("end\n"):
        sys.exit(f"{' '.join(program)} ends with status {answer.returncode}: {answer.stdout[-200:]}{answer.stderr[-200:]}")
    for line in answer.stdout.splitlines()[:-1]:
        address, written, text = line.split(" ", 2)
        yield int(address, 16), bytes.fromhex(written), text


def operand(text, at):
    """An operand whose word, if it has one, is at this address, as LLVM has it; its form; and its words."""
    if text.startswith("##"):
        return None, "##n", 1
    if text.startswith("#"):
        value = int(text[1:], 16)
        return ("#-1" if value == 0xffff else f"#{value}"), *(("#c", 0) if value in CONSTANTS else ("#n", 1))
    if text.startswith("&"):
        return text, "&n", 1
    if text.startswith("@"):
        return text, "@reg+" if text.endswith("+") else "@reg", 0
    if text.endswith(")"):
        return text, "n(reg)", 1
    if text.startswith("0x"):
        return str((int(text, 16) - at) % 65536), "n", 1
    return text, "reg", 0


def as_llvm(address, text):
    """The line as LLVM has it, or None; and its form."""
    mnemonic, _, rest = text.partition(" ")
    if mnemonic == ".word":
        return None, "data"
    if mnemonic in MODULE_INSTRUCTIONS:
        return None, "module instructions"
    if mnemonic.startswith("j"):
        words = ((int(rest, 16) - address - 2 + 32768) % 65536 - 32768) // 2
        return f"{mnemonic} $+{words}" if words >= 0 else f"{mnemonic} $-{-words}", f"{mnemonic} target"
    operands, forms, at = [], [], address + 2
    for written in rest.split(", ") if rest else []:
        this, form, words = operand(written, at % 65536)
        operands.append(this)
        forms.append(form)
        at += 2 * words
    if None in operands:
        return None, "lines with ##"
    return f"{mnemonic} {', '.join(operands)}".strip(), f"{mnemonic} {', '.join(forms)}".strip()


def assembled(lines):
    """The bytes that LLVM gives for each line; None for one that it refuses."""
    with tempfile.NamedTemporaryFile("w", suffix=".s") as source:
        source.write("\n".join(lines) + "\n")
        source.flush()
        answer = subprocess.run(["llvm-mc", "-triple=msp430", "-show-encoding", source.name], capture_output=True, text=True)
    refused = {int(number) for number in re.findall(r"^\S+\.s:(\d+):\d+: error", answer.stderr, re.MULTILINE)}
    given = iter(re.findall(r"; encoding: \[(.*)\]$", answer.stdout, re.MULTILINE))
    result = [None if number in refused else next(given, None) for number in range(1, len(lines) + 1)]
    if next(given, None) is not None:
        sys.exit("llvm-mc gives more lines than it got")
    return [code and bytes(int(byte, 16) for byte in code.split(",")) for code in result]


def main():
    program = sys.argv[1:]
    if not program:
        sys.exit(__doc__)
    lines = {}
    for pair in PAIRS:
        for low in range(0, 65536, WORDS_AT_ONCE):
            code = bytes_of(word for first in range(low, low + WORDS_AT_ONCE) for word in (first, *pair))
            listed = list(listing(program, code))
            if not {address for address, _, _ in listed}.issuperset(range(ADDRESS, ADDRESS + len(code), 6)):
                sys.exit("a first word isn't listed")
            for address, written, text in listed:
                lines.setdefault((written, text), address)
    counts, compared = Counter(), []
    for (written, text), address in lines.items():
        llvm, form = as_llvm(address, text)
        if llvm is None:
            counts[form] += 1
        else:
            compared.append((written, text, llvm, form))
    found, examples = Counter(), {}
    for (written, text, llvm, form), theirs in zip(compared, assembled([line[2] for line in compared])):
        kind = "refused" if theirs is None else "same" if theirs == written else "other bytes"
        counts[kind] += 1
        if kind != "same":
            found[kind, form] += 1
            examples.setdefault((kind, form), f"{text}: {written.hex()}; {llvm}: {theirs.hex() if theirs else '-'}")
    for kind, count in sorted(counts.items()):
        print(f"{count:6} {kind}")
    unknown = 0
    for (kind, form), count in sorted(found.items()):
        known = KNOWN[kind].match(form) is not None
        unknown += not known
        print(f"{count:6} {kind}{'' if known else ', not known'}: {form} ({examples[kind, form]})")
    return 1 if unknown else 0


if __name__ == "__main__":
    sys.exit(main())
