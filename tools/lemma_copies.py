#!/usr/bin/env python3
"""Lists lemmas of proof files that are there more than once: statements that are the same but for the names that they bind.

    tools/lemma_copies.py [--all]     the ten most copied (or all); the last line counts the copies beyond the first

A name means what the file imports by it; what a file defines itself is its own, so statements over it aren't compared with
those of other files. Definitions (whose type ends in a `Type`) and fields of records are no lemmas. Looked at are declarations
with an arrow, of one line and the lines that go on, in crates/*/proofs. A place to look, and no verdict: a lemma in other words isn't found.
"""

import re
import sys
from collections import defaultdict
from pathlib import Path

CRATES = Path(__file__).resolve().parent.parent / "crates"
HEAD = re.compile(r"^ *(?:(?:abbrev|unfoldable|opaque) )*(?:pub )?([A-Za-z_][\w\-']*) : (.*)$")
DEFINED = re.compile(r"^ *(?:(?:abbrev|unfoldable|opaque|pub|record|data) )+([^ :({]+)")
USE = re.compile(r"^(?:pub )?use ([\w.]+)\.\{(.*)\}$")
NAME = re.compile(r"[A-Za-z_][\w\-']*")
WIDELY = ("Rattle.std.", "Rattle.core.")


def origins(path, lines):
    """What the names of a file mean: the module that each comes from."""
    came = {}
    for line in lines:
        if used := USE.match(line):
            for name in used[2].split(","):
                said, _, known = name.strip().partition(" as ")
                came[known or said] = said if used[1].startswith(WIDELY) else f"{used[1]}.{said}"
    for line in lines:
        for found in filter(None, (HEAD.match(line), DEFINED.match(line))):
            came[found[1]] = str(path)
    return came


def statement(lines, at, said):
    """The statement that begins in a line, with the lines that go on."""
    for line in lines[at + 1:]:
        if not re.match(r"^\s+(→|≡|×|⊎)", line):
            break
        said += " " + line.strip()
    return re.sub(r"\s+", " ", said).strip()


def is_field(lines, at):
    """Whether a declaration is a field: the first line above that begins further to the left opens a record."""
    indent = len(lines[at]) - len(lines[at].lstrip())
    outer = next((line for line in reversed(lines[:at]) if line.strip() and len(line) - len(line.lstrip()) < indent), "")
    return bool(re.match(r" *(?:pub )?record ", outer))


def compared(said, came):
    """A statement with its bound names numbered, and each other name as what it means."""
    bound = [name for group in re.findall(r"[({]([^:(){}]+) :", said) for name in group.split()]
    bound += [name for group in re.findall(r"λ \(?([^:.()]+)[:.]", said) for name in group.split()]
    numbers = {name: f"§{number}" for number, name in enumerate(dict.fromkeys(bound))}
    return NAME.sub(lambda it: numbers.get(it[0]) or came.get(it[0], it[0]), said)


def main():
    stands = defaultdict(list)
    for path in sorted(CRATES.glob("*/proofs/**/*.antt")):
        lines = re.sub(r"--[^\n]*", "", path.read_text()).split("\n")
        came = origins(path.relative_to(CRATES), lines)
        for at, line in enumerate(lines):
            found = HEAD.match(line)
            if not found or is_field(lines, at):
                continue
            if "→" in (said := statement(lines, at, found[2])) and len(said) > 25 and not re.search(r"Type \d+$|;$", said):
                stands[compared(said, came)].append((path, at + 1, found[1], said))
    twice = [it for it in stands.values() if len({path for path, *_ in it}) > 1]
    twice.sort(key=lambda it: -len(it))
    for places in twice if "--all" in sys.argv[1:] else twice[:10]:
        where = " ".join(f"{path.relative_to(CRATES)}:{line}:{name}" for path, line, name, _ in places)
        print(len(places), places[0][3][:110], "|", where)
    print(sum(len(it) - 1 for it in twice))


main()
