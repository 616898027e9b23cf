#!/usr/bin/env python3
"""Compares crates.txt with the folders of crates/, and with the list of crates that is made of it.

    tools/crate_lists.py             prints what differs, a line each, and nothing if all agree
    tools/crate_lists.py --write     makes crates/README.md again

A crate must be in crates.txt after all crates that it depends on, and its root file must begin with a sentence that says what
it is. crates/README.md has that sentence, by the blocks of crates.txt. `.ci/run` compares them after the gate.
"""

import re
import sys
import textwrap
from dataclasses import dataclass
from pathlib import Path

TOP = Path(__file__).resolve().parent.parent
LIST = "crates/README.md"

# What the beginning of a name says of a crate; names that have none of these are of code.
KINDS = {"law": "laws", "spec": "definitions", "command": "commands", "test": "tests", "lemmas": "lemmas"}
# The kinds of a block, from the top of its part of the picture down.
ORDER = ("code", "commands", "laws", "definitions", "lemmas", "tests")
# The columns of the picture, without their borders.
COLUMNS = (26, 11, 56)

HEAD = """\
# The crates

`tools/crate_lists.py --write` makes this page of `crates.txt` and of the first sentence of each crate's root file.

A crate's name says what is in it:

| Name | Kind | Has |
|---|---|---|
| `sx_..` | code | a part of the program, with the definitions that say what it does, and the proofs |
| `command_..` | code | a command of the program, or what several commands share |
| `spec_..` | definitions | what code must do; the little code in it is types, constants and a few small functions |
| `law_..` | laws | theorems about the definitions of other crates; none has code but `law_never`, whose one call tells whether a table shows its law |
| `lemmas` | lemmas | what the proofs of many crates use; no code |
| `test_..` | tests | worked cases, in crates of their own, so that a test that changes proves no other crate again |
| `sancus_run` | program | `main`, with a stored run |

A crate names only crates of its own block and of blocks below it; `crates.txt` has each crate's.
"""


@dataclass(frozen=True)
class Block:
    """Crates of one subject: a comment of crates.txt, and the lines below it."""

    title: str
    crates: dict[str, list[str]]


def blocks():
    """The blocks of crates.txt, each crate with those that it depends on."""
    found = [Block("", {})]
    for line in (TOP / "crates.txt").read_text().splitlines():
        name, _, below = line.partition(":")
        if line.startswith("#"):
            found.append(Block(line[2:], {}))
        elif line.strip():
            found[-1].crates[name] = below.split()
    return [block for block in found if block.crates]


def dependencies():
    """The crates of crates.txt, in its order, each with the crates that it depends on."""
    return {name: below for block in blocks() for name, below in block.crates.items()}


def kind_of(crate):
    return KINDS.get(crate.partition("_")[0], "code")


def root_file(crate):
    """The root file of a crate."""
    source = TOP / "crates" / crate / "src"
    return source / ("lib.rt" if (source / "lib.rt").exists() else "main.rt")


def first_sentence(crate):
    """The sentence with which a crate's root file begins, or none."""
    said = []
    for line in root_file(crate).read_text().splitlines():
        if not line.startswith("//! "):
            break
        said.append(line[4:])
    return re.match(r"(?:(.+?[.])(?: |$))?", " ".join(said))[1]


def rows_of(block):
    """The rows of a block in the picture: its title, and its crates by their kinds, the highest first."""
    of_kind = {kind: [name for name in reversed(block.crates) if kind_of(name) == kind] for kind in ORDER}
    rows = []
    for kind, names in of_kind.items():
        lines = textwrap.wrap("  ".join(names), COLUMNS[2])
        rows += zip([kind, *[""] * len(lines)], lines)
    titles = textwrap.wrap(block.title, COLUMNS[0])
    rows += [("", "")] * (len(titles) - len(rows))
    titles += [""] * (len(rows) - len(titles))
    return [(title, *row) for title, row in zip(titles, rows)]


def picture(all_blocks):
    """All blocks, each above those that it depends on."""
    border = "+" + "+".join("-" * (width + 2) for width in COLUMNS) + "+"
    lines = [border]
    for block in reversed(all_blocks):
        for row in rows_of(block):
            lines.append("|" + "|".join(f" {cell:{width}} " for cell, width in zip(row, COLUMNS)) + "|")
        lines.append(border)
    return ["```", *lines, "```"]


def table(block):
    """A block's crates, the highest first, each with what it is."""
    rows = [f"| [{name}]({name}) | {first_sentence(name)} |" for name in reversed(block.crates)]
    return ["", f"## {block.title}", "", "| Crate | What it is |", "|---|---|", *rows]


def page():
    """The text of crates/README.md."""
    all_blocks = blocks()
    tables = [line for block in reversed(all_blocks) for line in table(block)]
    return "\n".join([HEAD, *picture(all_blocks), *tables, ""])


def differences(names, crates):
    """Folders that crates.txt lacks, and crates that have no folder."""
    found = [f"crates/ lacks {name}" for name in crates if name not in names]
    return found + [f"crates/ has {name}, which crates.txt lacks" for name in names if name not in crates]


def misplaced(crates):
    """Crates that come before one that they depend on."""
    order = list(crates)
    return [
        f"crates.txt has {name} before {below}, on which it depends"
        for name, all_below in crates.items()
        for below in all_below
        if below in order and order.index(below) > order.index(name)
    ]


def without_sentence(crates):
    """Crates whose root file doesn't begin with what they are."""
    return [f"the root file of {name} doesn't begin with a sentence" for name in crates if not first_sentence(name)]


def main():
    crates = dependencies()
    wrong = differences([file.name for file in (TOP / "crates").iterdir() if (file / "src").is_dir()], crates)
    wrong = wrong or misplaced(crates) + without_sentence(crates)
    if not wrong and sys.argv[1:] == ["--write"]:
        (TOP / LIST).write_text(page())
    elif not wrong and (TOP / LIST).read_text() != page():
        wrong = [f"{LIST} isn't what `tools/crate_lists.py --write` makes"]
    for it in wrong:
        print(it)
    sys.exit(bool(wrong))


if __name__ == "__main__":
    main()
