#!/usr/bin/env python3
"""Makes docs/CRATES.md of the contracts in the crates: each law with what it says, each public call with its clauses, and the files of definitions
that each promise rests on.

    tools/contracts.py             prints a line if docs/CRATES.md isn't what these sources give, and nothing if it is
    tools/contracts.py --write     makes it again

A call is public if its crate's root file lets others name it. `.ci/run` compares after the gate.
"""

import re
import sys
import textwrap
from dataclasses import dataclass, field

from believed import PROMISES, Repository, base
from crate_lists import TOP, blocks, first_sentence, root_file

PAGE = "docs/CRATES.md"
WIDTH = 148

HEAD = """\
# What is proved, crate by crate

`tools/contracts.py --write` makes this page of the contracts in the crates' sources. [GUARANTEES](GUARANTEES.md) says in plain words what follows from
all of them together, and [crates/README.md](../crates/README.md) shows how the crates depend on each other.

A *law* is a public function with an empty body: its contract is a theorem, and the brackets have the file of `specs/` and the definition that state it.
Of a public *call* the brackets have the names of the clauses of its contract (`ensures`), or of a clause without a name the first statement that it
names, if there is one. Every function is also proved to be safe and to end: no index is out of range, no sum wraps, no cast loses bits.
"""

BELIEFS = """\
## The definitions to believe

These are the files of `specs/` that the headline of [GUARANTEES](GUARANTEES.md#the-headline) reaches, in three parts. The core is for every sound
setting and every list of lines in form; what comes *from the text on* leads there from the text that is read, and to the text that is written. For
other promises the files are listed that they reach beside these, with the statements that carry them; `tools/believed.py STATEMENT` prints all that a
statement reaches, with its lines.
"""

IMPORT = re.compile(r"ghost use Rattle\.(?!std\.|core\.)\w+\.specs\.(?!declared)([\w.]+)\.\{([^}]*)\}")
NAME = re.compile(r"^ *(?:pub )?(?:unsafe )?fn (\w+)")
HOME = re.compile(r"^(?:pub (trait) (\w+)|impl(?:<[^{]*?>)? ([\w:]+)(?:<[^{]*?>)? \{)")
CLAUSE = re.compile(r"^ *ensures (?:(\w+) )?\{(.*?)(?=^ *(?:ensures|requires|\{)|\Z)", re.M | re.S)


@dataclass
class Call:
    """A public function: the type or trait that it is a method of, the first sentence of its doc comment, and its clauses, each with its name
    or, if it has none, the first statement that it names."""

    name: str
    home: str
    said: str
    clauses: list = field(default_factory=list)
    is_law: bool = False


def public_names(crate):
    """What a crate's root file lets others name: whole modules, and names of private ones."""
    text = re.sub(r"\s+", " ", re.sub(r"//.*", "", root_file(crate).read_text()))
    used = re.findall(r"pub use (\w+)::(?:\{([^}]*)\}|(\w+));", text)
    names = {(module, name.strip()) for module, many, one in used for name in (many or one).split(",")}
    return set(re.findall(r"pub mod (\w+);", text)), names


def signature(lines, at):
    """The lines from a `fn` up to its body, and whether that is empty."""
    for end, line in enumerate(lines[at:], at + 1):
        text = line.strip()
        if text in ("{", "{}") or text.endswith(";") or (text.endswith((" {", " {}")) and "ensures" not in text):
            return lines[at:end], text.endswith("{}")
    return lines[at:], False


def clauses_in(head, files):
    """The names of the clauses in a function's head."""
    for name, text in CLAUSE.findall(head):
        stated = [word for word in re.findall(r"\b[A-Z]\w+", text) if word in files]
        yield name or (f"{files[stated[0]]}.{stated[0]}" if stated else "")


def comment(lines, at):
    """The first sentence of the doc comment that ends above a line, without its full stop."""
    start = at
    while start and lines[start - 1].strip().startswith(("///", "#[")):
        start -= 1
    said = " ".join(line.strip()[4:] for line in lines[start:at] if line.strip().startswith("///"))
    return re.split(r"[.](?: |$)", said)[0]


def calls_of(text):
    """The functions of a file that are declared to be public."""
    lines, home, in_trait = text.splitlines(), "", False
    files = {name.strip(): file for file, names in IMPORT.findall(text) for name in names.split(",")}
    for at, line in enumerate(lines):
        if found := HOME.match(line):
            home, in_trait = found[2] or found[3], bool(found[1])
        elif re.match(r"\S.*\bfor\b.*\{$|\}", line):
            home, in_trait = "", False
        if not (found := NAME.match(line)) or not ("pub fn" in line or in_trait and line.startswith("    fn")):
            continue
        head, is_empty = signature(lines, at)
        call = Call(found[1], home if line[0] == " " else "", comment(lines, at))
        call.clauses = list(clauses_in("\n".join(head), files))
        call.is_law = is_empty and bool(call.clauses)
        yield call


def calls(crate):
    """The public calls of a crate with a contract, and its laws, by the files of its source."""
    modules, names = public_names(crate)
    for path in sorted((TOP / "crates" / crate / "src").rglob("*.rt")):
        for call in calls_of(path.read_text()):
            if call.clauses and (path.stem in modules or (path.stem, call.home or call.name) in names):
                yield call


def clauses(call):
    """The names of a call's clauses, in brackets."""
    said = ", ".join(f"`{name}`" for name in call.clauses if name)
    return f" ({said})" if said else ""


def lines_of(found):
    """Laws or calls, a line each: the name, the clauses, the first sentence."""
    for call in found:
        name = f"{call.home}::{call.name}" if call.home else call.name
        said = f": {call.said}." if call.said else ""
        yield from textwrap.wrap(f"- `{name}`{clauses(call)}{said}", WIDTH, subsequent_indent="  ")


def section(crate):
    """What the page has of a crate, or nothing if it has no contract."""
    found = list(calls(crate))
    if not found:
        return []
    laws, others = [it for it in found if it.is_law], [it for it in found if not it.is_law]
    lines = ["", f"## {crate}", "", *textwrap.wrap(first_sentence(crate), WIDTH)]
    if laws:
        lines += ["", "Laws:", "", *lines_of(laws)]
    if others:
        lines += ["", "Calls:", "", *lines_of(others)]
    return lines


def files_of(repository, keys):
    """The files of specs/ that have these definitions, by their crates."""
    by_crate = {}
    for place in sorted({repository.definitions[key].place for key in keys}):
        crate, _, file = place.partition("/specs/")
        if file:
            by_crate.setdefault(crate, []).append(f"`{file.removesuffix('.antt')}`")
    return "; ".join(f"{crate}: {', '.join(files)}" for crate, files in by_crate.items())


def beliefs():
    """What the page has of the definitions to believe."""
    repository = Repository()
    parts = base(repository)
    headline = set().union(*parts.values())
    rows = [(name, "", keys) for name, keys in parts.items()]
    rows += [(name, " (" + ", ".join(f"`{it}`" for it in stated) + ")", repository.reached(stated) - headline) for name, stated in PROMISES.items()]
    for name, stated, keys in rows:
        yield from textwrap.wrap(f"- *{name[0].upper() + name[1:]}*{stated}: {files_of(repository, keys) or 'none'}", WIDTH, subsequent_indent="  ")


def page():
    """The text of docs/CRATES.md."""
    crates = [crate for block in blocks() for crate in block.crates]
    sections = [line for crate in crates for line in section(crate)]
    return "\n".join([HEAD.rstrip(), "", BELIEFS.rstrip(), "", *beliefs(), *sections, ""])


def main():
    path = TOP / PAGE
    if sys.argv[1:] == ["--write"]:
        path.write_text(page())
    elif path.read_text() != page():
        sys.exit(f"{PAGE} isn't what `tools/contracts.py --write` makes")


if __name__ == "__main__":
    main()
