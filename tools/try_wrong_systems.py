#!/usr/bin/env python3
"""Tries the wrong systems of wrong-systems/: the prover must refuse the lemmas that each names.

    tools/try_wrong_systems.py                       all of them
    tools/try_wrong_systems.py NAME..                these; --words prints what the prover says of them
    tools/try_wrong_systems.py --list ..             says which laws refuse them, by which lemmas, and tries none
    tools/try_wrong_systems.py --applies             says which have lost their place in the definitions

A wrong system is wrong in a definition. Of the files that its edit changes, and of all files of specs/ and proofs/ that
stand on them and that the laws' proofs need, the tool makes one crate in a folder of its own. It checks that with the kit's
`rattle check`, over the libraries of the crates below, which `rt ci` leaves in crates/*/out/rlib. It does so twice: the
files as they stand must be accepted, and with the change the lemmas that the edit names must be refused. For each system
it prints which lemmas were refused, those that are named first. The status is 1 if one of these wasn't, or if the prover
refused anything that isn't a lemma over the change, and 2 without the kit or the libraries. A system takes about a minute.
Not a part of the gate, but for --applies, which takes a second and proves nothing.
"""

import argparse
import re
import shutil
import subprocess
import sys
import tempfile
import time
from dataclasses import dataclass
from pathlib import Path

from crate_lists import dependencies
from edits import apply, stale, systems_of

TOP = Path(__file__).resolve().parent.parent
# The crate that is made of the files, and the beginning of its modules' names.
MADE = "wrong_system"
# The whole name of a module, or of something in one.
NAMED = re.compile(r"\bRattle\.(\w+\.(?:specs|proofs)(?:\.[\w+]+)+)")
# Written for single functions, so no other file needs them.
OF_FUNCTIONS = {"Answers", "Invariants", "Proof", "Lib"}
ROOT = "//! Files that stand on a changed definition.\n#![tactic(auto)]\n"
# The prover's lines about a lemma that it refuses, and about anything else that it doesn't accept.
REFUSED = re.compile(r"(?:\./)?proofs/(\S+)\.antt:\d+:\d+: error: `([^`]+)`")
FAULT = re.compile(r"(?:\S+:\d+:\d+: )?error|\S+:\d+:\d+: (?:`|goal)|rattle:")


class Missing(Exception):
    """What a check needs and isn't there."""


@dataclass(frozen=True)
class Prover:
    """The kit's folder, that of the libraries, and whether to print what the prover says."""

    kit: Path
    libraries: Path
    speaks: bool


def files_of(top):
    """The files of definitions and lemmas, by their modules' names."""
    found = {}
    for part in [*top.glob("crates/*/specs"), *top.glob("crates/*/proofs")]:
        for path in part.rglob("*.antt"):
            if path.stem not in OF_FUNCTIONS:
                found[".".join(path.relative_to(top / "crates").with_suffix("").parts)] = path
    return found


def module_of(name, modules):
    """The module among these that a whole name is of or is in, or an empty text."""
    while name and name not in modules:
        name = name.rpartition(".")[0]
    return name


def cited(text, modules):
    return {module_of(name, modules) for name in NAMED.findall(text)} - {""}


def reached(starts, following):
    """What can be reached from these, they themselves among it."""
    seen, left = set(), list(starts)
    while left:
        it = left.pop()
        if it not in seen:
            seen.add(it)
            left += following.get(it, ())
    return seen


def taken(texts, changed, targets):
    """The modules that stand on the changed ones and that the targets need."""
    uses = {name: cited(text, texts) - {name} for name, text in texts.items()}
    users = {}
    for name, below in uses.items():
        for it in below:
            users.setdefault(it, []).append(name)
    return reached(changed, users) & reached(targets, uses)


def own_name(module):
    """A module's name in the crate that is made."""
    return module.replace(".", "_").replace("+", "")


def rewritten(text, modules):
    """The text with the names of these modules as they are in the crate that is made."""

    def renamed(found):
        module = module_of(found[1], modules)
        rest = found[1][len(module) :]
        return f"Rattle.{MADE}.proofs.{own_name(module)}{rest}" if module else found[0]

    return NAMED.sub(renamed, text)


def make_crate(folder, texts):
    """Writes the crate of these modules, and returns the crates whose libraries it names."""
    for part in ("src", "proofs"):
        (folder / part).mkdir(parents=True)
    (folder / "src/lib.rt").write_text(ROOT)
    named = {"std"}
    for module, text in texts.items():
        own = rewritten(text, texts)
        named |= {name.split(".")[0] for name in NAMED.findall(own)}
        (folder / "proofs" / f"{own_name(module)}.antt").write_text(own)
    names = sorted(own_name(module) for module in texts)
    (folder / "proofs/Lib.antt").write_text("".join(f"pub mod {name}\n" for name in names))
    return named - {MADE}


def library(crate, prover):
    """The folder of a crate's library: one of the repository, or of the kit."""
    folder = prover.libraries / crate / "out/rlib" if crate in dependencies() else prover.kit / "rlibs"
    if not (folder / f"{crate}.rlib").is_dir():
        raise Missing(f"there is no library of {crate} in {folder}; `rt ci` leaves one there")
    return folder


def check_words(named, prover):
    """The words for a check of the crate that is made, over the libraries of the named crates. With --allow-holes a lemma
    that rests on a refused one is checked, too; the status is 0 only if a check without it would accept the crate."""
    words = [prover.kit / "bin/rattle", "check", "--allow-holes", "--crate-name", MADE, "src/lib.rt"]
    for crate in sorted(named):
        words += ["--extern", f"{crate}={library(crate, prover)}/{crate}.rlib"]
    below = reached(named, dependencies()) & set(dependencies())
    for folder in [prover.kit / "rlibs", *(library(crate, prover) for crate in sorted(below))]:
        words += ["-L", f"dependency={folder}"]
    words += ["--antt-project", prover.kit / "rattle/logic/antt-project.json"]
    return [*words, "--logic-built", prover.kit / "logic_built"]


def told(output, modules):
    """The lemmas among these modules that the prover refused, and its other lines against the crate."""
    places = {own_name(it): it for it in modules}
    refused, others = [], []
    for line in output.splitlines():
        found = REFUSED.match(line)
        module = places.get(found[1], "") if found else ""
        if ".proofs." in module:
            refused.append(f"{module.replace('.', '/')}.antt {found[2]}")
        elif FAULT.match(line):
            others.append(line)
    return list(dict.fromkeys(refused)), others


def check(texts, prover):
    """Has the prover check the crate of these modules, and returns what it refused and its other faults."""
    with tempfile.TemporaryDirectory() as room:
        folder = Path(room) / MADE
        words = check_words(make_crate(folder, texts), prover)
        ran = subprocess.run(words, cwd=folder, stdout=subprocess.PIPE, stderr=subprocess.STDOUT, text=True)
    if prover.speaks:
        print(ran.stdout)
    refused, others = told(ran.stdout, texts)
    if not others and ran.returncode != (1 if refused else 0):
        others.append(f"the prover ended with status {ran.returncode}: {ran.stdout[-300:].strip()}")
    return refused, others


def targets_of(edit, texts):
    """The modules that prove the laws which refuse the system, and those of the lemmas that it names."""
    found = {lemma.partition(".antt ")[0].replace("/", ".") for lemma in edit.lemmas}
    for law in edit.laws:
        crate, _, name = law.partition(" ")
        found |= cited((TOP / f"crates/{crate}/proofs/laws/{name}/Answers.antt").read_text(), texts)
    return found


def faults_of(edit, texts, prover):
    """Tries a wrong system, says which lemmas were refused, and returns what isn't as it must be."""
    begun, paths = time.monotonic(), {path: name for name, path in files_of(TOP).items()}
    edited = {paths[path]: text for path, text in apply(edit).items()}
    names = taken(texts | edited, edited, targets_of(edit, texts))
    refused, others = check({it: texts[it] for it in names}, prover)
    faults = [f"as the files stand: {it}" for it in refused + others]
    refused, others = check({it: (texts | edited)[it] for it in names}, prover)
    faults += others + [f"NOT REFUSED: {it}" for it in edit.lemmas if it not in refused]
    print(f"{edit.path.stem}: {len(names)} files in {time.monotonic() - begun:.0f} s")
    for lemma in sorted(refused, key=lambda it: it not in edit.lemmas):
        print(f"  {'refused' if lemma in edit.lemmas else 'and with it'}: {lemma}")
    print("".join(f"  {it}\n" for it in faults), end="", flush=True)
    return faults


def try_all(edits, prover):
    begun = time.monotonic()
    texts = {name: path.read_text() for name, path in files_of(TOP).items()}
    others = [edit for edit in edits if faults_of(edit, texts, prover)]
    refused = len(edits) - len(others)
    print(f"{len(edits)} wrong systems in {time.monotonic() - begun:.0f} s: {refused} refused by the lemmas that they name")
    return 1 if others else 0


def kit_folder():
    """The folder of the kit, of which `rt doc` prints a page."""
    if not shutil.which("rt"):
        raise Missing("there is no command rt here, so nothing can be checked")
    return Path(subprocess.run(["rt", "doc"], capture_output=True, text=True, check=True).stdout.strip()).parent


def misnamed(edit):
    """What keeps the laws and the lemmas that a system names from being found, a line each."""
    for law in edit.laws:
        crate, _, name = law.partition(" ")
        if not (TOP / f"crates/{crate}/proofs/laws/{name}/Answers.antt").is_file():
            yield f"{edit.path.name}: there is no law {name} of {crate}"
    for lemma in edit.lemmas:
        file, _, name = lemma.partition(" ")
        path = TOP / "crates" / file
        if not path.is_file() or not re.search(rf"^ *(?:pub )?{re.escape(name)} :", path.read_text(), re.MULTILINE):
            yield f"{edit.path.name}: there is no lemma {name} in {file}"
    if not edit.laws or not edit.lemmas:
        yield f"{edit.path.name}: it names no law, or no lemma"


def chosen(names):
    """The wrong systems of these names, or all."""
    edits = {edit.path.stem: edit for edit in systems_of()}
    wanted = [Path(name).stem for name in names] or list(edits)
    for name in set(wanted) - set(edits):
        sys.exit(f"try_wrong_systems: {name} is no wrong system")
    return [edits[name] for name in wanted]


def words():
    parser = argparse.ArgumentParser(description=__doc__, formatter_class=argparse.RawDescriptionHelpFormatter)
    parser.add_argument("names", nargs="*", metavar="NAME")
    parser.add_argument("--libraries", type=Path, default=TOP / "crates", metavar="FOLDER", help="in place of crates/")
    parser.add_argument("--words", action="store_true", help="print what the prover says, too")
    parser.add_argument("--list", action="store_true", help="say what would be tried")
    parser.add_argument("--applies", action="store_true", help="say which have lost their place")
    return parser.parse_args()


def main():
    given = words()
    edits = chosen(given.names)
    if given.list:
        for edit in edits:
            print(f"{edit.path.stem}: {', '.join(edit.laws)}: {', '.join(edit.lemmas)}")
        return 0
    lost = [*stale(edits), *(line for edit in edits for line in misnamed(edit))]
    if given.applies or lost:
        print("\n".join(lost), end="\n" if lost else "")
        return 1 if lost else 0
    try:
        return try_all(edits, Prover(kit_folder(), given.libraries.resolve(), given.words))
    except Missing as why:
        print(f"try_wrong_systems: {why}", file=sys.stderr)
        return 2


if __name__ == "__main__":
    sys.exit(main())
