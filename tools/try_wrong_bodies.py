#!/usr/bin/env python3
"""Tries the wrong bodies that the gate leaves out, those of wrong-bodies/: the prover must refuse each.

    tools/try_wrong_bodies.py                        all of them
    tools/try_wrong_bodies.py sx_core sx_sched       those of these crates
    tools/try_wrong_bodies.py sx_core/reti_takes_pc_first
    tools/try_wrong_bodies.py --changed-since REV    those of crates with a change since this revision, and changed ones
    tools/try_wrong_bodies.py --list ..              says which these are, and tries none
    tools/try_wrong_bodies.py --applies              says which edits, of the gate too, have lost their place in the code

They are tried as the gate tries those of crates/CRATE/must-fail, in a copy of the repository and in place of these, one
crate after the other. From nothing, every crate below is built first. An edit with a line `crate: BELOW` changes
a definition of a crate below; rt has no such edits, so the crate is checked over the changed one. Not a part of the gate,
but for --applies, which takes a second and proves nothing.
"""

import argparse
import os
import re
import shutil
import subprocess
import sys
import tempfile
import time
from collections import Counter
from pathlib import Path

from edits import apply, edits_of, read_edit, stale

TOP = Path(__file__).resolve().parent.parent
KEPT = TOP / "wrong-bodies"
TOLD = re.compile(r"rt: must-fail (\S+)\.edit: (refused|NOT REFUSED|BAD EDIT|NOT TRIED)")


def all_edits():
    return sorted(f"{edit.parent.name}/{edit.stem}" for edit in KEPT.glob("*/*.edit"))


def named(names, edits):
    """The edits that the names ask for: a crate's, or one."""
    found = []
    for name in names:
        name = name.removesuffix(".edit").rstrip("/")
        these = [it for it in edits if it == name or it.split("/")[0] == name]
        if not these:
            sys.exit(f"try_wrong_bodies: {name} is no wrong body, and no crate that has one")
        found += these
    return sorted(set(found))


def changed_files(revision):
    """The files that differ from the revision, with those that git doesn't know yet."""
    for words in (["diff", "--name-only", revision, "--"], ["ls-files", "--others", "--exclude-standard"]):
        ran = subprocess.run(["git", *words], cwd=TOP, capture_output=True, text=True)
        if ran.returncode:
            sys.exit(f"try_wrong_bodies: {ran.stderr.strip()}")
        yield from ran.stdout.splitlines()


def touched(edits, files):
    """The edits that are among these files, or whose crate has its code, definitions or proofs among them."""
    parts = [file.split("/") for file in files]
    crates = {it[1] for it in parts if it[0] == "crates" and len(it) > 3 and it[2] in ("src", "specs", "proofs")}
    own = {f"{it[1]}/{it[2].removesuffix('.edit')}" for it in parts if it[0] == "wrong-bodies" and len(it) == 3}
    return [it for it in edits if it in own or it.split("/")[0] in crates]


def try_below(copy, crate, edit, where):
    """Checks the crate over one below it that the edit has changed, and returns how that ended."""
    texts = apply(read_edit(KEPT / f"{edit}.edit"), copy)
    kept = {path: path.read_text() for path in texts}
    for path, text in texts.items():
        path.write_text(text)
    ran = subprocess.run(["rt", "check"], cwd=copy / "crates" / crate, env=where, capture_output=True, text=True)
    for path, text in kept.items():
        path.write_text(text)
    return "refused" if ran.returncode else "NOT REFUSED"


def try_crate(copy, crate, edits, processors):
    """Tries these edits of a crate, hands on what rt says, and returns how each ended."""
    below = [edit for edit in edits if read_edit(KEPT / f"{edit}.edit").is_below]
    folder = copy / "crates" / crate / "must-fail"
    shutil.rmtree(folder, ignore_errors=True)
    folder.mkdir(parents=True)
    for edit in set(edits) - set(below):
        shutil.copy(KEPT / f"{edit}.edit", folder)
    where = {**os.environ, "RT_JOBS": str(processors)} if processors else None
    words = ["rt", "must-fail", crate]
    begun = time.monotonic()
    child = subprocess.Popen(words, cwd=copy, env=where, stdout=subprocess.PIPE, stderr=subprocess.STDOUT, text=True)
    ended = {}
    for line in child.stdout:
        print(line, end="", flush=True)
        told = TOLD.match(line)
        if told:
            ended[told[1]] = told[2]
    child.wait()
    ended |= {edit: try_below(copy, crate, edit, where) for edit in below}
    ended = {edit: ended.get(edit, "NOT TRIED") for edit in edits}
    counts = ", ".join(f"{number} {how}" for how, number in Counter(ended.values()).items())
    print(f"{crate}: {len(edits)} wrong bodies in {time.monotonic() - begun:.0f} s: {counts}", flush=True)
    return ended


def by_crate(edits):
    groups = {}
    for edit in edits:
        groups.setdefault(edit.split("/")[0], []).append(edit)
    return groups


def try_all(edits, processors):
    begun, ended = time.monotonic(), {}
    with tempfile.TemporaryDirectory() as room:
        copy = Path(room) / "repository"
        shutil.copytree(TOP, copy, ignore=shutil.ignore_patterns("out", ".git"))
        for crate, these in by_crate(edits).items():
            ended |= try_crate(copy, crate, these, processors)
    others = [f"{edit}: {how}" for edit, how in ended.items() if how != "refused"]
    print(f"{len(ended)} wrong bodies in {time.monotonic() - begun:.0f} s: {len(ended) - len(others)} refused")
    print("\n".join(others), end="\n" if others else "")
    return 1 if others else 0


def words():
    parser = argparse.ArgumentParser(description=__doc__, formatter_class=argparse.RawDescriptionHelpFormatter)
    parser.add_argument("names", nargs="*", metavar="NAME", help="CRATE or CRATE/EDIT")
    parser.add_argument(
        "--changed-since", metavar="REV", help="leave out crates without a change since this revision"
    )
    parser.add_argument("--jobs", type=int, metavar="N", help="how many processors rt may use")
    parser.add_argument("--list", action="store_true", help="say what would be tried")
    parser.add_argument("--applies", action="store_true", help="say which edits have lost their place")
    return parser.parse_args()


def main():
    given = words()
    if given.applies:
        lost = list(stale(edits_of()))
        print("\n".join(lost), end="\n" if lost else "")
        return 1 if lost else 0
    edits = all_edits()
    if given.names:
        edits = named(given.names, edits)
    if given.changed_since:
        edits = touched(edits, list(changed_files(given.changed_since)))
    for crate, these in by_crate(edits).items():
        print(f"{crate}: {len(these)}: " + " ".join(it.split("/")[1] for it in these))
    print(f"{len(edits)} wrong bodies of {len(by_crate(edits))} crates", flush=True)
    return 0 if given.list or not edits else try_all(edits, given.jobs)


if __name__ == "__main__":
    sys.exit(main())
