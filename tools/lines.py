#!/usr/bin/env python3
"""Prints the lines of each crate's src (without tests), specs and proofs, and of all but the crates of tests."""

import re
from pathlib import Path

CRATES = Path(__file__).resolve().parent.parent / "crates"
TESTS = "test_"


def lines(files):
    return sum(len(file.read_text().splitlines()) for file in files)


def counts(crate):
    root = [file.read_text() for file in (crate / "src").glob("lib.rt")]
    tests = re.findall(r"#\[cfg\(test\)\]\s*mod (\w+);", "".join(root))
    src = [file for file in (crate / "src").rglob("*.rt") if file.stem not in tests]
    return lines(src), lines((crate / "specs").rglob("*.antt")), lines((crate / "proofs").rglob("*.antt"))


def told(name, row):
    return f"| {name} | " + " / ".join(f"{count:,}" for count in row) + " |"


def main():
    rows = {crate.name: counts(crate) for crate in CRATES.iterdir() if (crate / "src").is_dir()}
    print("| | lines in src / specs / proofs |\n|---|---|")
    for name, row in sorted(rows.items(), key=lambda item: -sum(item[1])):
        print(told(name, row))
    print(told("all", [sum(it) for it in zip(*(row for name, row in rows.items() if not name.startswith(TESTS)))]))


main()
