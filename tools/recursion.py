#!/usr/bin/env python3
"""Which functions of the crates may call themselves, directly.

A proof that a call ends says nothing of how long that takes, nor of the stack: a body that calls itself twice where once is enough is proved as
well. So each function that calls itself is listed in tools/recursion.txt, a line each: crate, file, function, and how many of its calls are of
itself. A person looks at a new one before it is listed.

    tools/recursion.py            prints where the sources and the list differ, and ends with status 1 then
    tools/recursion.py --store    writes the list
"""

import re
import sys
from pathlib import Path

TOP = Path(__file__).resolve().parent.parent
LIST = TOP / "tools" / "recursion.txt"
COMMENT = re.compile(r"//[^\n]*")
FUNCTION = re.compile(r"^( *)(?:pub(?:\([a-z]+\))? +)?(?:const +)?fn +([a-z_0-9]+)", re.MULTILINE)


def body_of(text, begin, indent):
    """The text of a function from its name on, up to the brace that closes it."""
    end = re.compile(rf"^{indent}\}}", re.MULTILINE).search(text, begin)
    return text[begin : end.start() if end else len(text)]


def of_itself(name, body, is_method):
    """How often a function calls itself by its name. (A method of another type may have the same name, and what a field's method does isn't counted.)"""
    before = r"(?<![.\w])(?:[a-z_0-9]+\.|Self::)" if is_method else r"(?<![.:\w])"
    return len(re.findall(rf"{before}{name}(?:::<[^()]*>)?\(", body))


def found():
    """The functions that call themselves, a line each."""
    for file in sorted(TOP.glob("crates/*/src/**/*.rt")):
        text = COMMENT.sub("", file.read_text(encoding="utf-8"))
        for it in FUNCTION.finditer(text):
            body = body_of(text, it.end(), it[1])
            count = of_itself(it[2], body, bool(it[1]))
            if count:
                crate, _, *place = file.relative_to(TOP / "crates").parts
                yield f"{crate} {'/'.join(place)} {it[2]} {count}"


def main():
    now = list(found())
    if sys.argv[1:] == ["--store"]:
        LIST.write_text("".join(f"{it}\n" for it in now), encoding="utf-8")
        return 0
    stored = LIST.read_text(encoding="utf-8").splitlines()
    new, gone = ([it for it in these if it not in those] for these, those in ((now, stored), (stored, now)))
    for it in new:
        print(f"{it}: it calls itself, and tools/recursion.txt doesn't list it so")
    for it in gone:
        print(f"{it}: tools/recursion.txt lists it, and it doesn't call itself so")
    return 1 if new or gone else 0


if __name__ == "__main__":
    sys.exit(main())
