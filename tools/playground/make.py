#!/usr/bin/env python3
"""Makes playground.html: the viewer of runs, with a desk beside it and the program as WebAssembly in it.

    tools/playground/make.py            writes it
    tools/playground/make.py --check    says whether it is as it would be written

The program is release/sancus.wasm (tools/release.sh wasm makes it), and its parts stand in this folder, tools/wasm and the viewer's.
"""

import base64
import gzip
import importlib.util
import json
import re
import sys
from pathlib import Path

HERE = Path(__file__).resolve().parent
TOP = HERE.parent.parent
PAGE = TOP / "playground.html"
WORDS = ("toml", "trees", "near", "guesses", "acts", "assembly", "deployment", "rules", "tables", "faults", "warnings")
SCRIPTS = ("link", "editor", "drafts", *WORDS, "runner", "job", "lessons", "lesson", "property", "live", "desk")
POLICY = (
    "default-src 'none'; script-src 'sha256-HASH' 'wasm-unsafe-eval'; style-src 'unsafe-inline'; img-src data:; "
    "worker-src blob:; form-action 'none'; base-uri 'none'"
)
TITLE = "Sancus applications, verified"
DATA = '<script type="text/plain" id="data"></script>\n'
END = "</script>\n</html>"
PACKED = re.compile(r'(<script type="text/plain" id="(?:program|examples)">)([^<]*)')


def loaded(name, path):
    spec = importlib.util.spec_from_file_location(name, path)
    made = importlib.util.module_from_spec(spec)
    spec.loader.exec_module(made)
    return made


PACKAGE = TOP / "src" / "sancus"
VIEWER = loaded("join", PACKAGE / "viewer" / "join.py")


def examples():
    folder = TOP / "examples"
    files = [*sorted(folder.glob("*.txt")), *sorted(folder.glob("attacks/*.txt")), *sorted(folder.glob("snap/*.txt"))]
    inputs = {str(it.relative_to(folder).with_suffix("")): it.read_text() for it in files}
    return {**inputs, **parking(folder / "parking")}


def parking(folder):
    """The parking lot: a day's readings, the lines for people, and each schedule after the set-up."""
    head, set_up = ((folder / name).read_text() for name in ("parking.toml", "set-up.schedule"))
    days = {it: head + it.read_text() for it in sorted(folder.glob("*.readings"))}
    people = {f"parking/{it.stem} for people": f"{head}%%\n{it.read_text()}" for it in sorted(folder.glob("*.people"))}
    schedules = [it for it in sorted(folder.glob("*.schedule")) if it.name != "set-up.schedule"]
    days.update({it: head + set_up + it.read_text() for it in schedules})
    return {**{f"parking/{it.stem}": text for it, text in days.items()}, **people}


def part(name):
    return (HERE / name).read_text()


def desk():
    """The desk, which says of which program the page is."""
    note = (TOP / "release" / "RELEASE").read_text()
    return part("desk.html").replace("PROGRAM", re.search(r"^wasm-of (\S+)$", note, re.M)[1])


def held(name, text):
    """Text that a script of the page reads."""
    if "</script" in text:
        sys.exit(f"make: {name} would end its element")
    return f'<script type="text/plain" id="{name}">{text}</script>\n'


def worker():
    """What runs the program: its host, and what makes a schedule of lines for people."""
    host = (TOP / "tools" / "wasm" / "host.js").read_text()
    shared = [(PACKAGE / "viewer" / f"{it}.js").read_text() for it in ("texts", "plan")]
    own = [part(f"{it}.js") for it in ("near", "people", "network", "worker")]
    return "\n".join([VIEWER.words(), host, *shared, *own])


def packed(data):
    return base64.b64encode(gzip.compress(data, 9, mtime=0)).decode()


def made():
    program = (TOP / "release" / "sancus.wasm").read_bytes()
    work = '<div id="work">\n' + desk() + '<div id="seen"></div>\n</div>\n'
    scripts = "\n".join(part(f"{it}.js") for it in SCRIPTS)
    texts = [
        held("program", packed(program)),
        held("examples", packed(json.dumps(examples()).encode())),
        held("worker", worker()),
    ]
    page = re.sub(r'(http-equiv="Content-Security-Policy" content=)"[^"]*"', rf'\1"{POLICY}"', VIEWER.joined(), count=1)
    page = re.sub(r"(<title>|<b id=\"title\">)[^<]*", rf"\g<1>{TITLE}", page)
    places = [("</style>", part("desk.css") + "</style>"), (DATA, work + DATA + "".join(texts)), (END, scripts + END)]
    for old, new in places:
        if page.count(old) != 1:
            sys.exit(f"make: the viewer's page has {old!r} {page.count(old)} times, and not once")
        page = page.replace(old, new)
    return VIEWER.sealed(page)


def compared(page):
    """A page as it is compared: what it packs is unpacked, since packing is done otherwise by other libraries."""
    return PACKED.sub(lambda it: it[1] + gzip.decompress(base64.b64decode(it[2])).hex(), page)


if __name__ == "__main__":
    if sys.argv[1:] == ["--check"]:
        is_same = PAGE.is_file() and compared(PAGE.read_text()) == compared(made())
        sys.exit(0 if is_same else f"{PAGE.name} isn't what its parts give: run tools/playground/{Path(__file__).name}")
    PAGE.write_text(made())
