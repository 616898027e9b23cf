"""Guesses what was meant: what was expected at a fault, and what there is in place of what was tried."""

from __future__ import annotations

import re
from typing import Dict, List, Optional

from sancus.model.acts import ACTS, QUERIES
from sancus.model.deployment import KINDS, Tables
from sancus.model.items import ITEMS
from sancus.model.language import COMPARED, END, MULTIPLIED, NAMED, NUMBER, SUMMED, UNARY, VALUED, WATCHED, NotInGrammar
from sancus.model.people import PEOPLE
from sancus.model.shown import quoted, text_of
from sancus.model.table import words

OPERATORS = {*COMPARED, *SUMMED, *MULTIPLIED}
STATEMENT = {"let", "send", "emit", "if", "repeat", NAMED}
IN_PROPERTY = {"let", "fail", "assume", "if", "repeat", NAMED}


def expected(error: NotInGrammar) -> List[str]:
    """What was expected in place of a token."""
    if error.bound:
        return [error.bound]
    left = set(error.expected)
    said = []
    if STATEMENT <= left:
        left -= STATEMENT
        said.append("a statement (`let x = ..;`, `x = ..;`, `if`, `repeat`, `send`, `emit`)")
    if IN_PROPERTY <= left:
        left -= IN_PROPERTY
        said.append("a statement (`let x = ..;`, `x = ..;`, `if`, `repeat`, `fail;`, `assume ..;`)")
    if {NUMBER, NAMED, "("} <= left:
        left -= {NUMBER, NAMED, "(", *UNARY}
        said.append("a value (a number, a name, brackets)")
    if len(left & OPERATORS) > 3:
        left -= OPERATORS
        said.append("an operator")
    said += sorted(f"`{it}`" if it not in (NAMED, NUMBER, END) else it for it in left)
    found = error.token
    seen = "the end of the text" if found.kind == END else f"`{found.text}`"
    return [f"expected {', '.join(said[:-1]) + ' or ' if said[1:] else ''}{said[-1]}, and found {seen}"] if said else []


def in_property(error: NotInGrammar) -> List[str]:
    """What a property has in place of what was tried."""
    from sancus.model.rules import near

    found = error.token.text
    if "drain" in error.expected:
        return of_kind(found)
    if found in ("send", "emit"):
        return [f"a property changes nothing but its own variables, so it has no `{found}`: `fail;` breaks it"]
    if found in ("sensor", "actuator", "input", "output", "sample"):
        return [f"a property is no module, so it has no `{found}`: its handlers stand at items, as `on sense light(v)`"]
    if error.expected == {"("}:
        return [f"these items have a value, which needs a name, as `(v)`: {' '.join(VALUED)}"]
    if found == "(" and error.expected == {"{"}:
        return [f"these items have no value, so no brackets: {' '.join(it for it in WATCHED if it not in VALUED)}"]
    return []


# Where a property sees what was tried at a heading.
SEEN = {
    "emit": "what a module emits is seen as `on out MODULE(v)`",
    "send": "what a module sends is seen where it is taken: `on take CONNECTION(v)`",
    "sample": "a sensor's new reading is `on sense SENSOR(v)`, and its driver reads it at `on read MODULE(v)`",
}


def of_kind(found: str) -> List[str]:
    """Where a property sees what was tried at a heading, or the kind of items that was meant."""
    from sancus.model.rules import near

    if found in ITEMS:
        return [f"`{found}` is an item of a trace at which no handler may stand"]
    said = SEEN.get(found) or near(found, list(WATCHED)).lstrip("; ")
    return [said] if said else []


# Of the kinds of items that need one: what a device is, or what a module drives.
NEEDED = {"sense": "sensor", "drain": "sensor", "raw": "actuator", "read": "sensor", "out": "actuator"}


def fitting(kind: str, what: str, tables: Tables) -> List[str]:
    """The names that a kind of items takes."""
    needed = NEEDED.get(kind)
    if not needed:
        return tables.names(what)
    devices = [str(it.get("name")) for it in tables.devices if it.get("kind") == needed]
    drivers = [str(it.get("name")) for it in tables.modules if it.get("device") in devices]
    return devices if what == "device" else drivers


def other_half(name: str, kind: str, tables: Tables) -> str:
    """The module that drives a device, or the device that a module drives."""
    if kind == "device":
        return str((tables.driver_of(name) or {}).get("name", ""))
    return str((tables.named("module", name) or {}).get("device", ""))


def of_heading(kind: str, name: str, tables: Tables) -> List[str]:
    """Why a deployment has no items of this kind and name."""
    from sancus.model.rules import a, near

    what, needed = WATCHED.get(kind, ""), NEEDED.get(kind)
    if not what:
        return []
    entry = tables.named(what, name)
    if not entry:
        other = next((it for it in ("node", "device", "module", "connection") if tables.named(it, name)), None)
        more = f"; `{name}` is {a(other)}" if other else ""
        known = fitting(kind, what, tables)
        half = other_half(name, other or "", tables)
        meant = f"; did you mean `{half}`?" if half in known else near(name, known)
        which = f" that drives {a(needed)}" if needed and what == "module" else ""
        said = f"`{kind}` takes {a(what if which or not needed else needed)}{which}"
        return [f"{said}: {' '.join(known) or 'there is none'}{more}{meant}"]
    if what == "device":
        return [f"`{name}` is {a(str(entry.get('kind')))}, and `{kind}` is of {a(str(needed))}"]
    return [f"`{name}` drives no {needed}, so no `{kind}` of it comes"]


def hints(source: bytes, at: int) -> List[str]:
    """What the language has in place of what was tried at a fault."""
    before, here = source[max(0, at - 200) : at].decode(errors="replace"), source[at : at + 40].decode(errors="replace")
    for it in words()["hints"]:
        if re.search(it["before"], before) and re.search(it["here"], here):
            return [str(it["say"])]
    if re.search(r"[\w)\]]\s*\n\s*$", before):
        return ["perhaps a `;` is missing at the end of the line before"]
    return []


def of_name(what: str) -> List[str]:
    if re.match(r"`(true|false)` isn't declared", what):
        return ["there are no truth values: 1 and 0"]
    return []


def of_toml(line: Optional[bytes]) -> List[str]:
    first = (line or b"").split()[:1]
    if first and first[0].decode(errors="replace") in ACTS:
        return ["this looks like a line of a schedule, which comes after a line `%%`"]
    found = re.match(rb"\s*\[\s*(node|device|module|connection)\s*\]", line or b"")
    if found:
        return [two_brackets(text_of(found[1]))]
    if line and re.match(rb"\s*(source|secret|key|name|node|from|to|kind|device)\s*=\s*[^\"'\[\s]", line):
        return ["a text is written between quotes"]
    return []


def two_brackets(kind: str) -> str:
    return f"each {kind} begins with two brackets, `[[{kind}]]`, since there may be several"


def of_tables(document: Dict[str, object]) -> List[str]:
    """What there is in place of a table of a kind of which there may be several."""
    return [two_brackets(it) for it in KINDS if isinstance(document.get(it), dict)]


def of_head(command: str, first: bytes) -> List[str]:
    """What an input is, if it isn't a deployment."""
    begun = first.lstrip()
    if b"\0" in first:
        return ["this is no text"]
    if begun.startswith((b"image ", b"trace\n", b"trace\r")):
        if command == "explain":
            return ["this is the output of a run: `sancus explain` takes the deployment first, and then the trace"]
        return ["this is the output of a run, and no deployment"]
    if begun.startswith((b"//", b"on ", b"var ", b"array ")):
        return ["this looks like a property, or a module's source: the deployment comes before it"]
    if begun.startswith(b"<"):
        return ["this looks like a page of HTML or XML, and a deployment is TOML"]
    if begun.startswith((b"{", b"[")):
        return ["this looks like JSON, and a deployment is TOML"] if begun[1:2] in b'"{\n ' else []
    return []


def of_encoding(text: bytes, is_deployment: bool = False) -> List[str]:
    """That a text is in an encoding that isn't read, by the byte order mark at its beginning."""
    if text.startswith((b"\xff\xfe", b"\xfe\xff")):
        return ["this is UTF-16: save it as UTF-8 without a byte order mark"]
    if text.startswith(b"\xef\xbb\xbf") and not is_deployment:
        return ["it begins with a byte order mark, which only a deployment may have: save it as UTF-8 without one"]
    return []


def without_mark(command: str, name: str, first: bytes) -> List[str]:
    """What to do about an input without `%%`."""
    if not first:
        return ["the input is empty"]
    if of_encoding(first, True):
        return of_encoding(first, True)
    file = "FILE" if name == "-" else name
    words = [it.split() for it in first.split(b"\n")]
    begun = next((text_of(it[0]) for it in words if it and not it[0].startswith(b"#")), "")
    if begun in ACTS or begun in PEOPLE:
        of = "a schedule" if begun in ACTS else "a schedule for people"
        return [f"these are lines of {of}, and the deployment comes before them: `sancus run DEPLOYMENT {file}`"]
    more = {
        "run": ("SCHEDULE", "a schedule"),
        "lines": ("SCHEDULE", "a schedule"),
        "drive": ("READINGS", "readings"),
        "explain": ("TRACE", "the output of a run"),
        "snap": ("SCHEDULE", "a schedule"),
    }.get(command)
    if not more:
        return []
    file = quoted(file)
    return [
        f"`sancus {command} {file} {more[0]}` takes {more[1]} from a file of its own; `sancus check {file}` needs no "
        "mark"
    ]


def for_people(act: str) -> str:
    return f"`{act}` is a line for people: `sancus run DEPLOYMENT LINES` takes those from a file"


def of_act(act: str, line: bytes, command: str, tables: Optional[Tables]) -> List[str]:
    """What a line is that is no line of a schedule."""
    from sancus.model.rules import near

    text = line.strip()
    if text == b"%%" and command in ("run", "lines"):
        return ["a second `%%` is for `sancus snap`, whose queries follow it"]
    if text in (b"%%", b"%"):
        return ["the mark is a line `%%` alone: no blank before or after it"]
    if act in PEOPLE:
        return [for_people(act)]
    if act in QUERIES:
        return [f"`{act}` is a query of `sancus snap`: it comes after a second `%%`"]
    if act in ITEMS:
        return [f"`{act}` is an item of a trace, and no line of a schedule: the acts are {' '.join(ACTS)}"]
    if tables and tables.named("device", act):
        return [
            "this looks like a reading: `sancus drive` takes those, and `sense DEVICE VALUE` is the line of a schedule"
        ]
    acts = f"the acts: {' '.join(ACTS)}"
    if command == "schedule":
        return [f"lines for people: {' '.join(PEOPLE)}; {acts}{near(act, [*PEOPLE, *ACTS])}"]
    return [f"{acts}{near(act, list(ACTS))}"]


def of_item(line: bytes, tables: Optional[Tables]) -> List[str]:
    """Why a line is no item: its first word, or a name that the deployment doesn't have."""
    words = text_of(line).split(" ")
    if words[0] not in ITEMS:
        return [f"the items: {' '.join(ITEMS)}"]
    for kind, name in zip(ITEMS[words[0]], words[1:]):
        is_name = kind in ("node", "device", "module", "connection") and name not in ("-", "deployer")
        if is_name and tables and not tables.named(kind, name):
            return [f"the deployment has no {kind} `{name}`: is this the trace of another deployment?"]
    return []


def of_trace(line: bytes) -> List[str]:
    """What was given in place of a trace."""
    act = (line.split() or [b""])[0].decode(errors="replace")
    if not act:
        return ["the trace is empty, or ends before its line `trace`: it is the output of `run` or `drive`"]
    if act in ACTS or act in PEOPLE or act.startswith("#"):
        return [
            "this is a schedule, and no trace: `sancus run FILE > TRACE` writes one, and `sancus run FILE | sancus "
            "explain FILE` judges it"
        ]
    if line.startswith(b"fault "):
        return ["this is a fault, and no trace: what was to write one ended with it"]
    if line.startswith((b"because ", b"legal ", b"illegal ")):
        return ["this is what `explain` wrote: it takes what `run` or `drive` wrote"]
    if b"=" in line or line.startswith(b"["):
        return ["this is a deployment: `sancus explain` takes the deployment first, and then the trace"]
    if act in ITEMS:
        return ["the items come after a line `trace`"]
    return ["a trace is the output of `run` or `drive`"]
