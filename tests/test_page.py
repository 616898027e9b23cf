"""What the page knows of the language, of deployments, schedules and traces is what the program says: its scripts judge what tests/test_twin.py gives to
the front end, and name the same places and reasons as the front end does in words. Where there is no node, this is passed over.
"""

import json
import re
import shutil
import subprocess
import unittest
from typing import Any, Dict, Iterator, List, Tuple

from support import TOP, needs_program
from test_twin import MODULE, RUNNER, Changes, answered, described, given_in_rows, in_plain_quotes, left_at, short_rows, trace_of

from sancus.model import language, rules
from sancus.model.deployment import tables_of
from sancus.model.described import Deployment
from sancus.model.faults import Teller
from sancus.model.items import Item
from sancus.model.legality import Fails, Model
from sancus.model.texts import MOST_HEAD, Input, kept_of

NODE = shutil.which("node") or shutil.which("nodejs")
VIEWER, PLAYGROUND = TOP / "src" / "sancus" / "viewer", TOP / "tools" / "playground"
SCRIPTS = [
    *(VIEWER / f"{it}.js" for it in ("texts", "language", "plan", "values")),
    *(PLAYGROUND / f"{it}.js" for it in ("toml", "trees", "near", "guesses", "acts", "assembly", "deployment", "rules", "tables", "faults")),
]
Found = Iterator[str]


def asked(what: str, about: List[Any]) -> List[Any]:
    """What the page answers to one question about each."""
    words = (TOP / "src" / "sancus" / "faults.json").read_text()
    data = json.dumps({"words": words, "asked": [(what, it) for it in about]})
    command = [str(NODE), str(TOP / "tests" / "page.mjs"), *map(str, SCRIPTS)]
    return json.loads(subprocess.run(command, input=data, stdout=subprocess.PIPE, text=True, check=True).stdout)


# --- Deployments --------------------------------------------------------------------------------------------------------


def in_deployment(head: str, made: Dict[str, Any]) -> Found:
    """What the page and `describe` say differently of a deployment."""
    deployment = described(head.encode())
    last = deployment.last.split()
    if deployment.is_accepted:
        yield from in_accepted(deployment, made["modules"])
    elif last[2] == "D7":
        if made["modules"][int(last[4])]["rules"] is not None:
            yield "a source that isn't in the grammar is parsed"
    elif last[2] == "D8":
        yield from in_rules(made["modules"][int(last[4])]["rules"], last[5])
    yield from in_words(head, deployment.last, made["told"])


def in_accepted(deployment: Deployment, modules: List[Dict[str, Any]]) -> Found:
    for module, found in zip(deployment.modules.values(), modules):
        wanted = {
            "rules": [[it, []] for it in rules.RULES],
            "sections": [[it.start, it.stop] for it in (module.text, module.data)],
            "variables": [[it.kind, it.name, it.length if it.kind == "array" else it.first] for it in module.variables],
            "ends": len(module.ends),
        }
        if found != wanted:
            yield f"{module.name} is {found}, and not {wanted}"


def in_rules(found: Any, rule: str) -> Found:
    broken = [it for it, places in found or [] if places]
    if broken[:1] != [rule]:
        yield f"it breaks rule {rule} first, and not {broken[:1]}"


def in_words(head: str, last: str, told: Any) -> Found:
    """What the page and the front end say differently of a fault: its place, and the reasons."""
    teller = Teller(kept_of(head.encode() + b"%%\n"), "check")
    lines, words = teller.told(last), last.split()
    if not lines:
        return
    rule, place = words[2], words[3:]
    if told["words"] != lines[0]:
        yield f"it says {told['words']}, and not {lines[0]}"
    if rule in ("D4", "D5", "D9", "D10") and place[1:]:
        entry, *reasons = lines[1:]
        if not entry.startswith(told["notes"][0]) or told["notes"][1:] != reasons:
            yield f"it gives the reasons {told['notes']}, and not {lines[1:]}"
        at = teller.entry_line(place[0], int(place[1])) if reasons else None
        if told.get("line") != at:
            yield f"it names line {told.get('line')}, and not {at}"
    if rule == "D6" and told["notes"] != lines[1:]:
        yield f"it gives the reasons {told['notes']}"
    if rule == "D7":
        wanted = teller.source_place(int(place[1]), int(place[2]), int(place[3]))
        if wanted and (told.get("line"), told.get("column")) != wanted:
            yield f"it names {told}, and not {wanted}"
    if rule == "D8":
        yield from in_places(teller, int(place[1]), place[2], told)


def in_places(teller: Teller, index: int, rule: str, told: Any) -> Found:
    """The same of a rule of the language."""
    module = teller.tables.modules[index]
    source, places = module["source"], rules.places(teller.tables.tree(module["name"]), rule)
    first = next((it for it in places if it.at), None)
    wanted = teller.source_place(index, *language.place_of(source, first.at)) if first else None
    if wanted and (told.get("line"), told.get("column")) != wanted:
        yield f"it names {told}, and not {wanted}"
    missing = [it.what for it in places if not any(note.endswith(it.what) for note in told["notes"])]
    if missing or len(told["notes"]) < len(places):
        yield f"it says {told['notes']}, and not {missing}"


# --- Other faults -------------------------------------------------------------------------------------------------------


def faults_of_rows() -> Iterator[Tuple[bytes, str, str]]:
    """The inputs of rows that end with a fault of a line, each with its command and that fault."""
    for row in (it for it in short_rows() if it.wanted):
        last = row.wanted[-1]
        if isinstance(last, bytes) and re.match(rb"fault (schedule|reading|query|trace) ", last):
            yield row.given, row.words[0], last.decode()


def in_fault(data: bytes, command: str, last: str, told: Any) -> Found:
    """What the page and the front end say differently of a fault: its rule, and its line and column where both show these."""
    lines = Teller(kept_of(data), command, RUNNER.ask).told(last)
    place = next((re.match("line ([0-9]+) of the input(: .*)?", it) for it in lines if it.startswith("line ")), None)
    line = int(place[1]) if place else None
    caret = next((it.index("^") for it in lines if it.strip(" \t^") == "" and "^" in it), None)
    column = caret - len(place[0]) + len(place[2]) - 1 if caret is not None and place else None
    differs = [of for of, wanted in (("line", line), ("column", column)) if wanted and of in told and told[of] != wanted]
    if told["words"] != lines[0] or differs:
        yield f"of {last} it says {told}, and not {lines}"


# --- Schedules and traces -----------------------------------------------------------------------------------------------


def in_schedule(data: Input, found: List[str]) -> Found:
    """What the page and `run` say differently of the lines of a schedule."""
    last = answered("run", data.data).last.split()
    broken = last[1:2] == ["schedule"]
    at, rule = (int(last[3]), last[2]) if broken else (len(found) + 1, "")
    wrong = [(number, it) for number, it in enumerate(found[: at - 1], 1) if it]
    if last[:1] == ["end"] or broken:
        yield from (f"line {number} is accepted, and breaks {it} here" for number, it in wrong)
    if rule in ("S3", "S4", "S5", "S6", "S7") and found[at - 1] != ("S4" if rule in ("S5", "S6") else rule):
        yield f"line {at} breaks {rule}, and {found[at - 1] or 'nothing'} here"


def legal_part(head: bytes, trace: bytes) -> Tuple[List[str], Dict[str, Any]]:
    """The items of a trace that are legal, and the variables of the modules that are at no event then, as the front end has them."""
    model, items = Model(described(head)), []
    for number, text in enumerate(trace.decode().split("\n")[1:-2], 1):
        try:
            model.step(Item(number, text))
        except (Fails, KeyError, IndexError, ValueError, TypeError):
            break
        items.append(text)
    return items, {name: it.cells for name, it in model.present.items() if not it.owed}


@needs_program
@unittest.skipUnless(NODE, "there is no node")
class Page(Changes):
    maxDiff = None

    def test_deployments(self) -> None:
        heads = {it.head: None for it in given_in_rows("check", "run", "drive", "explain", "snap") if len(it.head) < MOST_HEAD}
        known = [it.decode() for it in heads if tables_of(it)]
        self.assertGreater(len(known), 100)
        self.judge(known)

    def judge(self, heads: List[str]) -> None:
        # (a page's editor has no carriage returns)
        texts = [f"{it}%%\n".replace("\r\n", "\n") for it in heads]
        made = asked("deploymentOf", [{"text": it, "last": described(head.encode()).last} for it, head in zip(texts, heads)])
        self.agree((it, head[-400:]) for head, found in zip(heads, made) if found for it in in_deployment(head, found))

    def test_changed_sources(self) -> None:
        sources = self.changed_sources()
        at = asked("leftAt", sources)
        pairs = zip(sources, at)
        self.agree((f"the grammar is left at {at}, not {left_at(it)}", it) for it, at in pairs if at != left_at(it))
        self.judge([MODULE.format(it) for it in sources if in_plain_quotes(it)])

    def test_schedules(self) -> None:
        inputs = [it for it in given_in_rows("run") if it.has_mark and tables_of(it.head)]
        found = asked("linesOf", [{"text": it.data.decode(errors="replace")} for it in inputs])
        self.agree((it, data.data[-400:].decode()) for data, lines in zip(inputs, found) if lines is not None for it in in_schedule(data, lines))

    def test_faults(self) -> None:
        known = list(faults_of_rows())
        told = asked("told", [{"text": data.decode(errors="replace"), "last": fault} for data, _, fault in known])
        self.assertGreater(len(told), 100)
        pairs = zip(known, told)
        self.agree((it, given[0][-300:].decode(errors="replace")) for given, found in pairs for it in in_fault(*given, found))

    def test_variables(self) -> None:
        traces = [(it.head, trace_of(it)) for it in given_in_rows("run") if it.has_mark]
        parts = [(head, *legal_part(head, it)) for head, it in [*traces, *self.changed_traces()] if it]
        said = [answered("describe", head + b"%%\n").output.decode() for head, _, _ in parts]
        questions = [{"text": f"{it[0].decode()}%%\n", "described": by, "items": it[1]} for it, by in zip(parts, said)]
        made = asked("valuesOf", questions)
        for (_, items, wanted), found in zip(parts, made):
            self.assertEqual({it: found[it] for it in wanted}, wanted, "\n".join(items))


if __name__ == "__main__":
    unittest.main()
