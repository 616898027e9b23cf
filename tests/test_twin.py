"""What the front end knows of the language and of legal traces is what the program does: both judge the sources and traces of the rows, and others
that are changed at random. SANCUS_SEED repeats the changes of an earlier run, which a failure names.
"""

import os
import random
import re
import unittest
from functools import lru_cache
from itertools import takewhile
from typing import Iterator, List, Tuple

from support import EXAMPLES, PROGRAM, needs_program
from test_rows import ROWS, Row, rows_of

from sancus.model import language, legality, rules, tables
from sancus.model.asking import Answer
from sancus.model.deployment import KINDS, Tables, tables_of
from sancus.model.described import Deployment
from sancus.model.described import described as described_by
from sancus.model.faults import Teller
from sancus.model.items import Item
from sancus.model.texts import MOST_HEAD, Input, kept_of
from sancus.runner import Runner

SEED = int(os.environ.get("SANCUS_SEED") or random.SystemRandom().randrange(10**6))
SOURCES, TRACES = 4000, 3000
MODULE = '[[module]]\nname = "m"\nnode = "n"\nprovider = 7\ntext = 0x4000\ndata = 0x2000\nsource = """\n{}"""\n'
TOKEN = re.compile(r"\s+|0x[0-9a-fA-F]+|\d+|[a-z_]\w*|==|!=|<=|>=|//[^\n]*|.", re.S)
POOL = (
    "sensor actuator input output var array on sample let if else repeat send emit ( ) { } [ ] ; = == != < <= > >= + - | ^ * & ~ ! 0 1 17 65535 "
    "65536 0xFFFF a b v x limit level bright // # %"
).split()
RUNNER = Runner([PROGRAM])


@lru_cache(maxsize=None)
def answered(command: str, data: bytes) -> Answer:
    """What the program answers, which is asked once: both twins are compared with it."""
    return RUNNER.answer([command], data)


@lru_cache(maxsize=None)
def described(head: bytes) -> Deployment:
    """A deployment as the program read it."""
    return described_by(RUNNER, head)


@lru_cache(maxsize=None)
def short_rows() -> List[Row]:
    return [it for file in sorted(ROWS.glob("*.rows")) for it in rows_of(file) if len(it.given) < 400_000]


def given_in_rows(*commands: str) -> List[Input]:
    """The inputs of the rows of some commands that aren't long."""
    return [Input(it.given) for it in short_rows() if it.words[:1] and it.words[0] in commands]


# --- Deployments --------------------------------------------------------------------------------------------------------


def in_deployment(head: bytes) -> Iterator[str]:
    """What the front end and `describe` say differently of a deployment."""
    deployment, found = described(head), tables_of(head)
    if not found:
        return
    place = deployment.last.split()
    if deployment.is_accepted:
        yield from in_accepted(found, deployment)
        yield from in_entries(found)
    elif place[2] == "D7":
        yield from in_grammar(found, *map(int, place[4:]))
    elif place[2] == "D8":
        yield from in_rules(found, int(place[4]), place[5])
    elif place[2] in ("D4", "D5", "D6", "D9", "D10"):
        told = Teller(kept_of(head + b"%%\n", ""), "check").told(deployment.last)
        if not [it for it in told[1:] if not it.startswith(f"{place[3]} ")]:
            yield f"nothing is said of {deployment.last}"


def in_accepted(found: Tables, deployment: Deployment) -> Iterator[str]:
    for entry in found.modules:
        module, tree = deployment.modules[str(entry["name"])], found.tree(str(entry["name"]))
        if not tree:
            yield "an accepted source isn't parsed"
            continue
        yield from (f"an accepted source breaks rule {it}" for it in rules.RULES if rules.places(tree, it))
        if tables.sizes(found, entry) != (len(module.text), len(module.data)):
            yield f"{module.name} has other sizes: {tables.sizes(found, entry)}"
        own = [(it.kind, it.name, it.value) for it in tree.cells()]
        if own != [(it.kind, it.name, it.length if it.kind == "array" else it.first) for it in module.variables]:
            yield f"{module.name} has other variables: {own}"


def in_entries(found: Tables) -> Iterator[str]:
    """What is said to be wrong with an entry of a deployment that is accepted."""
    for kind, at in ((kind, at) for kind in KINDS for at, _ in enumerate(found.entries(kind))):
        wrong = [*tables.keys(kind, found.entries(kind)[at]), *tables.names(kind, at, found)]
        if kind in ("device", "module"):
            wrong += (it for it in tables.places(kind, at, found) if not re.search("the next free place|has no room", it))
        yield from (f"{kind} {at} is accepted, and it is said: {it}" for it in wrong)


def in_grammar(found: Tables, index: int, line: int, column: int) -> Iterator[str]:
    source = found.modules[index]["source"]
    try:
        language.parse(source)
        yield "a source that isn't in the grammar is parsed"
    except language.NotInGrammar as error:
        if language.place_of(source, error.token.at) != (line, column):
            yield f"the grammar is left at {language.place_of(source, error.token.at)}, not {(line, column)}"


def in_rules(found: Tables, index: int, rule: str) -> Iterator[str]:
    tree = found.tree(str(found.modules[index]["name"]))
    if not tree:
        yield "a source in the grammar isn't parsed"
        return
    broken = [it for it in rules.RULES if rules.places(tree, it)]
    if broken[:1] != [rule]:
        yield f"it breaks rule {rule} first, and not {broken[:1]}"


def left_at(source: str) -> int:
    """Where a source leaves the grammar, or -1."""
    try:
        language.parse(source)
        return -1
    except language.NotInGrammar as error:
        return error.token.at


def in_plain_quotes(source: str) -> bool:
    """Whether a source can be in a deployment as it is."""
    return '"""' not in source and "\\" not in source and not source.endswith('"')


def changed(source: str, chance: random.Random) -> str:
    """A source with a few tokens left out, put in, replaced or exchanged."""
    tokens = TOKEN.findall(source)
    for _ in range(chance.choice([1, 1, 1, 2, 3])):
        at, other = (chance.randrange(len(tokens)) for _ in range(2))
        new = f" {chance.choice(POOL)} "
        how = chance.random()
        if how < 0.3:
            tokens[at : at + 1] = []
        elif how < 0.6:
            tokens[at:at] = [new]
        elif how < 0.8:
            tokens[at] = new
        else:
            tokens[at], tokens[other] = tokens[other], tokens[at]
        tokens = tokens or [";"]
    return "".join(tokens)


# --- Traces -------------------------------------------------------------------------------------------------------------


def in_trace(head: bytes, trace: bytes) -> Iterator[str]:
    """What the front end and `explain` say differently of a trace."""
    answer = RUNNER.answer(["explain"], head + b"%%\n" + trace)
    if answer.status not in (0, 8):
        return
    deployment = described(head)
    lines = trace.decode(errors="replace").split("\n")
    after = lines[lines.index("trace") + 1 :]
    texts = takewhile(lambda it: it not in ("end", "") and not it.startswith("fault "), after)
    items = [Item(number, text) for number, text in enumerate(texts, 1)]
    said = [it.decode().split() for it in answer.lines]
    if answer.status == 8:
        number = int(said[-1][1])
        if not legality.reason(deployment, items, number):
            yield f"no reason is found why item {number}, {items[number - 1].text}, is illegal"
        return
    legal = next(int(it[1]) for it in said if it[0] == "legal")
    model = legality.Model(deployment)
    for it in items[:legal]:
        try:
            model.step(it)
        except legality.Fails as error:
            yield f"item {it.number}, {it.text}, is legal, and refused: {error}"
            return


def trace_of(data: Input) -> bytes:
    """The trace of a run that ends well, or nothing."""
    answer = answered("run", data.data)
    begin = answer.output.find(b"trace\n")
    return answer.output[begin:] if answer.status == 0 and begin >= 0 and len(answer.output) < 300_000 else b""


def changed_items(items: List[str], chance: random.Random) -> List[str]:
    """Items of which some are left out, repeated, exchanged or of other numbers."""
    items = [*items]
    for _ in range(chance.choice([1, 1, 2])):
        at, other = (chance.randrange(len(items)) for _ in range(2))
        how = chance.random()
        if how < 0.3:
            items[at : at + 1] = []
        elif how < 0.5:
            items.insert(at, items[other])
        elif how < 0.7:
            items[at], items[other] = items[other], items[at]
        else:
            words = items[at].split(" ")
            numbers = [it for it, word in enumerate(words) if it and word.isdigit()] or [0]
            place, by = chance.choice(numbers), chance.choice([-1, 1, 2, 65536])
            words[place] = str(max(0, int(words[place]) + by)) if place else words[place]
            items[at] = " ".join(words)
        items = items or ["skip n"]
    return items


class Changes(unittest.TestCase):
    """A test of what is changed at random."""

    def setUp(self) -> None:
        self.chance = random.Random(SEED)

    def agree(self, found: Iterator[Tuple[str, str]]) -> None:
        """There are no differences; of the first ones each is shown with what it is about."""
        shown = [f"{what}\n{about}" for _, (what, about) in zip(range(3), found)]
        self.assertFalse(shown, f"SANCUS_SEED={SEED}: " + "\n\n".join(shown))

    def changed_sources(self) -> List[str]:
        whole = filter(None, (tables_of(it.head) for it in given_in_rows("check", "run", "drive") if len(it.head) < 60_000))
        found = sorted({str(it.get("source")) for tables in whole for it in tables.modules})
        sources = [it for it in found if 5 < len(it) < 1500]
        made = [changed(self.chance.choice(sources), self.chance) for _ in range(SOURCES)]
        self.assertGreater(len({*made}), SOURCES // 2)
        return made

    def changed_traces(self) -> List[Tuple[bytes, bytes]]:
        """Deployments, each with a trace of it that was changed."""
        inputs = [*given_in_rows("run"), *(Input(it.read_bytes()) for it in sorted(EXAMPLES.rglob("*.txt")))]
        runs = [(it.head, trace_of(it)) for it in inputs if it.has_mark and len(it.data) < 100_000]
        plain = [(head, trace.decode().split("\n")[1:-2]) for head, trace in runs if 10 < len(trace) < 20_000]
        self.assertGreater(len(plain), 50)
        chosen = [self.chance.choice(plain) for _ in range(TRACES)]
        made = ((head, changed_items(items, self.chance)) for head, items in chosen if items)
        return [(head, "\n".join(["trace", *items, "end", ""]).encode()) for head, items in made]


@needs_program
class Twin(Changes):
    def test_deployments(self) -> None:
        heads = {it.head: None for it in given_in_rows("check", "run", "drive", "explain", "snap") if len(it.head) < MOST_HEAD}
        self.assertGreater(len(heads), 100)
        self.agree((it, head[-400:].decode(errors="replace")) for head in heads for it in in_deployment(head))

    def test_changed_sources(self) -> None:
        plain = filter(in_plain_quotes, self.changed_sources())
        self.agree((it, source) for source in plain for it in in_deployment(MODULE.format(source).encode()))

    def test_traces(self) -> None:
        explained = [(it.head, it.rest) for it in given_in_rows("explain") if b"\ntrace\n" in b"\n" + it.rest]
        run = [(it.head, trace_of(it)) for it in given_in_rows("run") if it.has_mark]
        self.agree((it, trace[-400:].decode(errors="replace")) for head, trace in [*explained, *run] if trace for it in in_trace(head, trace))

    def test_changed_traces(self) -> None:
        self.agree((it, trace[-400:].decode()) for head, trace in self.changed_traces() for it in in_trace(head, trace))


if __name__ == "__main__":
    unittest.main()
