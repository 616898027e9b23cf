"""The causes of a trace as chains of items, in words: from what the program's `explain` says."""

from __future__ import annotations

from typing import Dict, Iterator, List, Optional

from sancus.model import forged, refusals
from sancus.model.asking import Program
from sancus.model.described import Deployment, described
from sancus.model.faults import Teller
from sancus.model.inspection import Inspected
from sancus.model.items import ITEMS, Item, say
from sancus.model.legality import reason
from sancus.model.numbers import number
from sancus.model.shown import text_of
from sancus.model.texts import Input, Kept
from sancus.records import dataclass, field
from sancus.status import BAD_TEXT, Ended

# How many items of a module are shown before an illegal one.
BEFORE = 6
# How many items, or beginnings of items, are named at most.
MOST_NAMED = 12
SAID_CAUSE = {
    "read": "the sensor's last sample",
    "take": "where this event was sent",
    "out": "the last event that triggered it",
}
# Items with which a call begins what its `done` ends.
BEGINS = ("take", "read", "vouch", "open")


@dataclass
class Explained:
    """A trace, and what the program says of it."""

    items: List[Item]
    deployment: Deployment
    causes: Dict[int, int] = field(default_factory=dict)
    legal: Optional[int] = None
    illegal: Optional[int] = None
    forged: Optional[int] = None
    last: str = ""
    # what a fault in `last` means
    about_fault: List[str] = field(default_factory=list)
    status: int = 0
    # the schedule, if the items come from a run of it, and for each item the line that gave it
    seen: Optional[Inspected] = None
    lines: List[int] = field(default_factory=list)

    def item(self, at: int) -> Item:
        return self.items[at - 1]


def items_of(lines: List[bytes]) -> List[Item]:
    """The items after `trace`."""
    start = lines.index(b"trace") + 1 if b"trace" in lines else len(lines)
    texts = [text_of(it) for it in lines[start:]]
    return [Item(at, it) for at, it in enumerate((it for it in texts if it.split(" ")[0] in ITEMS), 1)]


def judged(kept: Kept, data: Input, program: Program) -> Explained:
    """Has the program judge a trace, and takes apart what it says."""
    answer = program.answer(["explain"], data.data)
    made = Explained(items_of(data.schedule), described(program, data.head), status=answer.status)
    for line in map(text_of, answer.lines):
        words = line.split(" ")
        if words[0] == "because":
            made.causes[int(words[1])] = int(words[2])
        elif words[0] in ("legal", "illegal", "forged") and len(words) == 2:
            setattr(made, words[0], int(words[1]))
        made.last = line
    if made.last.startswith("fault "):
        made.about_fault = Teller(kept, "explain", program.ask).told(made.last)
    return made


def told(made: Explained, at: int) -> str:
    item = made.item(at)
    said = forged.said(made.items, at, made.deployment) if item.kind == "forged" else say(item, made.deployment)
    line = made.lines[at - 1] if made.lines else None
    where = f", at {made.seen.said(line)}" if made.seen and line else ""
    return f"{at} {item.text}: {said}{where}"


def chain(made: Explained, at: int) -> Iterator[str]:
    """An item, and its causes back to the first."""
    yield told(made, at)
    yield from because(made, at)


def because(made: Explained, at: int) -> Iterator[str]:
    while at in made.causes:
        kind, at = made.item(at).kind, made.causes[at]
        yield f"  because of {told(made, at)}" + (f" ({SAID_CAUSE[kind]})" if kind in SAID_CAUSE else "")


def of_module(made: Explained, at: int) -> List[int]:
    """The last items of the module, or device, of an item, before it; and the event that it is about if it is a
    `take`."""
    fields = made.item(at).fields()
    key = next((it for it in ("module", "device", "node") if fields.get(it)), None)
    if not key:
        return []
    same = [it.number for it in made.items[: at - 1] if it.fields().get(key) == fields[key]]
    return same[-BEFORE:]


def why_illegal(made: Explained, at: int) -> Iterator[str]:
    """The items that lead to an illegal one, and the condition that fails."""
    for it in of_module(made, at):
        yield told(made, it)
    yield f"illegal: {told(made, at)}"
    found = reason(made.deployment, made.items, at)
    yield f"  {found}" if found else "  the sources don't allow it after the items before it"


def chosen(made: Explained, words: str) -> int:
    """The item that is asked about: the one of this number, the last that begins with these words, the illegal one, or
    the last `out`."""
    if not words:
        outs = [it.number for it in made.items if it.kind == "out" and it.number in made.causes]
        if made.illegal or outs:
            return made.illegal or outs[-1]
        raise Ended(BAD_TEXT, "the trace has no `out`, and nothing illegal: say which item is meant")
    at = number(words)
    if at is None:
        found = all_that_begin(made, words)
        if not found:
            raise Ended(BAD_TEXT, f"no item begins with `{words}`{others(made, words.split())}")
        return found[-1]
    if not at or at > len(made.items):
        raise Ended(BAD_TEXT, f"{words} is no item: the trace has {len(made.items)}, counted from 1 after `trace`")
    return at


def all_that_begin(made: Explained, words: str) -> List[int]:
    """The items that begin with some words, as `out alarm`."""
    wanted = words.split()
    return [it.number for it in made.items if it.words[: len(wanted)] == wanted]


def others_named(made: Explained, words: str) -> List[str]:
    """Which further items words name, of which the last is the one that is asked about."""
    found = all_that_begin(made, words) if words and number(words) is None else []
    if len(found) < 2:
        return []
    shown = " ".join(map(str, found[-MOST_NAMED:]))
    more = "" if len(found) <= MOST_NAMED else ".. "
    return [f"{len(found)} items begin with `{words}`, and this is the last of them: {more}{shown}"]


def others(made: Explained, words: List[str]) -> str:
    """What could have been meant by words with which no item begins."""
    device = made.deployment.devices.get(words[1]) if len(words) > 1 else None
    if device and device.driver and words[0] in ("out", "read"):
        return f": an item names the module, and {device.driver} drives {device.name}"
    same = sorted({" ".join(it.words[:2]) for it in made.items if it.kind == words[0]})
    kinds = sorted({it.kind for it in made.items})
    return f"; the trace has: {', '.join(f'`{it}`' for it in (same or kinds)[:MOST_NAMED])}"


def must_be_judged(made: Explained) -> None:
    if made.last.startswith("fault "):
        raise Ended(BAD_TEXT, f"the trace isn't judged: {made.last}", *made.about_fault)


def why(made: Explained, at: int) -> Iterator[str]:
    """Why an item came: its chain of causes, or the condition that it breaks."""
    if at == made.illegal:
        yield from why_illegal(made, at)
        return
    yield from chain(made, at)
    if at not in made.causes:
        yield from (f"  {it}" for it in grounds(made, at))


def grounds(made: Explained, at: int) -> List[str]:
    """Why there is an item without a cause, as far as that is known."""
    item = made.item(at)
    if item.kind == "done" and item.fields()["status"] == 1:
        return called_for(made, at) or no_cause(made, at)
    if item.kind not in refusals.BY_ITEM:
        return no_cause(made, at)
    line = made.lines[at - 1] if made.lines else None
    if made.seen and line:
        same = [it.number for it in made.items[: at - 1] if it.text == item.text and made.lines[it.number - 1] == line]
        return refusals.told(refusals.Moment(made.seen, item, made.items[: at - 1], line, len(same)))
    return ["a trace doesn't tell by which line: `sancus why DEPLOYMENT SCHEDULE ITEM` does, and why"]


def called_for(made: Explained, at: int) -> List[str]:
    """What a module did at the call that a `done` ends, with its causes."""
    module = made.item(at).fields()["module"]
    for it in reversed(made.items[: at - 1]):
        if it.fields().get("module") != module or it.kind not in (*BEGINS, "done"):
            continue
        if it.kind == "done":
            break
        more = [line.strip() for line in because(made, it.number)]
        return [f"because of {told(made, it.number)} (what it was called for)", *more]
    return []


def no_cause(made: Explained, at: int) -> List[str]:
    if made.illegal and at > made.illegal:
        return [f"item {made.illegal} is illegal, and nothing after it is judged"]
    if at == made.forged:
        return [forged.AFTER]
    if made.forged and at > made.forged:
        return [f"nothing is judged from the first `forged` on, item {told(made, made.forged)}"]
    kind = made.item(at).kind
    if kind == "sense":
        return ["a sample comes from outside: here the chain ends"]
    return ["the causes of a `read`, a `take` and an `out` are told, and no others"]


def in_words(made: Explained) -> Iterator[str]:
    """All that `explain` says of a trace, in words."""
    for item in made.items:
        if item.number in made.causes:
            cause = made.item(made.causes[item.number])
            yield f"{told(made, item.number)}; because of {cause.number} {cause.text}"
    if made.illegal:
        yield from why_illegal(made, made.illegal)
    if made.legal is not None:
        yield f"legal: the first {made.legal} items are a legal run of the sources"
    if made.forged:
        yield f"forged: {told(made, made.forged)}; what comes after it isn't judged"
    if made.last.startswith("fault "):
        yield made.last
