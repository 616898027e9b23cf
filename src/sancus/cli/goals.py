"""`sancus goal`: applications with a planted mistake, and what a player is to make of them (examples/goals)."""

from __future__ import annotations

import re
from pathlib import Path
from typing import List, Optional

from sancus.cli.commands import Given, Usage, near
from sancus.cli.context import Context
from sancus.cli.inspecting import inspected
from sancus.cli.output import print_lines
from sancus.cli.program import Collected
from sancus.cli.question import must_know
from sancus.model import toml
from sancus.model.deployment import tables_of
from sancus.model.inspection import Inspected
from sancus.model.numbers import counted, number
from sancus.model.property import Property, watched_of
from sancus.model.shown import text_of
from sancus.model.texts import is_act
from sancus.records import dataclass, field
from sancus.status import BAD_TEXT, NOT_REACHED, Ended

FOLDER = "examples/goals"
# The lines that every player has: the modules are loaded, called and attested, and packets are carried.
CARRIER = frozenset("load ask answer call take give sense".split())
# Those of whom runs code on a node, whose second word is that node.
CODE = frozenset("put asm set run finish irq".split())


@dataclass
class Goal:
    """A goal: a deployment, the readings as they are, what the player may touch, and what is to come about: an item, or
    what breaks a property."""

    name: str
    folder: Path
    title: str
    level: int
    text: str
    touch: List[str]
    readings: List[str]
    hint: str
    note: str
    item: str = ""
    source: str = ""
    is_reachable: bool = True

    @property
    def deployment(self) -> str:
        return str(self.folder / "deployment.toml")

    def allows(self, words: List[str]) -> bool:
        """Whether the player may have this line of a schedule; of its readings nothing is said."""
        if words[0] in CODE:
            return f"code {words[1]}" in self.touch
        if words[0] == "reset":
            return f"reset {words[1]}" in self.touch
        return words[0] in CARRIER or words[0] == "forge" and "packets" in self.touch

    def aim(self) -> List[str]:
        return [f"the item `{self.item}`"] if self.item else self.source.rstrip().split("\n")


def read_goal(folder: Path) -> Goal:
    about = toml.read((folder / "goal.toml").read_text())
    property_ = folder / "goal.property"
    return Goal(
        folder.name,
        folder,
        about["title"],
        about["level"],
        about["text"].strip(),
        about.get("touch", []),
        about.get("readings", []),
        about["hint"].strip(),
        about["note"].strip(),
        about.get("item", ""),
        property_.read_text() if property_.is_file() else "",
        about.get("reachable", True),
    )


def all_goals(top: Path) -> List[Goal]:
    """The goals, from easy to hard."""
    found = [read_goal(it.parent) for it in (top / FOLDER).glob("*/goal.toml")]
    return sorted(found, key=lambda it: (it.level, it.name))


def goal_named(top: Path, name: str) -> Goal:
    names = {it.name: it for it in all_goals(top)}
    if name not in names:
        close = near(name, list(names))
        raise Ended(BAD_TEXT, f"there is no goal {name}" + (f"; did you mean `{close}`?" if close else ""))
    return names[name]


# --- A player's lines ------------------------------------------------------------------------------------------------


@dataclass
class Played:
    """A player's lines as a schedule, and the items that they gave."""

    seen: Inspected
    items: List[str] = field(default_factory=list)

    @property
    def count(self) -> int:
        """The lines that the player wrote."""
        lines = self.seen.marked if self.seen.is_driven else self.seen.given
        return sum(is_act(it.text.encode(errors="surrogateescape")) for it in lines)


def reading_of(words: List[str]) -> str:
    return f"{words[1]} {number(words[2])}"


def not_allowed(goal: Goal, seen: Inspected) -> str:
    """The first line that the player may not have, and why; empty if there is none."""
    left = list(goal.readings)
    for at, line in enumerate(seen.lines, 1):
        words = line.split()
        if not words or words[0].startswith("#") or len(words) < 2:
            continue
        if not goal.allows(words):
            return f"{seen.said(at)}: `{' '.join(words)}`: this goal lets you touch {touched(goal)}"
        if words[0] == "sense" and (not left or reading_of(words) != left.pop(0)):
            return f"{seen.said(at)}: `{line}`: the readings are {readings_said(goal)}, in this order"
    return ""


def touched(goal: Goal) -> str:
    said = {"packets": "packets that you make up", "code": "code on node ", "reset": "resets of node "}
    parts = [it.partition(" ") for it in goal.touch]
    return ", ".join(["what is on its way", *(said[what] + node for what, _, node in parts)])


def readings_said(goal: Goal) -> str:
    return ", ".join(f"`{it}`" for it in goal.readings) or "none at all"


def played(context: Context, goal: Goal, file: str) -> Played:
    made = Played(inspected([goal.deployment, file], False, context))
    sink = Collected()
    text = made.seen.head + b"%%\n" + "".join(f"{it}\n" for it in made.seen.lines).encode(errors="surrogateescape")
    ran = context.program.ran_of(["run"], text, sink)
    lines = [text_of(it) for it in sink.data().split(b"\n") if it]
    made.items = lines[lines.index("trace") + 1 : -1] if "trace" in lines else []
    if ran.last.startswith("fault "):
        raise Ended(BAD_TEXT, *made.seen.fault_told(ran.last))
    return made


def broken_at(context: Context, head: bytes, source: str, items: List[str]) -> Optional[int]:
    """The first item of a trace that breaks a property."""
    sink, trace = Collected(), "".join(f"{it}\n" for it in ["trace", *items, "end"])
    ran = context.program.ran_of(["watch"], head + b"%%\n" + source.encode() + b"%%\n" + trace.encode(), sink)
    must_know(ran, "watch")
    if ran.last.startswith("fault "):
        raise Ended(BAD_TEXT, f"the goal can't be judged: {ran.last}")
    found = re.match(rb"broken ([0-9]+)\n", sink.data())
    return int(found[1]) if found else None


def reached_at(context: Context, goal: Goal, made: Played) -> Optional[int]:
    """The item at which the goal is reached."""
    if goal.item:
        return made.items.index(goal.item) + 1 if goal.item in made.items else None
    return broken_at(context, made.seen.head, goal.source, made.items)


def missing(goal: Goal, made: Played) -> str:
    """What a run lacks in which the goal isn't reached."""
    if goal.item:
        return f"no `{goal.item}` came"
    forged = next((it for it in made.items if it.startswith("forged ")), "")
    if forged:
        return f"`{forged}` came, and what follows a `forged` isn't judged"
    failing = Property(goal.name, goal.source).failing
    came = [it for it in made.items if watched_of(it)[:2] in failing]
    if came:
        return f"{', '.join(f'`{it}`' for it in came[-3:])} came, and broke nothing"
    return f"no {' or '.join(f'`{kind} {name}`' for kind, name in failing)} came"


# --- Answers ---------------------------------------------------------------------------------------------------------


def listed(context: Context) -> int:
    goals = all_goals(Path(context.top))
    if not goals:
        raise Ended(BAD_TEXT, f"there are no goals here: {FOLDER} of the repository has them")
    width = max(len(it.name) for it in goals)
    print_lines(*(f"{it.level}  {it.name:<{width}}  {it.title}" for it in goals))
    return 0


def described(goal: Goal, given: Given) -> int:
    if given.has("hint"):
        print_lines(*goal.hint.split("\n"))
        return 0
    lines = [f"{goal.title} (level {goal.level})", "", *goal.text.split("\n"), ""]
    lines += [f"deployment: {goal.deployment}", f"readings: {readings_said(goal)}", f"you may touch: {touched(goal)}"]
    print_lines(*lines, "to be reached:", *(f"  {it}" for it in goal.aim()))
    return 0


def judged(context: Context, goal: Goal, file: str) -> int:
    made = played(context, goal, file)
    wrong = not_allowed(goal, made.seen)
    if wrong:
        print_lines(f"not allowed: {wrong}")
        return NOT_REACHED
    at = reached_at(context, goal, made)
    if not at:
        print_lines(f"not reached: {missing(goal, made)}")
        return NOT_REACHED
    print_lines(f"reached, {counted(made.count, 'line')}")
    context.voice.say(f"item {at}, `{made.items[at - 1]}`", *goal.note.split("\n"))
    return 0


def never(context: Context, goal: Goal) -> int:
    """The player says that the goal can't be reached: the program's proof tells."""
    head = Path(goal.deployment).read_bytes()
    text = head + b"%%\n" + goal.source.encode() + b"%%\n"
    ran = context.program.ran_of(["holds"], text, Collected()) if goal.source else None
    if ran is not None:
        must_know(ran, "holds")
    if ran is None or ran.status:
        print_lines("not so: it can be reached")
        return NOT_REACHED
    print_lines("right: it can't be reached")
    context.voice.say(*goal.note.split("\n"))
    return 0


def answer(context: Context, given: Given) -> int:
    name, files = given.text("NAME"), given.texts("LINES")
    if not name:
        return listed(context)
    goal = goal_named(Path(context.top), name)
    if tables_of(Path(goal.deployment).read_bytes()) is None:
        raise Ended(BAD_TEXT, f"{goal.deployment} can't be read")
    if given.has("never"):
        if files:
            raise Usage("`goal --never` takes no lines", given.command)
        return never(context, goal)
    return judged(context, goal, files[0]) if files else described(goal, given)
