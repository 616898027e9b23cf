"""`sancus live`: a session with an application, at a terminal or from a pipe."""

from __future__ import annotations

import cmd
import sys
from pathlib import Path
from typing import Any, Iterable, List, Tuple

from sancus.app import App
from sancus.cli.commands import Given
from sancus.cli.context import Context
from sancus.cli.output import print_lines
from sancus.cli.reading import read_all
from sancus.cli.writing import must_be_free, write_file
from sancus.errors import Fault, Refused
from sancus.items import Item
from sancus.live import Live
from sancus.model.acts import ACTS
from sancus.model.deployment import KINDS
from sancus.model.items import Item as Words
from sancus.model.items import say
from sancus.model.numbers import counted, number
from sancus.model.schedule import FORMS
from sancus.model.shown import text_of
from sancus.model.texts import MARK, Input
from sancus.model.variables import State
from sancus.status import BAD_TEXT, Ended

# How a session begins that was saved, and may be saved again.
BEGUN = "# A session of `sancus live`."
HELP = (
    ("LINE", "does a line of a schedule, or one for people, and shows its items"),
    ("net", "shows which events are on their way"),
    ("deliver N", "hands event N to its module"),
    ("twice N", "hands it to its module two times"),
    ("drop N", "loses it"),
    ("undo [ACTS]", "takes back the last act, or so many"),
    ("vars MODULE", "shows a module's variables and ends"),
    ("why [ITEM]", "shows the causes of an item, by its number or how it begins; of the last `out`"),
    ("legal", "says whether the sources allow all of it"),
    ("save FILE", "writes the deployment and the lines so far"),
    ("quit", "ends the session, as Ctrl-D does"),
)


def item_line(it: Item, live: Live) -> str:
    return f"  {it.number:>3} {it.text:<28} {say(Words(it.number, it.text), live.app.deployment)}".rstrip()


def state_lines(state: State) -> List[str]:
    if not state.is_protected:
        return [f"  {state.module} isn't there, at boot {state.boot} of its node"]
    cells = [f"  {name} = {value}" for name, value in state.variables.items()]
    opened = [f"{name} ({side})" for (name, side), counts in state.ends.items() if counts]
    return [*cells, f"  open: {' '.join(opened) or 'no end'}"]


class Shell(cmd.Cmd):
    """Reads acts, one a line, and shows what they gave."""

    def __init__(self, live: Live, context: Context) -> None:
        super().__init__()
        self.live, self.context = live, context
        self.is_typed = sys.stdin.isatty()
        self.use_rawinput = self.is_typed
        self.prompt = "sancus> " if self.is_typed else ""

    def onecmd(self, line: str) -> bool:
        """Does an act. One that can't be done is explained; from a pipe it ends the session."""
        try:
            return bool(super().onecmd(line))
        except Refused as error:
            if not self.is_typed:
                raise Ended(BAD_TEXT, *error.words) from None
            self.context.voice.must_say(*error.words)
        except Ended as error:
            if not self.is_typed:
                raise
            self.context.voice.must_say(*error.lines)
        return False

    def show(self, items: Iterable[Item]) -> None:
        notes = self.live.schedule.writer.notes
        print_lines(*(item_line(it, self.live) for it in items))
        self.context.voice.say(*notes)
        notes.clear()
        if self.live.waiting:
            self.do_net("")

    def number(self, text: str) -> int:
        found = number(text.strip() or "1")
        if found is None:
            raise Refused(text, f"`{text}` is no number")
        return found

    def default(self, line: str) -> None:
        self.show(self.live.line(line))

    def emptyline(self) -> bool:
        return False

    def do_EOF(self, _: str) -> bool:
        if self.is_typed:
            print_lines("")
        return True

    def do_quit(self, _: str) -> bool:
        return True

    def do_help(self, _: str) -> None:
        print_lines(*(f"  {name:<12} {says}" for name, says in HELP), f"  lines: {' '.join([*FORMS, *ACTS])}")

    def do_net(self, _: str) -> None:
        print_lines(*(f"  on its way {it}" for it in map(str, self.live.waiting)))
        if not self.live.waiting:
            print_lines("  nothing is on its way")

    def do_deliver(self, text: str) -> None:
        self.show(self.live.deliver(self.number(text)))

    def do_twice(self, text: str) -> None:
        self.show(self.live.twice(self.number(text)))

    def do_drop(self, text: str) -> None:
        self.live.drop(self.number(text))
        self.do_net("")

    def do_undo(self, text: str) -> None:
        self.live.undo(self.number(text))
        print_lines(f"  {len(self.live.lines)} lines are left")
        self.do_net("")

    def do_vars(self, text: str) -> None:
        print_lines(*state_lines(self.live.variables(text.strip())))

    def do_why(self, text: str) -> None:
        print_lines(*(f"  {it}" for it in self.live.why(text.strip()).split("\n")))

    def do_legal(self, _: str) -> None:
        print_lines(*(f"  {it}" for it in self.live.verdict()))

    def do_save(self, text: str) -> None:
        path = Path(text.strip())
        if not text.strip():
            raise Refused("save", "`save FILE` names a file")
        must_be_free(path, [], lambda it: f"\n{BEGUN}\n" in it, None, "session", "name another file")
        lines = [text_of(MARK), BEGUN, *(it for it in self.live.lines if it != BEGUN)]
        write_file(path, text_of(self.live.app.head) + "".join(f"{it}\n" for it in lines))
        print_lines(f"  {path}")

    # --- Completion at a terminal ---

    def completenames(self, text: str, *_: object) -> List[str]:
        own = [it.partition(" ")[0] for it, _ in HELP[1:]]
        return [it for it in (*own, *FORMS, *ACTS) if it.startswith(text)]

    def completedefault(self, *given: Any) -> List[str]:
        names = [name for kind in KINDS for name in self.live.app.deployment.names(kind)]
        return [it for it in names if it.startswith(given[0])]

    complete_vars = completedefault


def placed(name: str, text: bytes, first: int = 1) -> List[Tuple[str, str]]:
    """The lines of a file from one on, each with its place, and without a mark."""
    lines = enumerate(Input(MARK + b"\n" + text).schedule, first)
    return [(f"{name}:{at}", text_of(it)) for at, it in lines if it != MARK]


def begun(context: Context, files: List[str]) -> Live:
    """A session of a deployment, after the lines that are given with it."""
    first, *more = files
    data = Input(read_all(first))
    lines = placed(first, data.rest, data.head.count(b"\n") + 2)
    lines += [line for name in more for line in placed(name, read_all(name))]
    left = iter(lines)
    try:
        return Live(App(data.head, first, program=context.program), (text for _, text in left))
    except Fault as fault:
        raise Ended(BAD_TEXT, fault.text, *fault.words) from None
    except Refused as error:
        place, _ = lines[-1 - len(list(left))]
        raise Ended(BAD_TEXT, f"{place}: {error.line}: {error.words[0]}", *error.words[1:]) from None


def answer(context: Context, given: Given) -> int:
    files = [given.text("DEPLOYMENT"), *given.texts("LINES")]
    with begun(context, files) as live:
        shell = Shell(live, context)
        if shell.is_typed:
            print_lines("lines of a schedule or for people; `help` lists what else there is")
        if live.schedule.items:
            print_lines(f"  {counted(len(live.schedule.items), 'item')} so far")
            shell.show([])
        shell.cmdloop()
    return 0
