"""What is said of a run: faults in words, warnings, and what a `forged` and a `finish` show."""

from __future__ import annotations

import os
from typing import Callable, List, Optional

from sancus.cli.commands import Given
from sancus.cli.context import Context
from sancus.cli.program import Ran
from sancus.cli.reading import is_regular, open_file
from sancus.model import forged, warnings
from sancus.model.described import Deployment, described
from sancus.model.faults import Teller
from sancus.model.lines import run_by_line
from sancus.model.session import Stopped, snapped
from sancus.model.shown import text_of
from sancus.model.texts import MOST_HEAD, Input, Kept, find_mark, kept_of
from sancus.model.toml import NoReader
from sancus.status import WITH_A_FAULT, Ended


def warn(context: Context, given: Given, files: List[str], ran: Ran) -> None:
    """Says what the rules allow and hardly anybody wants, unless the deployment broke a rule, which comes first."""
    if context.voice.is_quiet or given.command.name not in ("run", "check", "drive") or ran.status == 1:
        return
    if files[0] == "-":
        if not os.isatty(0) and find_mark(bytes(ran.kept.first)):
            warn_of(context, ran.kept)
        return
    fd = open_file(files[0])
    if is_regular(fd):
        warn_of(context, kept_of(os.pread(fd, 1 << 19, 0), files[0]))
    os.close(fd)


def words_of(words: Callable[[], List[str]]) -> List[str]:
    """Words about an input, or none if finding them fails: however odd an input is, the program's answer is kept."""
    try:
        return words()
    except NoReader as error:
        return error.lines
    except Ended:
        raise
    except Exception:  # noqa: BLE001
        if os.environ.get("SANCUS_TRACEBACK"):
            raise
        return []


def warn_of(context: Context, kept: Kept) -> None:
    teller = Teller(kept, "check")
    if len(teller.head) < MOST_HEAD:
        context.voice.say(*words_of(lambda: warnings.of_text(teller)))


def warn_after(context: Context, given: Given, ran: Ran) -> None:
    """Says what only a run shows: a `finish` after which the next instruction breaks a rule."""
    if given.command.name != "run" or ran.status != 0 or not ran.kept.is_whole() or context.voice.is_quiet:
        return
    data = Input(bytes(ran.kept.first))
    if not any(it.split()[:1] == [b"finish"] for it in data.schedule):
        return
    context.voice.say(*after_finish(context, data, ran.kept))


def about_forged(context: Context, kept: Kept) -> List[str]:
    """What the first `forged` of a run says, and the line that shows it."""
    data = Input(bytes(kept.first))
    if not kept.is_whole() or not context.program.is_fast:
        return [f"the trace has an item `forged`, and `sancus explain --words` says what was accepted; {forged.AFTER}"]
    pairs = [(line, text_of(item)) for line, item in run_by_line(data.data, context.program).items]
    said, line = forged.notes(pairs, [text_of(it) for it in data.schedule], described(context.program, data.head))
    teller = Teller(kept, "run")
    return [said, *teller.shown(teller.mark + line), forged.AFTER]


def after_finish(context: Context, data: Input, kept: Kept) -> List[str]:
    """The `finish` lines that end with PC in a section of a module that doesn't run there."""
    lines = [text_of(it) for it in data.schedule]
    ends = [(at, it.split()[1]) for at, it in enumerate(lines, 1) if it.split()[:1] == ["finish"]][:64]
    if not context.program.is_fast:
        return []
    deployment = described(context.program, data.head)
    try:
        answers = snapped(context.program, data.head, lines, [f"regs {node} {at}" for at, node in ends])
    except Stopped:
        return []
    teller, made = Teller(kept, "run"), []
    for (at, node), answer in zip(ends, answers):
        pc = int(answer.split(" ")[3], 16)
        module = inside(deployment, node, pc)
        if module:
            made += [
                f"warning: this `finish` ends before code outside runs an instruction of {module}, at 0x{pc:04x}: that "
                f"is the one which breaks a rule (`run {node} 1` shows it)",
                *teller.shown(teller.mark + at),
            ]
    return made


def inside(deployment: Deployment, node: str, pc: int) -> Optional[str]:
    """The module in whose sections an address lies, but at its entry."""
    for it in deployment.modules.values():
        if it.node == node and pc != it.text.start and (pc in it.text or pc in it.data):
            return it.name
    return None


def tell(context: Context, given: Given, ran: Ran) -> List[str]:
    """What a run that ended in a fault means, in words."""
    if ran.status not in WITH_A_FAULT and not ran.last.startswith("fault read"):
        return []
    ask = context.program.ask if context.program.is_fast else (lambda _words, _text: b"")
    return words_of(lambda: Teller(ran.kept, given.command.name, ask).told(ran.last))


def say_of(context: Context, given: Given, files: List[str], ran: Ran, has_forged: bool) -> None:
    """Says all that is to be said of a run."""
    context.voice.say(*tell(context, given, ran))
    warn(context, given, files, ran)
    warn_after(context, given, ran)
    if has_forged and given.command.name == "run":
        context.voice.say(*words_of(lambda: about_forged(context, ran.kept)))
