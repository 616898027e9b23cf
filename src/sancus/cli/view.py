"""Writes one HTML page that holds a run and draws it."""

from __future__ import annotations

import re
from pathlib import Path
from typing import List, Optional, Tuple

from sancus.cli.commands import Given, Usage
from sancus.cli.context import Context
from sancus.cli.inspecting import put_together
from sancus.cli.output import print_lines
from sancus.cli.people import as_schedule
from sancus.cli.question import Question, Refused
from sancus.cli.reading import look_at, read_all
from sancus.cli.writing import must_be_free, write_file
from sancus.model.asking import Answer, Program
from sancus.model.described import described
from sancus.model.faults import Teller
from sancus.model.inspection import are_readings
from sancus.model.property import watched_of
from sancus.model.texts import MARK, Input, Origin, kept_of
from sancus.model.traces import of_drive, trace_of
from sancus.status import BAD_TEXT, Ended
from sancus.viewer.join import joined
from sancus.viewer.pages import Drawn, Texts, is_page, of_readings, of_run, page_of, read_of

# A line that only the output of `run` or `drive` has.
OUTPUT = re.compile(rb"(?m)^(trace\r?$|image [a-z]|> )")


def page_for(given: Given, names: List[str], inputs: List[str]) -> Path:
    """Where the page is written: beside the last file, by the names of the first and the last."""
    last = Path(names[-1])
    stems = [Path(names[0]).stem, last.stem] if len(names) > 1 else [last.stem]
    page = Path(given.text("page") or last.with_name(".".join(stems) + ".html"))
    must_be_free(page, inputs, is_page, given.has("force"), "page of `view`", "--page names another")
    return page


def is_output(name: str) -> bool:
    """Whether a file has what `run` or `drive` wrote, and no lines of a schedule."""
    return bool(OUTPUT.search(look_at(name)))


def given_texts(files: List[str]) -> Texts:
    names = ("input", "output", "causes")
    return {name: read_all(it) for name, it in zip(names, files)}


def of_texts(texts: Texts, program: Program) -> Drawn:
    """A run that was made before."""
    texts.update(read_of(Input(texts["input"]).head, program))
    lines = texts["output"].split(b"\n")[:-1]
    if b"trace" not in lines:
        return Drawn(texts, trace=of_drive(Answer(0, texts["output"]))[1].output)
    return Drawn(texts, trace=b"".join(it + b"\n" for it in lines if not it.startswith(b"> ")))


def run_drawn(context: Context, given: Given, files: List[str]) -> Drawn:
    """A run that is made now; it ends here if there is nothing to draw."""
    kept, data = put_together(files, context)
    deployment = described(context.program, data.head)
    is_driven = given.has("drive") or are_readings(deployment, data)
    if is_driven and not given.has("drive"):
        context.voice.say(f"{files[-1]} has readings: the honest run of them is drawn")
    refusal: Optional[Ended] = None
    if not is_driven:
        kept, data, refusal = as_schedule(kept, data, context)
    drawn = (of_readings if is_driven else of_run)(data, context.program)
    if drawn.last.startswith("fault "):
        lines = Teller(kept, "drive" if is_driven else "run", context.program.ask).told(drawn.last)
        if drawn.last.startswith("fault deployment") or drawn.last == "fault read":
            raise Ended(BAD_TEXT, drawn.last, *lines, "there is nothing to draw")
        context.voice.say(drawn.last, *lines, "what came before is drawn")
    elif refusal:
        context.voice.must_say(*refusal.lines, "what came before is drawn")
        drawn.status = refusal.status
    elif drawn.status:
        context.voice.say(f"the program ended with status {drawn.status}; what it wrote is drawn")
    return drawn


# --- A property -------------------------------------------------------------------------------------------------------


def question(context: Context, name: str, drawn: Drawn) -> Question:
    """What is asked of a run: its deployment and a property."""
    head, text = Input(drawn.texts["input"]).head, read_all(name)
    if not drawn.trace:
        raise Ended(BAD_TEXT, f"there is no trace for {name}")
    data = b"".join(it if it.endswith(b"\n") else it + b"\n" for it in (head, MARK, text, MARK))
    kept = kept_of(data, "")
    kept.origins.append(Origin(head.count(b"\n") + 2, name, 1))
    return Question(context, name, kept, data)


def broken(asked: Question, trace: bytes) -> Tuple[int, str]:
    """The number of the item that breaks a property, and that in words; 0 if none does."""
    number = asked.broken_at(trace)
    if number is None:
        return 0, f"no item up to the end, or the first `forged`, breaks {asked.name}"
    property, texts = asked.property(), trace_of(trace).texts
    line = property.judged(map(watched_of, texts[:number]))
    source = property.source.split("\n")[line - 1].strip() if line else ""
    by = f", by line {line}: `{source}`" if line else ""
    return number, f"item {number}, `{texts[number - 1]}`, breaks {asked.name}{by}"


def mark_broken(context: Context, name: str, drawn: Drawn) -> None:
    """Puts into a run where it breaks a property, and says so."""
    try:
        number, words = broken(question(context, name, drawn), drawn.trace)
    except Refused as error:
        raise Ended(BAD_TEXT, error.ran.last, *error.told) from None
    drawn.texts["broken"] = f"{number} {words}".encode(errors="surrogateescape")
    context.voice.say(words)


def answer(context: Context, given: Given) -> int:
    files = [*given.texts("INPUT"), *given.texts("FILE")]
    if given.has("empty"):
        page = page_for(given, ["viewer"], files)
        write_file(page, joined())
        print_lines(str(page))
        return 0
    if given.has("beside"):
        # (imported here, since it draws with what is here)
        from sancus.cli import beside

        return beside.answer(context, given)
    if not files:
        raise Usage("`view` takes INPUT, or --empty", given.command)
    named = [it for it in files if Path(it).is_file()] or ["run"]
    has_output = len(files) > 1 and is_output(files[1])
    if has_output and len(files) > 3:
        raise Usage("after what `run` wrote `view` takes only what `explain` wrote of it", given.command)
    page = page_for(given, named[:2] if has_output else named, files)
    drawn = of_texts(given_texts(files), context.program) if has_output else run_drawn(context, given, files)
    if given.text("property"):
        mark_broken(context, given.text("property"), drawn)
    title = ", ".join(Path(it).name for it in dict.fromkeys([named[-1], named[0]]))
    write_file(page, page_of({**drawn.texts, "name": title.encode(errors="surrogateescape")}))
    print_lines(str(page))
    return drawn.status
