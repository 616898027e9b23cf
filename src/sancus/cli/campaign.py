"""`sancus campaign`: runs many schedules, keeps a row for each, and prints what they show."""

from __future__ import annotations

import os
import re
import sqlite3
import sys
from typing import ContextManager, List, Optional, Tuple, Union

from sancus.app import App
from sancus.campaign import Code, Plan, Property, Worker, code_of, deployment_part, plan_of, worker_of
from sancus.campaign_engines import Engine, on_a_cluster, on_this_machine, processors
from sancus.campaign_store import CHUNK, MOST_SEEDS, Outcome, Store, Summary
from sancus.cli.commands import Given, Usage
from sancus.cli.context import Context
from sancus.cli.holds import least
from sancus.cli.output import print_lines, write
from sancus.cli.progress import Progress
from sancus.cli.reading import read_all
from sancus.errors import Fault, NoCampaign, NoProgram
from sancus.model.campaign_acts import Act, said, simpler
from sancus.model.numbers import counted, number
from sancus.model.shrinking import Shrinking
from sancus.model.texts import MARK, Input
from sancus.runner import Runner
from sancus.status import BAD_TEXT, INTERRUPTED, NO_ANSWER, NO_FILE, WRITE_FAILED, Ended

SEEDS, SECONDS, FILE = "0..1000", 10, "campaign.sqlite"
WRONG = 1
# Of these options one excludes the others.
ALTERNATIVES = (("network", "hostile", "generate"), ("check", "holds"), ("show", "shrink", "merge"), ("jobs", "dask"))
KEPT = "the rows that it has stay"
GOES_ON = f"{KEPT}, and the same call goes on"


def answer(context: Context, given: Given) -> int:
    must_fit(given)
    see_installed()
    try:
        return answered(context, given)
    except NoCampaign as error:
        raise Ended(BAD_TEXT, *error.words) from None
    except NoProgram as error:
        raise Ended(NO_ANSWER, *error.words) from None
    except Fault as error:
        raise Ended(BAD_TEXT, error.text, *error.words) from None
    except sqlite3.Error as error:
        raise Ended(WRITE_FAILED, f"{file_of(given)}: {error}; {GOES_ON}") from None
    except KeyboardInterrupt:
        raise Ended(INTERRUPTED, f"interrupted: {GOES_ON}") from None


def must_fit(given: Given) -> None:
    """Refuses options that exclude each other."""
    for names in ALTERNATIVES:
        both = [f"--{it}" for it in names if given.has(it)]
        if both[1:]:
            raise Usage(f"{both[0]} and {both[1]} exclude each other", given.command)
    if given.texts("FILE") and not given.has("merge"):
        raise Usage("too many arguments: files are taken in by --merge", given.command)


def see_installed() -> None:
    """Makes installed libraries known, which `./sancus` in a clone has no need of: those of a person's own code, and
    that of --dask."""
    if sys.flags.no_site:
        import site

        site.main()


def answered(context: Context, given: Given) -> int:
    head = Input(read_all(given.text("DEPLOYMENT"))).head
    if given.has("show"):
        return summed_up(context, given, rows_of(file_of(given), head))
    if given.has("merge"):
        return merged(context, given, head)
    plan = planned(context, given, head)
    # (what can't be taken is told before processes are started, which inherit this)
    worker = worker_of(plan)
    if given.text("shrink"):
        return shrunk(context, given, worker)
    first, end = seeds_of(given)
    store = opened(file_of(given))
    store.must_be_of(plan.parts())
    run(context, engine_of(given, end - first), plan, store, first, end)
    return summed_up(context, given, store)


# --- What is given ---


def file_of(given: Given) -> str:
    return given.text("to") or FILE


def seeds_of(given: Given) -> Tuple[int, int]:
    text = given.text("seeds") or SEEDS
    found = re.fullmatch(r"([0-9]{1,19})\.\.([0-9]{1,19})", text)
    first, end = (int(found[1]), int(found[2])) if found else (1, 0)
    if not first <= end <= MOST_SEEDS:
        raise Usage(f"--seeds takes A..B, A not above B, and not `{text}`", given.command)
    return first, end


def planned(context: Context, given: Given, head: bytes) -> Plan:
    build = context.program.build()
    if not build.is_fast:
        raise Ended(NO_ANSWER, "a campaign needs a build that answers at once: `./sancus build` makes the proved one")
    app = App(head, given.text("DEPLOYMENT"), program=Runner(build.command))
    drawn = "hostile" if given.has("hostile") else "network"
    generate: Union[str, Code] = code_of(given.text("generate")) if given.text("generate") else drawn
    check = code_of(given.text("check")) if given.text("check") else property_of(given, app)
    return plan_of(app, generate, check, least(given, "seconds", SECONDS))


def property_of(given: Given, app: App) -> Optional[Property]:
    """The property that runs are asked about, which the program has accepted."""
    name = given.text("holds")
    if not name:
        return None
    text = read_all(name)
    app.said_of("watch", text, b"trace\nend\n")
    return Property(os.path.basename(name), text)


def engine_of(given: Given, seeds: int) -> ContextManager[Engine]:
    if given.text("dask"):
        return on_a_cluster(given.text("dask"))
    return on_this_machine(jobs_of(given, seeds))


def jobs_of(given: Given, seeds: int) -> int:
    """How many processes run: no more than there are chunks, of which there may be one beside whole ones at each end."""
    return min(least(given, "jobs", processors()), seeds // CHUNK + 2)


# --- Running ---


def run(context: Context, engine: ContextManager[Engine], plan: Plan, store: Store, first: int, end: int) -> None:
    """Runs the seeds of a range that have no row yet."""
    missing = list(store.missing(first, end))
    if not missing:
        return
    words: Tuple[str, ...] = ()
    progress = Progress(context.voice, end - first - store.count(first, end))
    with engine as started:
        for chunk in started.chunks(plan, missing):
            store.add(chunk.rows)
            progress.add(len(chunk.rows), sum(bool(it.outcome) for it in chunk.rows))
            words = words or chunk.words
    progress.close()
    if words:
        raise NoCampaign(*words, KEPT)


def opened(path: str, must_exist: bool = False) -> Store:
    """A file of rows."""
    try:
        return Store(path, must_exist)
    except sqlite3.Error as error:
        raise Ended(NO_FILE, f"{path} can't be opened: {error}; `--to` names another file") from None


def rows_of(path: str, head: bytes) -> Store:
    """A file that is there, with rows of a campaign of this deployment."""
    store = opened(path, must_exist=True)
    store.must_be_of(deployment_part(head))
    return store


def merged(context: Context, given: Given, head: bytes) -> int:
    """Takes in the rows of other files, which are all of one campaign."""
    store = opened(file_of(given))
    for path in given.texts("FILE"):
        other = rows_of(path, head)
        store.must_be_of(other.parts())
        store.merge(other)
    return summed_up(context, given, store)


def summed_up(context: Context, given: Given, store: Store) -> int:
    made = store.summary()
    print_lines(*told(made))
    wrong = next((it for it in made.outcomes if it.words), None)
    if wrong and not given.has("show"):
        context.voice.say(f"`--shrink {wrong.least}`, beside the same options, prints the fewest acts that do this")
    return WRONG if made.wrong else 0


def told(summary: Summary) -> List[str]:
    """A summary by outcome, the most frequent first."""
    rest = summary.kinds - len(summary.outcomes)
    return [
        f"{counted(summary.runs, 'run')}: {counted(summary.traces, 'trace')}, {counted(summary.outs, 'sequence')} of "
        f"outs, {summary.forged:,} with `forged`",
        *map(outcome_told, summary.outcomes),
        *([f"and {counted(rest, 'outcome')} more"] if rest else []),
    ]


def outcome_told(it: Outcome) -> str:
    if not it.words:
        return f"{it.runs:>12,}  nothing is wrong"
    return f"{it.runs:>12,}  {it.words}: seed {it.seed} first, seed {it.least} of {counted(it.acts, 'act')}"


# --- Shrinking ---


def shrunk(context: Context, given: Given, worker: Worker) -> int:
    """Prints the schedule of the fewest acts that does what a seed does."""
    seed = number(given.text("shrink"))
    if seed is None:
        raise Usage(f"--shrink takes a seed, and not `{given.text('shrink')}`", given.command)
    acts = worker.acts(seed)
    outcome = worker.outcome_of(acts)
    if not outcome:
        raise Ended(BAD_TEXT, f"nothing is wrong with seed {seed}")
    search: Shrinking[Act] = Shrinking(lambda it: worker.outcome_of(it) == outcome, simpler)
    made = search.least(acts)
    context.voice.say(
        f"seed {seed}: {outcome}: {counted(len(acts), 'act')} became {len(made)}, in {counted(len(search.tried), 'run')}",
        *(f"  {said(it)}" for it in made),
    )
    title = f"# Seed {seed}: {outcome}.\n".encode(errors="surrogateescape")
    write(worker.plan.head + MARK + b"\n" + title + worker.schedule(made, are_told=True))
    return 0
