"""Campaigns: many schedules of one deployment, each of them drawn by a seed.

A seed gives acts, these a schedule, that a run, and the run a row. A row depends on its seed and the plan alone, so a
campaign is a set of seeds: by them it is split, goes on and is done again, and no trace is kept.
"""

from __future__ import annotations

import hashlib
import os
import platform
import signal
import sys
import time
import traceback
from dataclasses import dataclass
from functools import lru_cache, partial
from pathlib import Path
from random import Random
from types import ModuleType
from typing import Any, Callable, Dict, Iterable, Iterator, List, NamedTuple, Optional, Tuple, Union, get_args

from sancus import __version__
from sancus.app import App, bytes_of
from sancus.batch import BROKEN_OFF, WHOLE, answers
from sancus.builds import sum_of, sum_of_file
from sancus.errors import Fault, NoCampaign, NoProgram
from sancus.model import campaign_acts, generators, scribe
from sancus.model.campaign_acts import Act, Carry, Change, Fate, Hold, Reading, Replay, Reset, Sample
from sancus.model.generators import Drawing, NothingToDraw
from sancus.model.scribe import Layout
from sancus.run import Run
from sancus.runner import Runner, runner

__all__ = [
    "Act", "Carry", "Change", "Chunk", "Code", "Fate", "Hold", "Layout", "Plan", "Property", "Reading", "Replay", "Reset",
    "Row", "Sample", "Worker", "code_of", "plan_of", "run_chunk",
]  # fmt: skip

ACTS = get_args(Act)
# A chunk of seeds ends after so many seconds, so that little is lost with a process that is ended.
SECONDS_A_CHUNK = 2.0
# At most so many seeds run together.
MOST_TOGETHER = 128
# What a run ends with that is ended for its time.
TOO_LONG = -signal.SIGXCPU


@dataclass(frozen=True)
class Code:
    """A function of a file, whose text goes along: another machine needs no such file."""

    path: str
    function: str
    text: str

    @property
    def key(self) -> str:
        """What tells it from others, wherever its file is."""
        return f"{self.function} of {self.text}"

    def loaded(self) -> Callable[..., Any]:
        module = ModuleType(f"sancus_campaign_{sum_of(self.text.encode())[:12]}")
        module.__file__ = self.path
        folder = os.path.dirname(os.path.abspath(self.path))
        if folder not in sys.path:
            sys.path.insert(0, folder)
        sys.modules[module.__name__] = module
        try:
            exec(compile(self.text, self.path, "exec"), module.__dict__)
        except (Exception, SystemExit) as error:  # noqa: BLE001 (it is somebody else's)
            raise NoCampaign(f"{self.path} can't be taken: {self.place(error)}{said_of(error)}") from None
        found = getattr(module, self.function, None)
        if not callable(found):
            raise NoCampaign(f"{self.path} has no function {self.function}")
        return partial(self.called, found)

    def called(self, function: Callable[..., Any], *values: Any) -> Any:
        try:
            return function(*values)
        except (Exception, SystemExit) as error:  # noqa: BLE001 (it is somebody else's)
            raise NoCampaign(f"{self.path}: {self.function} fails: {self.place(error)}{said_of(error)}") from None

    def place(self, error: BaseException) -> str:
        """The line of the file that an error is about, if it is about one."""
        lines = [it.lineno for it in traceback.extract_tb(error.__traceback__) if it.filename == self.path]
        return f"line {lines[-1]}: " if lines else ""


def said_of(error: BaseException) -> str:
    return f"{type(error).__name__}: {error}"


def code_of(named: str) -> Code:
    """The function that FILE:FUNCTION names."""
    path, _, function = named.rpartition(":")
    if not path or not function.isidentifier():
        raise NoCampaign(f"{named} isn't FILE:FUNCTION")
    try:
        return Code(path, function, Path(path).read_text("utf-8"))
    except (OSError, ValueError) as error:
        raise NoCampaign(f"{path} can't be read: {error.strerror if isinstance(error, OSError) else error}") from None


@dataclass(frozen=True)
class Property:
    """A property, and its file's name."""

    name: str
    text: bytes

    @property
    def key(self) -> str:
        return f"{self.name}: {self.text!r}"


@dataclass(frozen=True)
class Plan:
    """What a campaign consists of beside its seeds, in plain values: other processes and machines are sent it."""

    head: bytes
    # the command that starts the program, and the sum of its file
    command: Tuple[str, ...]
    program: str
    # `network` or `hostile`, or a function of the layout and a Random
    generate: Union[str, Code]
    check: Union[Code, Property, None]
    # how many seconds of a processor each run may take
    seconds: int
    # the sum of what draws and writes schedules here
    version: str

    def parts(self) -> Dict[str, str]:
        """A sum of each part of which rows depend."""
        made = {
            "generator": self.generate.key if isinstance(self.generate, Code) else self.generate,
            "check": self.check.key if self.check else "",
            "limit of time": str(self.seconds),
            "program": self.program,
            "version of sancus": self.version,
        }
        sums = {name: sum_of(it.encode(errors="surrogateescape")) for name, it in made.items()}
        return {**deployment_part(self.head), **sums}


def plan_of(
    app: App, generate: Union[str, Code] = "network", check: Union[Code, Property, None] = None, seconds: int = 10
) -> Plan:
    """The plan of a campaign of an application."""
    command = tuple(app.program.command([]))
    return Plan(app.head, command, sum_of_program(command), generate, check, seconds, version())


@lru_cache(maxsize=1)
def version() -> str:
    """The sum of what rows depend on in this package."""
    own = [Path(str(it.__file__)).read_bytes() for it in (campaign_acts, generators, scribe)]
    return sum_of(b"\0".join([__version__.encode(), *own]))


def deployment_part(head: bytes) -> Dict[str, str]:
    """The sum of a campaign's deployment, by its name."""
    return {"deployment": sum_of(head.rstrip(b"\n"))}


def sum_of_program(command: Iterable[str]) -> str:
    """The sum of the file that a command starts, or has a host start."""
    return sum_of_file([*command][-1])


class Row(NamedTuple):
    """What is kept of a run: what is wrong with it in words, or nothing; how many acts it was of; its items, what was
    put out, the number of the first `forged` or 0; and a sum of its trace."""

    seed: int
    outcome: str
    acts: int
    items: int
    outs: str
    forged: int
    trace: str


@dataclass(frozen=True)
class Chunk:
    """The rows of some seeds, in order; which seeds are left; and why it can't go on, if it can't."""

    rows: List[Row]
    rest: Tuple[int, int]
    words: Tuple[str, ...] = ()


class Drawn(NamedTuple):
    """A seed, how many acts it gives, and their schedule."""

    seed: int
    acts: int
    schedule: bytes


class Worker:
    """Runs seeds of a plan."""

    def __init__(self, plan: Plan) -> None:
        if plan.version != version():
            raise NoCampaign(f"the package sancus on {platform.node()} isn't the one of the campaign")
        self.plan = plan
        self.app = App(plan.head, program=program_of(plan))
        self.layout = Layout(self.app.deployment)
        self.generate = self.generator()
        self.check = plan.check.loaded() if isinstance(plan.check, Code) else None

    def generator(self) -> Callable[[Random], Any]:
        named = self.plan.generate
        if isinstance(named, Code):
            return partial(named.loaded(), self.layout)
        try:
            drawing = Drawing(self.layout)
        except NothingToDraw as error:
            raise NoCampaign(str(error)) from None
        return drawing.network if named == "network" else drawing.hostile

    def acts(self, seed: int) -> List[Act]:
        """The acts of a seed."""
        made = self.generate(Random(f"sancus {seed}"))
        if not isinstance(made, (list, tuple)) or not all(isinstance(it, ACTS) for it in made):
            raise NoCampaign(f"a generator returns a list of acts, and not {str(made)[:60]}")
        return list(made)

    def schedule(self, acts: Iterable[Act], are_told: bool = False) -> bytes:
        """The schedule of acts, perhaps with comments that tell them."""
        try:
            return bytes_of(self.layout.lines(acts, are_told))
        except KeyError as error:
            raise NoCampaign(f"an act names {error}, which the deployment doesn't have") from None

    def rows(self, seeds: Iterable[int]) -> Iterator[Row]:
        """The rows of seeds. If no schedule can be made of one, these are the rows before it, and then why."""
        drawn: List[Drawn] = []
        reason: Optional[NoCampaign] = None
        try:
            for seed in seeds:
                acts = self.acts(seed)
                drawn.append(Drawn(seed, len(acts), self.schedule(acts)))
        except NoCampaign as error:
            reason = error
        for it, answer in zip(drawn, answers(self.app, [it.schedule for it in drawn])):
            yield self.row(it.seed, it.acts, Run(self.app, it.schedule, answer))
        if reason:
            raise reason

    def row(self, seed: int, acts: int, run: Run) -> Row:
        if run.status == TOO_LONG:
            # (how far it came differs from time to time)
            return Row(seed, self.outcome(run), acts, 0, "", 0, "")
        texts = run.texts
        outs = ", ".join(it[len("out ") :] for it in texts if it.startswith("out "))
        forged = next((at for at, it in enumerate(texts, 1) if it.startswith("forged ")), 0)
        trace = hashlib.sha256(run.printed).hexdigest()[:16]
        return Row(seed, self.outcome(run), acts, len(texts), outs, forged, trace)

    def outcome_of(self, acts: Iterable[Act]) -> str:
        """What is wrong with the run of acts, or nothing."""
        schedule = self.schedule(acts)
        answer = next(answers(self.app, [schedule]))
        return self.outcome(Run(self.app, schedule, answer))

    def outcome(self, run: Run) -> str:
        """What is wrong with a run, or nothing."""
        if run.status == TOO_LONG:
            return f"took longer than {self.plan.seconds} s"
        if run.status == BROKEN_OFF:
            return f"broke off: {run.trace.last.rpartition(' ')[0]}"
        if run.status != WHOLE:
            raise NoProgram(f"the program ended with status {run.status}: {run.trace.last}")
        if isinstance(self.plan.check, Property):
            return f"breaks {self.plan.check.name}" if run.broken_at(self.plan.check.text) else ""
        return self.checked(run) if self.check else ""

    def checked(self, run: Run) -> str:
        assert self.check
        said = self.check(run)
        if said is not None and not isinstance(said, str):
            raise NoCampaign(f"a check returns what is wrong in words, or None, and not {str(said)[:60]}")
        return said or ""


def program_of(plan: Plan) -> Runner:
    """The plan's program, as it is started on this machine."""
    words = list(plan.command)
    if sum_of_program(words) != plan.program:
        words = runner().words
    if sum_of_program(words) != plan.program:
        raise NoProgram(f"the program on {platform.node()} isn't the one of the campaign")
    return Runner(words, processor_seconds=plan.seconds)


@lru_cache(maxsize=2)
def worker_of(plan: Plan) -> Worker:
    return Worker(plan)


def run_chunk(plan: Plan, first: int, end: int) -> Chunk:
    """The rows of the first seeds of a range, as many as some seconds allow. That is what other processes and machines
    are asked for."""
    rows: List[Row] = []
    until = time.monotonic() + SECONDS_A_CHUNK
    try:
        worker = worker_of(plan)
        for seeds in growing(first, end):
            for it in worker.rows(seeds):
                rows.append(it)
            if time.monotonic() > until:
                break
    except Fault as error:
        return Chunk(rows, (end, end), (error.text, *error.words))
    except (NoCampaign, NoProgram) as error:
        return Chunk(rows, (end, end), (f"seed {first + len(rows)}: {error.words[0]}", *error.words[1:]))
    return Chunk(rows, (first + len(rows), end))


def growing(first: int, end: int) -> Iterator[range]:
    """The parts of a range of seeds that run together. Each is as long as all before it, up to a bound, so it takes about
    as long."""
    size = 1
    while first < end:
        yield range(first, min(first + size, end))
        first += size
        size = min(2 * size, MOST_TOGETHER)
