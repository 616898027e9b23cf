"""Applications: a deployment that the program accepted, from which runs are made."""

from __future__ import annotations

from pathlib import Path
from typing import TYPE_CHECKING, Iterable, List, Optional, Tuple, Union

from sancus.errors import Fault, NoProgram
from sancus.model import warnings
from sancus.model.asking import Program
from sancus.model.described import Deployment, described
from sancus.model.faults import Teller
from sancus.model.people import are_for_people
from sancus.model.shown import text_of
from sancus.model.texts import MARK, Input, kept_of
from sancus.model.traces import of_drive
from sancus.run import Run
from sancus.runner import runner

if TYPE_CHECKING:
    from sancus.schedule import Schedule

Lines = Union[str, bytes, Iterable[str]]


class App:
    """A deployment that the program accepted. What it refuses is a Fault."""

    def __init__(
        self, head: bytes, name: str = "", schedule: bytes = b"", program: Optional[Program] = None
    ) -> None:
        self.head = head if head.endswith(b"\n") or not head else head + b"\n"
        self.name, self.own_schedule = name, schedule
        self.program: Program = program or runner()
        self.deployment: Deployment = described(self.program, self.head)
        self.must_be_accepted(self.deployment.last)

    def input(self, schedule: bytes) -> bytes:
        """The input of a run, as the program reads it."""
        return self.head + MARK + b"\n" + schedule

    def must_be_accepted(self, last: str) -> None:
        if last != "end":
            raise Fault(last, Teller(kept_of(self.input(b""), self.name), "check", self.program.ask).told(last))

    def __repr__(self) -> str:
        of = ", ".join(f"{len(self.deployment.names(it))} {it}s" for it in ("node", "module", "connection"))
        return f"<App {self.name}: {of}>" if self.name else f"<App: {of}>"

    @property
    def modules(self) -> List[str]:
        """The names of its modules, in order."""
        return list(self.deployment.modules)

    @property
    def warnings(self) -> List[str]:
        """What the rules allow and hardly anybody wants."""
        teller = Teller(kept_of(self.input(b""), self.name), "check")
        return warnings.of_text(teller)

    def schedule(self) -> "Schedule":
        """A schedule of it that is still empty: the program runs beside it."""
        from sancus.schedule import Schedule

        return Schedule(self)

    def run(self, lines: Optional[Lines] = None) -> Run:
        """A run of a schedule, whose lines may be for people; without lines, of the one that came with the
        deployment."""
        text = self.own_schedule if lines is None else bytes_of(lines)
        if are_for_people(Input(self.input(text))):
            with self.schedule() as made:
                for it in Input(self.input(text)).schedule:
                    made.line(text_of(it))
                return made.run()
        return Run(self, text, self.program.answer(["run"], self.input(text)))

    def drive(self, readings: Iterable[Tuple[str, int]]) -> Run:
        """The honest run of readings: a device and its value each."""
        text = "".join(f"{device} {value}\n" for device, value in readings).encode()
        answer = self.program.answer(["drive"], self.input(text))
        last = text_of(answer.lines[-1]) if answer.lines else ""
        if last.startswith("fault reading "):
            raise Fault(last, Teller(kept_of(self.input(text), ""), "drive", self.program.ask).told(last))
        return Run(self, *of_drive(answer))

    # --- Properties ---

    def holds(self, text: Union[str, bytes]) -> bool:
        """Whether the program proves that no run breaks a property, up to its first `forged`. What is no property is a
        Fault."""
        return self.said_of("holds", bytes_of(text)) == "holds"

    def said_of(self, command: str, text: bytes, trace: bytes = b"") -> str:
        """The first line of what the program says of a property."""
        end = b"" if text.endswith(b"\n") else b"\n"
        data = self.input(text + end + MARK + b"\n" + trace)
        first = text_of(self.program.answer([command], data).output.partition(b"\n")[0])
        if not first:
            raise NoProgram(f"the program was ended before it answered `{command}`")
        if first.startswith("fault "):
            raise Fault(first, Teller(kept_of(data, self.name), command, self.program.ask).told(first))
        return first


def bytes_of(lines: Lines) -> bytes:
    """A schedule as the program reads it."""
    match lines:
        case bytes():
            return lines
        case str():
            return lines.encode(errors="surrogateescape")
        case _:
            return "".join(f"{it}\n" for it in lines).encode(errors="surrogateescape")


def loads(text: Union[str, bytes], name: str = "") -> App:
    """The application of a text: a deployment, perhaps with a line %% and a schedule."""
    data = Input(text.encode() if isinstance(text, str) else text)
    return App(data.head, name, data.rest)


def load(path: Union[str, Path]) -> App:
    """The application of a file."""
    return loads(Path(path).read_bytes(), str(path))
