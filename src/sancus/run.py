"""Runs: what a schedule gave, why, and what stood where after each of its lines."""

from __future__ import annotations

import html
from dataclasses import dataclass
from functools import cached_property
from typing import TYPE_CHECKING, Any, Dict, List, Optional, Union

from sancus.errors import Fault, Refused
from sancus.items import Forged, Item, item_of
from sancus.model import causes, stepping, variables
from sancus.model.asking import Answer
from sancus.model.faults import Teller
from sancus.model.inspection import Inspected, Line
from sancus.model.lines import run_by_line
from sancus.model.session import Stopped, snapped
from sancus.model.shown import text_of
from sancus.model.stepping import Step
from sancus.model.texts import Input, kept_of
from sancus.model.traces import trace_of
from sancus.model.variables import State
from sancus.status import Ended
from sancus.viewer import pages

if TYPE_CHECKING:
    from sancus.app import App

__all__ = ["Run", "State", "Step", "Verdict"]

FRAME = '<iframe sandbox="allow-scripts" style="width:100%;height:32em;border:1px solid #ccc" srcdoc="{}"></iframe>'


@dataclass(frozen=True)
class Verdict:
    """What `explain` says of a run: how many items are a legal one, or which is illegal or forged, and causes by items'
    numbers."""

    legal: Optional[int]
    illegal: Optional[int]
    forged: Optional[int]
    causes: Dict[int, int]
    words: List[str]

    def __bool__(self) -> bool:
        """Whether the sources allow all that was judged."""
        return self.illegal is None and self.legal is not None


class Run:
    """A run of an application. Two runs are equal if their items are, and how they ended."""

    def __init__(self, app: "App", schedule: bytes, answer: Answer) -> None:
        self.app, self.text, self.status, self.output = app, schedule, answer.status, answer.output
        self.trace = trace_of(answer.output)

    def __repr__(self) -> str:
        outs, forged = self.outs()[-8:], ", forged" if self.forged else ""
        return f"<Run of {len(self.lines)} lines: {len(self.texts)} items, outs {outs}{forged}, {self.trace.last}>"

    def __eq__(self, other: object) -> bool:
        return isinstance(other, Run) and (self.texts, self.trace.last) == (other.texts, other.trace.last)

    __hash__ = None  # type: ignore[assignment]

    # --- What came ---

    @property
    def lines(self) -> List[str]:
        """The lines of the schedule."""
        return [text_of(it) for it in Input(self.app.input(self.text)).schedule]

    @property
    def texts(self) -> List[str]:
        """The items as they are printed."""
        return self.trace.texts

    @property
    def images(self) -> Dict[str, bytes]:
        """The image of each module."""
        return self.trace.images

    @cached_property
    def items(self) -> List[Item]:
        """The items, in order."""
        return [item_of(it, at, self.line_of, self.app.deployment) for at, it in enumerate(self.texts, 1)]

    @cached_property
    def lines_of_items(self) -> List[int]:
        return [line for line, _ in run_by_line(self.app.input(self.text), self.app.program).items]

    def line_of(self, number: int) -> int:
        """The line of the schedule that gave an item, by its number."""
        return self.lines_of_items[number - 1]

    @cached_property
    def fault(self) -> Optional[Fault]:
        """Why the run broke off, if it did."""
        last = self.trace.last
        if not last.startswith("fault "):
            return None
        kept = kept_of(self.app.input(self.text), self.app.name)
        return Fault(last, Teller(kept, "run", self.app.program.ask).told(last))

    def of(self, kind: str, **words: object) -> List[Item]:
        """The items of a kind, with these words: `run.of("take", module="logic")`."""
        found = [it for it in self.items if it.kind == kind]
        return [it for it in found if all(getattr(it, name) == value for name, value in words.items())]

    def outs(self, module: Optional[str] = None) -> List[int]:
        """The values that a module wrote to its actuator, or all modules to theirs."""
        words = [it.split(" ") for it in self.texts if it.startswith("out ")]
        return [int(it[2]) for it in words if module in (None, it[1])]

    @property
    def forged(self) -> Optional[Forged]:
        """The first accepted tag that its rightful maker hadn't made."""
        return next((it for it in self.items if isinstance(it, Forged)), None)

    # --- Why ---

    @cached_property
    def printed(self) -> bytes:
        """The trace as it is judged, without images."""
        return "".join(f"{it}\n" for it in ("trace", *self.texts, self.trace.last)).encode(errors="surrogateescape")

    def broken_at(self, text: Union[str, bytes]) -> Optional[int]:
        """The number of the first item that breaks a property, if one does before the first `forged`. What is no
        property is a Fault."""
        from sancus.app import bytes_of

        word, _, number = self.app.said_of("watch", bytes_of(text), self.printed).partition(" ")
        return int(number) if word == "broken" else None

    @cached_property
    def explained(self) -> causes.Explained:
        text = self.app.input(self.printed)
        return causes.judged(kept_of(text, self.app.name), Input(text), self.app.program)

    def explain(self) -> Verdict:
        """What the sources say of the run."""
        made = self.explained
        return Verdict(made.legal, made.illegal, made.forged, dict(made.causes), list(causes.in_words(made)))

    def why(self, item: Union[int, str, Item, None] = None) -> str:
        """The chain of causes of an item, or why it is illegal. It is named by itself, by its number, or by the words
        that it begins with, as `out lamp`: then the last such item is meant; without one, the last `out`."""
        words = str(item.number if isinstance(item, Item) else "" if item is None else item)
        try:
            at = causes.chosen(self.explained, words)
        except Ended as error:
            raise Refused(f"why {words}".strip(), *error.lines) from None
        return "\n".join(causes.why(self.explained, at))

    # --- What stood where ---

    def inspected(self) -> Inspected:
        lines = self.lines
        given = [Line("", it, at, at) for at, it in enumerate(lines, 1)]
        app = self.app
        return Inspected(app.name, app.head, app.deployment, lines, given, app.program)

    def state(self, module: str, line: Optional[int] = None) -> State:
        """A module's variables, arrays and ends after a line of the schedule; without one, at the end."""
        seen = self.inspected()
        at = len(seen.lines) if line is None else line
        try:
            return variables.state_of(seen, seen.module(module), seen.line(str(at)).last)
        except Ended as error:
            raise Refused(f"state {module} {at}", *error.lines) from None

    def steps(self, line: int) -> List[Step]:
        """The instructions that a line of the schedule executed."""
        seen = self.inspected()
        try:
            return stepping.steps_of(seen, seen.line(str(line)).first).steps
        except Ended as error:
            raise Refused(f"steps {line}", *error.lines) from None

    def snap(self, *queries: str) -> List[str]:
        """The program's answers to queries: `regs NODE L`, `bytes NODE AT LEN L` and `items L`."""
        try:
            return snapped(self.app.program, self.app.head, self.lines, list(queries))
        except Stopped as error:
            raise Refused("; ".join(queries), error.fault) from None

    # --- Notebooks ---

    def frame(self) -> Any:
        """The items as a DataFrame of pandas, which has to be installed."""
        try:
            import pandas
        except ImportError:
            raise ImportError("a frame needs pandas: pip install pandas") from None
        return pandas.DataFrame([it.as_dict() for it in self.items]).set_index("item")

    def page(self) -> str:
        """The page that `sancus view` writes."""
        drawn = pages.of_run(Input(self.app.input(self.text)), self.app.program)
        return pages.page_of({**drawn.texts, "name": self.app.name.encode(errors="surrogateescape")})

    def _repr_html_(self) -> str:
        return FRAME.format(html.escape(self.page(), quote=True))
