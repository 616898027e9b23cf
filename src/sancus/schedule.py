"""A schedule that is built line by line, while the program runs it: each call returns the items that it gave."""

from __future__ import annotations

from typing import TYPE_CHECKING, List, Tuple, Union

from sancus.errors import Refused
from sancus.items import Item, item_of
from sancus.model.faults import of_line
from sancus.model.items import Item as Words
from sancus.model.schedule import Mistake, Writer
from sancus.model.session import Stopped, start
from sancus.run import Run

if TYPE_CHECKING:
    from sancus.app import App


class Keeping(Writer):
    """A writer that keeps the items of each line with the number of that line."""

    def __init__(self, app: "App") -> None:
        session = start(app.program, app.head)
        super().__init__(app.deployment, session, app.program)
        self.items: List[Item] = []

    def put(self, *words: str) -> List[Words]:
        made = super().put(*words)
        line = len(self.lines)
        for it in made:
            self.items.append(item_of(it.text, len(self.items) + 1, lambda _number: line, self.deployment))
        return made


class Schedule:
    """Lines of a schedule, for people and plain ones; what can't be done is Refused, and leaves nothing behind. The
    program runs beside it until `close`, or the end of a `with`."""

    def __init__(self, app: "App") -> None:
        self.app = app
        # what each call did, in lines as they were given
        self.given: List[Tuple[str, ...]] = []
        self.writer = Keeping(app)

    def __enter__(self) -> "Schedule":
        return self

    def __exit__(self, *_: object) -> None:
        self.close()

    def close(self) -> None:
        """Ends the program. The lines and their run stay."""
        self.writer.session.close()

    def __repr__(self) -> str:
        return f"<Schedule of {len(self.lines)} lines: {len(self.items)} items>"

    @property
    def items(self) -> List[Item]:
        """The items so far."""
        return list(self.writer.items)

    @property
    def lines(self) -> List[str]:
        """The lines so far, as `sancus run` takes them."""
        return list(self.writer.lines)

    @property
    def text(self) -> str:
        """The lines so far as one text."""
        return "".join(f"{it}\n" for it in self.writer.lines)

    @property
    def notes(self) -> List[str]:
        """What was noted of the lines so far: calls that did nothing, and why."""
        return list(self.writer.notes)

    def run(self) -> Run:
        """The run of the lines so far."""
        return self.app.run(self.text)

    # --- Lines ---

    def line(self, text: str) -> List[Item]:
        """Does a line of a schedule, or one for people."""
        return self.step(text)

    def step(self, *texts: str) -> List[Item]:
        """Does some lines, which are taken back together."""
        items = len(self.writer.items)
        for it in texts:
            self.do(it)
        self.given.append(texts)
        return self.writer.items[items:]

    def do(self, text: str) -> None:
        lines = len(self.writer.lines)
        try:
            self.writer.do(text)
        except Mistake as error:
            words = [str(error)]
        except (IndexError, KeyError):
            words = ["too few words"]
        except Stopped as error:
            words = of_line(self.app.head, error.fault, self.writer.lines[-1], self.app.program.ask)
        else:
            return
        if len(self.writer.lines) > lines:
            self.begin_again()
        raise Refused(text, *words) from None

    def begin_again(self) -> None:
        """Does from the start what was done."""
        self.close()
        self.writer = Keeping(self.app)
        for texts in self.given:
            for it in texts:
                self.writer.do(it)

    def undo(self, steps: int = 1) -> None:
        """Takes back what the last calls did: what came before them is run again."""
        if not 0 <= steps <= len(self.given):
            raise Refused(f"undo {steps}", f"there are {len(self.given)} steps to take back")
        del self.given[len(self.given) - steps :]
        self.begin_again()

    def deploy(self, *modules: str) -> List[Item]:
        """Loads and attests modules, and hands them their keys; without names, all of them."""
        return self.line(f"deploy {' '.join(modules) or 'all'}")

    def sample(self, module: str, value: int) -> List[Item]:
        """The module's sensor gets a value, and the module reads it."""
        return self.line(f"sample {module} {value}")

    def carry(self, sender: str, receiver: str, which: Union[str, int, None] = None) -> List[Item]:
        """Carries the next event for a module of the sender's last call; or that of a connection, or a piece by its
        number."""
        return self.line(f"carry {sender} {receiver}" + ("" if which is None else f" {which}"))

    def replay(self, sender: str, receiver: str) -> List[Item]:
        """Gives the event that was carried last to its receiver once more."""
        node = self.app.deployment.node_of(receiver)
        return self.step(f"give event.{sender}.{receiver} {node}", f"call {receiver} 2")

    def reset(self, node: str) -> List[Item]:
        """Resets a node."""
        return self.line(f"reset {node}")

    def asm(self, node: str, at: int, text: str) -> List[Item]:
        """Puts an instruction into a node's memory."""
        return self.line(f"asm {node} 0x{at:x} {text}")
