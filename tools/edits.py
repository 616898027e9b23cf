"""Wrong bodies and wrong systems as text: what an edit changes, and whether its lines are still there."""

from dataclasses import dataclass
from pathlib import Path

TOP = Path(__file__).resolve().parent.parent
# The folder of the edits whose files are of several crates.
SYSTEMS = "wrong-systems"


@dataclass(frozen=True)
class Change:
    """One line or more of a file of a crate, and what is put in its place."""

    file: str
    old: str
    new: str


@dataclass(frozen=True)
class Edit:
    """The changes of one wrong body. They are of `crate`, which is another than `judge` only where the wrong definition
    lies below the crate whose laws refuse it. A wrong system has no crate: its files are named from crates/, and it names
    the laws that refuse it and the lemmas that break."""

    path: Path
    judge: str
    crate: str
    changes: tuple[Change, ...]
    laws: tuple[str, ...] = ()
    lemmas: tuple[str, ...] = ()

    @property
    def is_below(self):
        return self.crate != self.judge


def read_edit(path):
    """The edit in a file. In one of a crate below, and in a wrong system, `\\n` in a text is the end of a line."""
    judge = path.parent.name if path.parent.name != "must-fail" else path.parent.parent.name
    crate, file, old, changes = "" if judge == SYSTEMS else judge, None, None, []
    named = {"law": [], "lemma": []}
    for line in path.read_text().splitlines():
        word, _, text = line.partition(": ")
        if crate != judge:
            text = text.replace("\\n", "\n")
        if word == "crate":
            crate = text
        elif word == "file":
            file = text
        elif word == "old":
            old = text
        elif word == "new":
            changes.append(Change(file, old, text))
        elif word in named:
            named[word].append(text)
    return Edit(path, judge, crate, tuple(changes), tuple(named["law"]), tuple(named["lemma"]))


def edits_of(top=TOP):
    """All wrong bodies: those of the gate, and those outside it."""
    paths = [*top.glob("crates/*/must-fail/*.edit"), *top.glob("wrong-bodies/*/*.edit")]
    return [read_edit(path) for path in sorted(paths)]


def systems_of(top=TOP):
    """All wrong systems."""
    return [read_edit(path) for path in sorted((top / SYSTEMS).glob("*.edit"))]


def apply(edit, top=TOP):
    """The files that the edit changes, by their new texts; the first old text that isn't there just once is an error."""
    texts = {}
    for change in edit.changes:
        path = top / "crates" / edit.crate / change.file
        text = texts.get(path) or path.read_text()
        if text.count(change.old) != 1:
            raise ValueError(f"{edit.path.relative_to(top)}: in {change.file} this stands {text.count(change.old)} times: {change.old}")
        texts[path] = text.replace(change.old, change.new)
    return texts


def stale(edits, top=TOP):
    """What keeps these edits from applying, a line each."""
    for edit in edits:
        try:
            apply(edit, top)
        except (OSError, ValueError) as why:
            yield str(why)
