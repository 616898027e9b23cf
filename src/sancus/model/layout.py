"""Lays out sources of the handler language and properties: line breaks, indents and blanks between tokens, and nothing
else. A block that stands on one line stays there if it has room.
"""

from __future__ import annotations

from typing import FrozenSet, List, Optional, Tuple

from sancus.model import language, toml
from sancus.model.deployment import Tables, source_start, tables_of
from sancus.model.language import END, NAMED, NUMBER, PROPERTY_WORDS, UNARY, WORDS, next_token
from sancus.records import dataclass, replace

WIDTH, INDENT = 100, "    "
COMMENT = "//"
OPERANDS = (NAMED, NUMBER, ")", "]")
QUOTES = (b'"""', b"'''")


class CantLayOut(Exception):
    """A text that stays as it is; `words` say why."""

    def __init__(self, *words: str) -> None:
        super().__init__("\n".join(words))
        self.words = list(words)


@dataclass(frozen=True)
class Piece:
    """A token or a comment, and how many line breaks come before it."""

    kind: str
    text: str
    breaks: int = 0


def comments_of(gap: bytes) -> List[Piece]:
    """The comments between two tokens; and last, of no kind, the line breaks before the second token."""
    found, breaks = [], 0
    for line in gap.split(b"\n"):
        text = line.strip(b" \t").decode(errors="surrogateescape")
        if text:
            found.append(Piece(COMMENT, text, breaks))
            breaks = 0
        breaks += 1
    return [*found, Piece("", "", breaks - 1)]


def pieces_of(source: str, words: FrozenSet[str]) -> List[Piece]:
    """The tokens and comments of a source."""
    data = source.encode(errors="surrogateescape")
    found: List[Piece] = []
    at = 0
    while True:
        token = next_token(data, at, words)
        *comments, last = comments_of(data[at : token.at])
        found += comments
        if token.kind == END:
            return found
        found.append(Piece(token.kind, token.text, last.breaks))
        at = token.at + max(1, len(token.text.encode()))


class Layout:
    """The lines so far, and the one that is written."""

    def __init__(self, pieces: List[Piece]) -> None:
        self.pieces = pieces
        self.lines: List[str] = []
        self.line = ""
        # of each block that is open, whether it stands on one line; and of the one that was closed last
        self.blocks: List[bool] = []
        self.was_inline = False

    def text(self) -> str:
        kinds = {COMMENT: self.comment, "{": self.open, "}": self.close}
        for at, it in enumerate(self.pieces):
            kinds.get(it.kind, self.word)(at, it)
        self.end_line()
        return "".join(f"{it}\n" for it in self.lines)

    @property
    def is_inline(self) -> bool:
        return any(self.blocks)

    # --- Lines ---

    def end_line(self) -> None:
        if self.line:
            self.lines.append(self.line)
        self.line = ""

    def begin_line(self, it: Piece) -> None:
        """Begins a line. Of blank lines before it one stays, but none at the beginning of a block."""
        if it.breaks > 1 and self.lines and not self.lines[-1].endswith("{"):
            self.lines.append("")
        self.line = INDENT * len(self.blocks)

    def put(self, at: int, it: Piece) -> None:
        if not self.line:
            self.begin_line(it)
        elif not self.is_tight(at):
            self.line += " "
        self.line += it.text

    # --- Pieces ---

    def word(self, at: int, it: Piece) -> None:
        self.put(at, it)
        if it.kind == ";" and not self.is_inline and not self.is_joined(at):
            self.end_line()

    def comment(self, _at: int, it: Piece) -> None:
        """A comment ends its line, and stays on that of the token before it."""
        if it.breaks or not (self.line or self.lines):
            self.end_line()
            self.begin_line(it)
            self.line += it.text
        elif self.line:
            self.line += f"  {it.text}"
        else:
            self.line = f"{self.lines.pop()}  {it.text}"
        self.end_line()

    def open(self, at: int, it: Piece) -> None:
        self.put(at, it)
        self.blocks.append(self.is_inline or self.fits(at))
        if not self.is_inline:
            self.end_line()

    def close(self, at: int, it: Piece) -> None:
        if not self.is_inline:
            self.end_line()
        self.was_inline = self.is_inline
        self.blocks.pop()
        self.put(at, replace(it, breaks=0))
        if not self.is_inline and self.next_kind(at) != "else":
            self.end_line()

    # --- What stands around a piece ---

    def next_kind(self, at: int) -> str:
        return self.pieces[at + 1].kind if at + 1 < len(self.pieces) else END

    def kind_before(self, at: int) -> str:
        before = (self.pieces[it].kind for it in range(at - 1, -1, -1))
        return next((it for it in before if it != COMMENT), END)

    def is_joined(self, at: int) -> bool:
        """Whether a declaration is followed by another on its line."""
        return not self.blocks and self.next_kind(at) not in ("on", "sample", END) and not self.pieces[at + 1].breaks

    def is_unary(self, at: int) -> bool:
        return self.pieces[at].kind in UNARY and self.kind_before(at) not in OPERANDS

    def is_tight(self, at: int) -> bool:
        """Whether a piece follows the one before it without a blank."""
        kind, before = self.pieces[at].kind, self.kind_before(at)
        if kind in (";", ")", "]", "[") or before in ("(", "[") or (before, kind) == ("{", "}"):
            return True
        return kind == "(" and before in (NAMED, "sample") or self.is_unary(at - 1)

    def fits(self, at: int) -> bool:
        """Whether the block that begins here stood on one line, with its `else`, without a comment, and has room."""
        if self.kind_before(at) == "else":
            return self.was_inline
        inner = self.pieces[at + 1 : self.end_of(at) + 1]
        size = len(self.line) + sum(len(it.text) + 1 for it in inner)
        return size <= WIDTH and not any(it.breaks and it.kind != "else" or it.kind == COMMENT for it in inner)

    def end_of(self, at: int) -> int:
        """Where the block ends that begins here, or its `else`."""
        depth = 0
        while True:
            depth += {"{": 1, "}": -1}.get(self.pieces[at].kind, 0)
            if not depth and self.pieces[at].kind == "}" and self.next_kind(at) != "else":
                return at
            at += 1


def is_same(one: str, other: str, words: FrozenSet[str]) -> bool:
    """Whether two sources have the same tokens and comments."""
    bare = [[(it.kind, it.text) for it in pieces_of(text, words)] for text in (one, other)]
    return bare[0] == bare[1]


def laid_out(source: str, is_property: bool = False) -> str:
    """A source, or a property, that is in the grammar, laid out anew."""
    words = PROPERTY_WORDS if is_property else WORDS
    try:
        (language.parse_property if is_property else language.parse)(source)
    except language.NotInGrammar as error:
        line, column = language.place_of(source, error.token.at)
        raise CantLayOut(f"line {line}, column {column}: it isn't in the grammar") from None
    except (RecursionError, ValueError):
        raise CantLayOut("it can't be read") from None
    made = Layout(pieces_of(source, words)).text()
    if not is_same(source, made, words):
        raise CantLayOut("its tokens or comments would change")
    return made


# --- Deployments ------------------------------------------------------------------------------------------------------


def block_source(head: bytes, tables: Tables, index: int) -> Optional[Tuple[int, int]]:
    """Where a source between three quotes begins and ends in the text of a deployment; None if it has others."""
    start, source = source_start(head, tables, index), tables.modules[index].get("source")
    if start is None or not isinstance(source, str):
        return None
    end = start + len(source.encode(errors="surrogateescape"))
    before = head[:start].removesuffix(b"\n")[-3:]
    return (start, end) if before in QUOTES and head[end : end + 3] == before else None


def with_sources(head: bytes, tables: Tables) -> bytes:
    """The text of a deployment with each source between three quotes laid out anew."""
    made, at = b"", 0
    spans = (block_source(head, tables, index) for index in range(len(tables.modules)))
    for start, end in sorted(it for it in spans if it):
        text = laid_out(head[start:end].decode(errors="surrogateescape")).encode(errors="surrogateescape")
        made += head[at:start] + (b"" if head[:start].endswith(b"\n") else b"\n") + text
        at = end
    return made + head[at:]


def without_sources(text: bytes) -> object:
    """The tables of a deployment without the modules' sources."""
    document = toml.read(text.decode("utf-8-sig"))
    modules = [{**it, "source": ""} if "source" in it else it for it in Tables(document).modules]
    return {**document, "module": modules}


def sources_of(tables: Tables) -> List[str]:
    return [str(it.get("source", "")) for it in tables.modules]


def deployment(head: bytes) -> bytes:
    """The text of a deployment with its sources laid out anew, and the same tables beside them."""
    plain = head.replace(b"\r\n", b"\n")
    has_returns = plain != head
    if has_returns and plain.replace(b"\n", b"\r\n") != head:
        raise CantLayOut("some of its lines end in a carriage return, and others don't")
    tables = tables_of(plain)
    if tables is None:
        raise CantLayOut("it is no TOML")
    made = with_sources(plain, tables)
    again = tables_of(made)
    if again is None or without_sources(made) != without_sources(plain):
        raise CantLayOut("its tables would change")
    if not all(is_same(one, other, WORDS) for one, other in zip(sources_of(tables), sources_of(again))):
        raise CantLayOut("its tokens or comments would change")
    return made.replace(b"\n", b"\r\n") if has_returns else made
