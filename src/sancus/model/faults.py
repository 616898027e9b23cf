"""Says in words what a fault line of the program means, and shows the line in the file that it is about.

It says less if it finds less. The program alone judges; docs/FORMATS.md has the rules, src/sancus/faults.json the words.
"""

from __future__ import annotations

import re
from typing import Callable, Dict, List, Optional, Tuple

from sancus.model import acts, assembly, guesses, language, rules, tables, toml
from sancus.model.acts import ACTS, QUERIES, Field, Word, words_at
from sancus.model.deployment import KINDS, Tables, source_start, tables_of
from sancus.model.people import PEOPLE
from sancus.model.shown import MOST_SHOWN, short, text_of
from sancus.model.table import words as table_words
from sancus.model.texts import Kept, find_mark, kept_of, split_lines
from sancus.records import dataclass

Lines = List[str]
Ask = Callable[[List[str], bytes], bytes]


def no_answer(_words: List[str], _text: bytes) -> bytes:
    return b""


@dataclass
class Teller:
    """Finds words for the faults of one input. `command` is what was called, and `ask` the program, for what it alone
    knows."""

    kept: Kept
    command: str = ""
    ask: Ask = no_answer

    def __post_init__(self) -> None:
        first = bytes(self.kept.first)
        found = find_mark(first)
        self.head = first[: found[0]] if found else first
        # the number of the line `%%`
        self.mark = self.head.count(b"\n") + 1 if found else 0
        # and that of the one before a trace, which may be another
        self.trace_mark = self.mark
        self._tables: Optional[Tables] = None

    @property
    def tables(self) -> Optional[Tables]:
        if self._tables is None and self.command not in ("asm", "dis"):
            self._tables = tables_of(self.head)
        return self._tables

    # --- Places ---

    def place(self, line: int) -> str:
        """A line of the input, by its file and its number there."""
        name, number = self.kept.place(line)
        if number is None:
            return "a line that was put between"
        return f"line {number} of the input" if name in ("-", "") else f"{name}:{number}"

    def shown(self, line: int, column: Optional[int] = None, length: int = 1) -> Lines:
        """A line of the input, and what its encoding is, if that isn't read."""
        encoded = guesses.of_encoding(self.kept.line(line) or b"", line <= self.mark)
        return self.with_caret(line, None if encoded else column, length) + encoded

    def with_caret(self, line: int, column: Optional[int], length: int) -> Lines:
        """A line of the input, and below it a caret at the byte column, if there is one."""
        whole = self.kept.line(line)
        if whole is None:
            return [f"{self.place(line)}"] if line <= self.kept.lines_so_far() else []
        text = text_of(whole)
        head = f"{self.place(line)}: "
        if len(text) > MOST_SHOWN:
            return [head + short(text)]
        if column is None:
            return [head + text]
        before = text_of(whole[: column - 1])
        pad = "".join("\t" if it == "\t" else " " for it in before)
        return [head + text, " " * len(head) + pad + "^" * max(1, length)]

    # --- Deployments ---

    def entry_line(self, kind: str, index: int) -> Optional[int]:
        """The line where an entry of the deployment begins, or None."""
        lines = [text_of(it) for it in split_lines(self.head)]
        headed = [at for at, it in enumerate(lines, 1) if re.match(rf"\s*\[\[\s*{kind}\s*\]\]", it)]
        if index < len(headed):
            return headed[index]
        entries = self.tables.entries(kind) if self.tables else []
        if index >= len(entries):
            return None
        name = entries[index].get("name")
        before = [it.get("name") for it in entries[:index]].count(name)
        begun = next((at for at, it in enumerate(lines) if re.match(rf"\s*{kind}\s*=", it)), 0)
        pattern = re.compile(rf'name\s*=\s*["\']{re.escape(str(name))}["\']')
        named = [at for at, it in enumerate(lines, 1) if at > begun and pattern.search(it)]
        return named[before] if before < len(named) else None

    def told_entry(self, kind: str, index: int) -> str:
        """An entry in words: what it is, its name, and where it begins."""
        entries = self.tables.entries(kind) if self.tables else []
        name = entries[index].get("name") if index < len(entries) else None
        line = self.entry_line(kind, index)
        what = f"{kind} {name}" if isinstance(name, str) else f"{kind} number {index}, counted from 0"
        return what + (f", {self.place(line)}" if line else "")

    def source_place(self, index: int, line: int, column: int) -> Optional[Tuple[int, int]]:
        """The line of the input, and the byte column in it, of a place in a module's source; None if that isn't
        found."""
        head = self.head.replace(b"\r\n", b"\n")
        at = source_start(head, self.tables, index) if self.tables else None
        if at is None:
            return None
        first = head.count(b"\n", 0, at) + 1
        return first + line - 1, column + (at - head.rfind(b"\n", 0, at) - 1 if line == 1 else 0)

    def in_source(self, index: int, line: int, column: int, length: int = 1) -> Lines:
        found = self.source_place(index, line, column)
        return self.shown(*found, length) if found else [f"line {line}, column {column} of its source"]

    def grammar(self, index: int, line: int, column: int) -> Lines:
        """If a source isn't in the grammar: what was expected, and what the language has in place of what was tried."""
        lines = self.in_source(index, line, column)
        modules = self.tables.modules if self.tables else []
        source = modules[index].get("source") if index < len(modules) else None
        if not isinstance(source, str):
            return lines
        try:
            language.parse(source)
        except language.NotInGrammar as error:
            if language.place_of(source, error.token.at) == (line, column):
                lines += guesses.expected(error)
                lines += guesses.hints(source.encode(errors="surrogateescape"), error.token.at)
        return lines

    def broken_rule(self, index: int, rule: str) -> Lines:
        """Which name breaks a rule of the language, and where."""
        lines = [f"rule {rule} of the language, {table_words()['language'].get(rule, '')}"]
        modules = self.tables.modules if self.tables else []
        if index >= len(modules) or not self.tables:
            return lines
        tree = self.tables.tree(str(modules[index].get("name")))
        for it in rules.places(tree, rule) if tree else []:
            line, column = language.place_of(modules[index]["source"], it.at)
            lines += [it.what] + (self.in_source(index, line, column, it.length) if it.at else [])
            lines += guesses.of_name(it.what)
        return lines

    def not_toml(self) -> Lines:
        """Where it is found that the deployment is no TOML."""
        lines = self.near_mark()
        try:
            text = self.head.decode()
        except UnicodeDecodeError as error:
            line = self.head.count(b"\n", 0, error.start) + 1
            column = error.start - self.head.rfind(b"\n", 0, error.start)
            return [*lines, "these bytes are no UTF-8", *self.shown(line, column)]
        try:
            toml.read(text.replace("\ufeff", " ", 1) if text.startswith("\ufeff") else text)
        except toml.NoToml as error:
            if error.line and error.column:
                # (columns there are characters)
                before = text.split("\n")[error.line - 1][: error.column - 1]
                return [
                    *lines,
                    error.what,
                    *self.shown(error.line, len(before.encode()) + 1),
                    *guesses.of_toml(self.kept.line(error.line)),
                ]
            return [*lines, error.what]
        return lines

    def near_mark(self) -> Lines:
        """A line that was meant to be the mark."""
        lines: Lines = []
        for at, it in enumerate(split_lines(self.head), 1):
            if it.strip() in (b"%%", b"%", b"%%%") and it != b"%%":
                lines += [
                    *self.shown(at),
                    "the mark is a line `%%` alone: no blank before or after it, and nothing else",
                ]
        return lines[:4]

    def deployment(self, rule: str, place: List[str]) -> Lines:
        lines = [f"{rule}: {table_words()['deployment'][rule]}"]
        if rule == "D1":
            long = [at for at, it in enumerate(split_lines(self.head), 1) if len(it) > 4096]
            return (
                lines
                + (self.shown(long[0]) if long else [])
                + guesses.of_head(self.command, bytes(self.kept.first[:4096]))
            )
        if rule == "D2":
            name = self.kept.place(1)[0]
            return lines + (self.near_mark() or guesses.without_mark(self.command, name, self.kept.first))
        if rule == "D3":
            return lines + self.not_toml() + guesses.of_head(self.command, bytes(self.kept.first[:4096]))
        if not self.tables:
            return lines
        if rule == "D6":
            return lines + tables.counts(self.tables)
        if place == ["top"]:
            return lines + tables.keys("top", self.tables.toml) + guesses.of_tables(self.tables.toml)
        return lines + self.entry(rule, place)

    def entry(self, rule: str, place: List[str]) -> Lines:
        """What is wrong with an entry."""
        kind = place[0] if place else ""
        if not self.tables or kind not in KINDS or len(place) < 2 or int(place[1]) >= len(self.tables.entries(kind)):
            return []
        index = int(place[1])
        lines = [self.told_entry(kind, index)]
        if rule == "D7":
            return lines + self.grammar(index, int(place[2]), int(place[3]))
        if rule == "D8":
            return lines + self.broken_rule(index, place[2])
        if rule == "D4":
            return lines + tables.keys(kind, self.tables.toml[kind][index])
        found = {"D5": tables.names, "D9": tables.ties, "D10": tables.places}[rule]
        return lines + found(kind, index, self.tables)

    # --- Schedules, readings, queries and traces ---

    def of_people(self, line: int) -> Lines:
        """The line for people that a line of `sancus schedule` was made of."""
        for at in range(line, max(0, line - 4000), -1):
            text = self.kept.line(at)
            if text is None:
                return []
            if text.startswith(b"#= "):
                return [f"it was made of {text_of(text[3:])}"]
        return []

    def bad_field(self, line: int, words: List[Word], fields: List[Field]) -> Lines:
        """The first field that doesn't suit, with a caret."""
        for field, word in zip(fields, words[1:]):
            if not acts.suits(field, word.text, self.tables):
                lines = self.shown(line, word.column, len(word.text.encode(errors="surrogateescape")))
                is_name = field in (acts.NODE, acts.MODULE, acts.DEVICE)
                known = acts.names_for(field, self.tables) if self.tables and is_name else []
                return [*lines, f"expected: {acts.told(field, self.tables)}{rules.near(word.text, known)}"]
        return self.shown(line)

    def schedule(self, rule: str, number: int) -> Lines:
        lines, line = [f"{rule}: {table_words()['schedule'][rule]}"], self.mark + number
        text = self.kept.line(line)
        if text is None:
            return lines + self.shown(line)
        words = words_at(text)
        act = words[0].text if words else ""
        if rule == "S3" and words:
            lines += self.shown(line, words[0].column, len(act)) + guesses.of_act(act, text, self.command, self.tables)
        elif rule in ("S4", "S5", "S6") and act in ACTS:
            lines += self.bad_field(line, words, ACTS[act])
        elif rule == "S7":
            lines += [*self.shown(line), f"its words: {acts.fields_told(act, ACTS)}"]
        elif rule == "S8" and len(words) > 3:
            lines += self.not_assembled(line, words, text)
        else:
            lines += self.shown(line)
        return lines + self.of_people(line)

    def not_assembled(self, line: int, words: List[Word], text: bytes) -> Lines:
        """Why the text of an `asm` line isn't assembled: what the program's `asm` says of its statements."""
        body = text_of(text[words[3].column - 1 :])
        statements = body.replace(";", "\n")
        answer = (
            self.ask(["asm", words[2].text], statements.encode(errors="surrogateescape"))
            .decode(errors="replace")
            .strip()
        )
        rule, statement = assembly.broken_statement(statements, answer.split("\n")[-1])
        column = words[3].column
        at = text_of(text).find(statement, column - 1) if statement else -1
        lines = self.shown(line, at + 1, len(statement)) if at >= 0 else self.shown(line, column)
        if rule:
            lines.append(f"{rule}: {table_words()['asm'][rule]}")
        found = assembly.hint(statement or body)
        return lines + ([found] if found else [])

    def asm(self, rule: str, place: str) -> Lines:
        lines = [f"{rule}: {table_words()['asm'][rule]}"]
        if not place.isdigit():
            return lines
        text = self.kept.line(int(place))
        found = assembly.hint(text_of(text)) if text is not None and rule in ("A1", "A2") else None
        return lines + self.shown(int(place)) + ([found] if found else [])

    def hex(self, rule: str, place: str) -> Lines:
        lines = [f"{rule}: {table_words()['hex'][rule]}"]
        return lines + (self.shown(int(place)) if place.isdigit() else [])

    def reading(self, rule: str, number: int) -> Lines:
        lines, line = [f"{rule}: {table_words()['reading'][rule]}"], self.mark + number
        words = words_at(self.kept.line(line) or b"")
        sensors = [it for it in self.tables.sensors if self.tables.driver_of(it)] if self.tables else []
        if rule == "Q4" and words:
            more = f"sensors that a module drives: {' '.join(sensors) or 'none'}{rules.near(words[0].text, sensors)}"
            if words[0].text in ACTS:
                more = (
                    f"`{words[0].text}` is a line of a schedule: `sancus run` takes those, and `drive` makes them "
                    "of readings"
                )
            if words[0].text in PEOPLE:
                more = guesses.for_people(words[0].text)
            return lines + self.shown(line, words[0].column, len(words[0].text)) + [more]
        if rule == "Q5" and len(words) > 1:
            return lines + self.shown(line, words[1].column, len(words[1].text))
        if rule == "Q3" and words and words[0].text in ACTS:
            return [*lines, *self.shown(line), f"`{words[0].text}` is a line of a schedule: `sancus run` takes those"]
        if rule == "Q3" and words and words[0].text in PEOPLE:
            return [*lines, *self.shown(line), guesses.for_people(words[0].text)]
        return lines + self.shown(line)

    def line_after(self, wanted: bytes, after: int) -> Optional[int]:
        """The first line after this one that is so, as far as lines are kept."""
        at = after + 1
        while True:
            found = self.kept.line(at)
            if found is None or found == wanted:
                return None if found is None else at
            at += 1

    def query(self, rule: str, number: int) -> Lines:
        lines = [f"{rule}: {table_words()['query'][rule]}"]
        second = self.second_mark()
        if not second:
            return lines
        line = second + number
        words = words_at(self.kept.line(line) or b"")
        first = words[0].text if words else ""
        if rule == "Y3" and words:
            return lines + self.shown(line, words[0].column, len(first)) + ["the queries: " + " ".join(QUERIES)]
        if rule == "Y4":
            return [*lines, *self.shown(line), f"its words: {acts.fields_told(first, QUERIES)}"]
        if rule in ("Y5", "Y6") and first in QUERIES:
            return lines + self.bad_query(line, words)
        return lines + self.shown(line)

    def bad_query(self, line: int, words: List[Word]) -> Lines:
        lines = self.bad_field(line, words, QUERIES[words[0].text])
        if len(lines) > 1 or words[0].text != "bytes":
            return lines
        return self.shown(line, words[2].column, words[3].column + len(words[3].text) - words[2].column) + [
            "the bytes pass 0xffff"
        ]

    # --- Properties ---

    def property_text(self) -> str:
        """The property of an input: what is between the first two marks."""
        end = self.line_after(b"%%", self.mark) or self.kept.lines_so_far() + 1
        lines = [self.kept.line(it) or b"" for it in range(self.mark + 1, end)]
        return text_of(b"".join(it + b"\n" for it in lines))

    def property(self, rule: str, place: List[str]) -> Lines:
        """What is wrong with a property, and where."""
        lines = [f"{rule}: {table_words()['property'][rule]}"]
        if rule == "P5":
            return lines + self.property_rule(place[0])
        if rule == "P1" or len(place) < 2:
            return lines
        line, column = int(place[0]), int(place[1])
        if rule == "P2":
            return lines + self.shown(self.mark + line, column) + self.property_grammar(line, column)
        words = self.heading(line, column)
        lines += self.shown(self.mark + line, column, len(words[1]) if words else 1)
        return lines + (guesses.of_heading(*words, self.tables) if words and rule == "P3" and self.tables else [])

    def property_grammar(self, line: int, column: int) -> Lines:
        source = self.property_text()
        try:
            language.parse_property(source)
        except language.NotInGrammar as error:
            if language.place_of(source, error.token.at) == (line, column):
                found = guesses.in_property(error)
                return guesses.expected(error) + (
                    found or guesses.hints(source.encode(errors="surrogateescape"), error.token.at)
                )
        return []

    def heading(self, line: int, column: int) -> Optional[Tuple[str, str]]:
        """The kind and the name of the heading whose name is at a place."""
        before = text_of((self.kept.line(self.mark + line) or b"")[: column - 1]).split()
        name = re.match(rb"[a-z0-9_]+", (self.kept.line(self.mark + line) or b"")[column - 1 :])
        return (before[-1], name[0].decode()) if before and name else None

    def property_rule(self, rule: str) -> Lines:
        """Which name of a property breaks a rule of the language, and where."""
        from sancus.model.property import plain

        lines = [f"rule {rule} of the language, {table_words()['language'].get(rule, '')}"]
        source = self.property_text()
        for it in rules.places(plain(language.parse_property(source), source), rule):
            line, column = language.place_of(source, it.at)
            lines += [it.what] + (self.shown(self.mark + line, column, it.length) if it.at else [])
            lines += guesses.of_name(it.what)
        return lines

    def second_mark(self) -> Optional[int]:
        """The second line `%%`; the last one if the schedule isn't kept whole."""
        found = self.line_after(b"%%", self.mark)
        if found:
            return found
        last = self.kept.lines_so_far() + 1
        for at in range(last, self.mark, -1):
            if self.kept.line(at) == b"%%":
                return at
        return None

    def trace_start(self) -> int:
        return self.line_after(b"trace", self.trace_mark) or self.trace_mark

    def trace(self, rule: str, number: int) -> Lines:
        lines = [f"{rule}: {table_words()['trace'][rule]}"]
        line = (self.trace_mark if rule == "E1" else self.trace_start()) + number
        text = self.kept.line(line) or b""
        lines += self.shown(line) if text else []
        if rule == "E1":
            lines += guesses.of_trace(text)
        if rule == "E2":
            lines += guesses.of_item(text, self.tables)
        return lines

    def illegal(self, number: int) -> Lines:
        """An item that the deployment's sources don't allow."""
        return [
            table_words()["illegal"],
            *self.shown(self.trace_start() + number),
            "`sancus why FILE TRACE` says which condition fails",
        ]

    def told(self, fault: str) -> Lines:
        """What a fault line means, in lines; none if it is no fault that is known here."""
        words = fault.split()
        if words[:1] == ["illegal"] and len(words) == 2 and words[1].isdigit():
            return self.illegal(int(words[1]))
        if words == ["fault", "drive", "long"]:
            return [table_words()["drive"]["long"]]
        if words == ["fault", "read"]:
            return [table_words()["read"]]
        if words[:1] != ["fault"] or len(words) < 4 or words[2] not in table_words().get(words[1], {}):
            return []
        what, rule, place = words[1], words[2], words[3:]
        if what == "deployment":
            return self.deployment(rule, place)
        if what == "property":
            return self.property(rule, place)
        if what in ("asm", "hex"):
            return (self.asm if what == "asm" else self.hex)(rule, place[0])
        by_line: Dict[str, Callable[[str, int], Lines]] = {
            "schedule": self.schedule,
            "reading": self.reading,
            "query": self.query,
            "trace": self.trace,
        }
        return by_line[what](rule, int(place[0])) if place[0].isdigit() else []


def of_line(head: bytes, fault: str, line: str, ask: Ask) -> Lines:
    """What a fault of a schedule says of its line alone, wherever that stands."""
    words = fault.split()
    if words[:2] != ["fault", "schedule"]:
        return [fault]
    kept = kept_of(head + b"%%\n" + line.encode(errors="surrogateescape"), "")
    told = Teller(kept, "schedule", ask).told(f"fault schedule {words[2]} 1")
    return [told[0], *(it for it in told[1:] if not it.startswith((":", "line ")) and it.strip(" ^"))]
