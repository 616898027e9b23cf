"""Texts as people are shown them: without anything that a terminal would obey, and not too long."""

from __future__ import annotations

# Of a longer line of an input its beginning is shown.
MOST_SHOWN = 200
SHOWN = 60


def plain(text: str) -> str:
    """The text with each control character written out, so that an input can't move the cursor or hide a line."""
    if text.isprintable():
        return text
    return "".join(it if it == "\t" or it.isprintable() else escaped(it) for it in text)


def short(text: str) -> str:
    """A line of an input, or the beginning of a long one with its length."""
    if len(text) <= MOST_SHOWN:
        return text
    return f"{text[:SHOWN]}.. ({len(text.encode(errors='surrogateescape')):,} bytes)"


def escaped(letter: str) -> str:
    code = ord(letter)
    # (a byte that is no UTF-8 was read as one of these)
    if 0xDC80 <= code <= 0xDCFF:
        return f"\\x{code - 0xDC00:02x}"
    return f"\\x{code:02x}" if code < 0x100 else f"\\u{code:04x}"


def text_of(line: bytes) -> str:
    """A line of an input as text, whatever its bytes."""
    return line.decode(errors="surrogateescape")


def quoted(name: str) -> str:
    """A file's name as a shell takes it, for a command that is shown."""
    from shlex import quote

    return quote(name)
