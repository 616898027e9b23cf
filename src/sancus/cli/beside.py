"""Two runs of one deployment side by side on one page, with the first difference marked in both."""

from __future__ import annotations

import html
import re
from itertools import zip_longest
from pathlib import Path
from typing import List, Optional, Tuple

from sancus.cli.commands import Given, Usage
from sancus.cli.context import Context
from sancus.cli.output import print_lines
from sancus.cli.view import page_for, run_drawn
from sancus.cli.writing import write_file
from sancus.model.shown import text_of
from sancus.viewer.join import joined
from sancus.viewer.pages import Drawn, page_of

POLICY = re.compile(r'<meta http-equiv="Content-Security-Policy"[^>]*>')
# (the pages of the runs have the same script, so the policy's sum lets it run in both)
PAGE = """<!doctype html>
<html lang="en">
<meta charset="utf-8">
{policy}
<meta name="viewport" content="width=device-width">
<title>{title}</title>
<style>
html, body {{ height: 100%; margin: 0; }}
body {{ display: flex; flex-wrap: wrap; }}
iframe {{ flex: 1 1 480px; min-height: 50%; border: 0; border-left: 1px solid #888; }}
</style>
{frames}
</html>
"""


def items_of(drawn: Drawn) -> List[str]:
    """The items of a run, without the lines of its schedule."""
    lines = [text_of(it) for it in drawn.texts["output"].split(b"\n") if it and not it.startswith((b"image ", b"> "))]
    return [it for it in lines if it not in ("trace", "end") and not it.startswith(("steps ", "fault "))]


def difference(one: List[str], other: List[str]) -> Optional[int]:
    """The number of the first item in which two runs differ; one of them may have ended before it."""
    pairs = zip_longest(one, other)
    return next((at for at, (a, b) in enumerate(pairs, 1) if a != b), None)


def said(items: List[str], at: int) -> str:
    return f"`{items[at - 1]}`" if at <= len(items) else "the end"


def marked(runs: Tuple[Drawn, Drawn], names: Tuple[str, str]) -> str:
    """Puts into both runs where they differ first, and returns it in words."""
    both = [items_of(it) for it in runs]
    at = difference(*both)
    words = (
        f"first difference, item {at}: {said(both[0], at)} in {names[0]}, {said(both[1], at)} in {names[1]}"
        if at
        else "both runs have the same items"
    )
    for it, name, own in zip(runs, names, both):
        it.texts["name"] = name.encode(errors="surrogateescape")
        it.texts["differs"] = f"{min(at or 0, len(own))} {words}".encode(errors="surrogateescape")
    return words


def frame(drawn: Drawn) -> str:
    page = page_of(drawn.texts).replace("&", "&amp;").replace("'", "&#39;")
    title = html.escape(drawn.texts["name"].decode(errors="replace"))
    return f"<iframe title=\"{title}\" srcdoc='{page}'></iframe>"


def answer(context: Context, given: Given) -> int:
    files = [*given.texts("INPUT"), *given.texts("FILE")]
    if len(files) != 3:
        raise Usage("`view --beside` takes a deployment and two files, one of each run", given.command)
    own = Path(files[2]).with_name(f"{Path(files[1]).stem}.{Path(files[2]).name}")
    page = page_for(given, [files[0], str(own)], files)
    first, second = (run_drawn(context, given, [files[0], it]) for it in files[1:])
    names = (Path(files[1]).name, Path(files[2]).name)
    words = marked((first, second), names)
    frames = "\n".join(map(frame, (first, second)))
    policy = POLICY.search(joined())
    text = PAGE.format(policy=policy[0] if policy else "", title=html.escape(" | ".join(names)), frames=frames)
    write_file(page, text)
    print_lines(str(page))
    context.voice.say(words)
    return first.status or second.status
