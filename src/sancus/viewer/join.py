"""Joins the parts of the viewer to one page. Fault words and statuses come from src/sancus/faults.json, as everywhere."""

from __future__ import annotations

import base64
import hashlib
import re
from pathlib import Path

HERE = Path(__file__).resolve().parent
FAULTS = HERE.parent / "faults.json"
SCRIPTS = ("texts", "language", "plan", "values", "rows", "words", "draw", "export", "page")
SCRIPT = re.compile(r"<script>(.*?)</script>", re.S)
SEAL = re.compile(r"'sha256-[^']*'")


def joined() -> str:
    """The page: its style, its scripts, and the one table of words."""
    script = words() + "\n".join((HERE / f"{name}.js").read_text() for name in SCRIPTS)
    page = (HERE / "page.html").read_text()
    return sealed(page.replace("STYLE\n", (HERE / "style.css").read_text(), 1).replace("SCRIPT\n", script, 1))


def words() -> str:
    """The table of words, as a script has it."""
    return "const WORDS = " + FAULTS.read_text().strip().replace("</", "<\\/") + ";\n"


def sealed(page: str) -> str:
    """The page with the hash of its one script in its policy, so that no other script runs there."""
    (script,) = SCRIPT.findall(page)
    digest = base64.b64encode(hashlib.sha256(script.encode()).digest()).decode()
    return SEAL.sub(lambda _: f"'sha256-{digest}'", page, count=1)
