"""The one table of words for faults, statuses and causes: src/sancus/faults.json, which the pages read too."""

from __future__ import annotations

import json
from functools import lru_cache
from pathlib import Path
from typing import Any, Dict

FILE = Path(__file__).resolve().parent.parent / "faults.json"


@lru_cache(maxsize=1)
def words() -> Dict[str, Any]:
    table: Dict[str, Any] = json.loads(FILE.read_text())
    return table
