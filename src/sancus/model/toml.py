"""Reads the TOML of a deployment, by Python's own library."""

from __future__ import annotations

import re
import sys
from importlib import import_module
from typing import Any, Dict, Optional

from sancus.status import NO_ANSWER, Ended


class NoToml(ValueError):
    """The text isn't TOML, perhaps with its line and column from 1, in characters."""

    def __init__(self, what: str, line: Optional[int] = None, column: Optional[int] = None) -> None:
        super().__init__(what)
        self.what, self.line, self.column = what, line, column


class NoReader(Ended):
    """There is nothing that reads TOML."""


def library() -> Any:
    """What reads TOML: Python has it from 3.11 on, and before that it is a package. (The command of a clone is started
    without the folders of packages.)"""
    try:
        return import_module("tomllib")
    except ImportError:
        import site

        site.main()
        sys.path.append(site.getusersitepackages())
    try:
        return import_module("tomli")
    except ImportError:
        raise NoReader(NO_ANSWER, "Python 3.10 needs the package tomli here: `pip install tomli`") from None


def read(text: str) -> Dict[str, Any]:
    reader = library()
    try:
        document: Dict[str, Any] = reader.loads(text)
        return document
    except RecursionError:
        raise NoToml("arrays and tables are nested too deep") from None
    except reader.TOMLDecodeError as error:
        found = re.search(r" \(at (?:line (\d+), column (\d+)|end of document)\)$", str(error))
        if found and found[1]:
            raise NoToml(str(error)[: found.start()], int(found[1]), int(found[2])) from None
        raise NoToml(str(error)) from None
