"""For pytest: collects test_*.sancus, tells how two runs differ, and loads an application beside a test."""

from __future__ import annotations

from difflib import unified_diff
from typing import Any, Callable, Iterator, List, Optional

import pytest

from sancus.app import App, load
from sancus.expect import try_file
from sancus.run import Run


class NotMet(Exception):
    """What a file expects and doesn't get."""


class File(pytest.File):
    def collect(self) -> Iterator[pytest.Item]:
        yield Case.from_parent(self, name=self.path.stem)


class Case(pytest.Item):
    def runtest(self) -> None:
        found = try_file(self.path)
        if found.failures:
            raise NotMet("\n".join(map(str, found.failures)))

    def repr_failure(self, excinfo: pytest.ExceptionInfo[BaseException], style: Any = None) -> Any:
        return str(excinfo.value) if isinstance(excinfo.value, NotMet) else super().repr_failure(excinfo, style)

    def reportinfo(self) -> Any:
        return self.path, 0, self.name


def pytest_collect_file(file_path: Any, parent: Any) -> Optional[File]:
    if file_path.suffix == ".sancus" and file_path.name.startswith("test_"):
        file: File = File.from_parent(parent, path=file_path)
        return file
    return None


def pytest_assertrepr_compare(op: str, left: object, right: object) -> Optional[List[str]]:
    if op == "==" and isinstance(left, Run) and isinstance(right, Run):
        return ["two runs differ", *unified_diff(left.texts, right.texts, "left", "right", lineterm="", n=1)]
    return None


@pytest.fixture
def sancus_load(request: pytest.FixtureRequest) -> Callable[[str], App]:
    """Loads a deployment by its path from the folder of the test."""
    return lambda name: load(request.path.parent / name)
