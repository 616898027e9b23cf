"""Sancus applications, verified, from Python.

    import sancus

    app = sancus.load("examples/lighting.txt")
    run = app.run()
    run.outs("lamp")  # [1]
    print(run.why("out lamp"))

docs/API.md has all of it. `sancus.cli` is the command line, and `sancus.model` what both are made of.
"""

from __future__ import annotations

TYPE_CHECKING = False
if TYPE_CHECKING:
    from typing import Any

    from sancus import items
    from sancus.app import App, load, loads
    from sancus.errors import Fault, NoCampaign, NoProgram, Refused
    from sancus.run import Run, State, Verdict
    from sancus.schedule import Schedule

__version__ = "0.1.0"
__all__ = ["App", "Fault", "NoCampaign", "NoProgram", "Refused", "Run", "Schedule", "State", "Verdict", "items", "load", "loads"]

HOMES = {
    **dict.fromkeys(("App", "load", "loads"), "sancus.app"),
    **dict.fromkeys(("Fault", "NoCampaign", "NoProgram", "Refused"), "sancus.errors"),
    **dict.fromkeys(("Run", "State", "Verdict"), "sancus.run"),
    "Live": "sancus.live",
    "Schedule": "sancus.schedule",
}


def __getattr__(name: str) -> Any:
    """What is asked for is loaded then: a command loads nothing of the API."""
    from importlib import import_module

    if name == "items":
        return import_module("sancus.items")
    if name not in HOMES:
        raise AttributeError(f"module 'sancus' has no attribute {name!r}")
    return getattr(import_module(HOMES[name]), name)
