"""What a command has at hand: the checkout, the program, and a voice."""

from __future__ import annotations

from sancus.builds import Builds
from sancus.cli.program import Program
from sancus.cli.say import Voice
from sancus.records import dataclass


@dataclass
class Context:
    """One call of the front end."""

    top: str
    voice: Voice
    builds: Builds
    program: Program
