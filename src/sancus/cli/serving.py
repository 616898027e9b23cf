"""`sancus lsp`: the language server, over standard input and output."""

from __future__ import annotations

import os
import sys

from sancus.cli.context import Context
from sancus.lsp.checks import Limited
from sancus.lsp.server import Server
from sancus.status import NO_ANSWER, Ended


def answer(context: Context) -> int:
    build = context.program.build()
    if not build.is_fast:
        raise Ended(NO_ANSWER, "the server needs a build that answers at once: `./sancus build` makes the proved one")
    if os.isatty(0):
        context.voice.say("an editor starts this, and speaks with it (docs/HOWTO.md); Ctrl-C leaves")
    return Server(Limited(build.command), sys.stdin.buffer, sys.stdout.buffer).serve()
