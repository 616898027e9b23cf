#!/usr/bin/env python3
"""Prints a picture of an input's run as SVG, drawn by the viewer's own code; it needs `node`.

    tools/picture.py INPUT            the run of this input, with its set-up folded
    tools/picture.py --write          makes docs/run.svg again, the run of examples/forged_packet.txt
"""

import json
import os
import subprocess
import sys
from pathlib import Path

TOP = Path(__file__).resolve().parent.parent
sys.path.insert(0, str(TOP / "src"))

from sancus.builds import Builds  # noqa: E402
from sancus.cli.program import Program  # noqa: E402
from sancus.cli.say import Voice  # noqa: E402
from sancus.model.texts import Input  # noqa: E402
from sancus.viewer.pages import of_run  # noqa: E402

PICTURE = TOP / "docs" / "run.svg"
EXAMPLE = TOP / "examples" / "forged_packet.txt"


def picture(path, program):
    """The picture of an input's run."""
    texts = of_run(Input(path.read_bytes()), program).texts
    given = json.dumps({name: text.decode() for name, text in texts.items()})
    ran = subprocess.run(["node", str(TOP / "tools" / "picture.mjs")], input=given, capture_output=True, text=True)
    return ran.stdout if ran.returncode == 0 else sys.exit(ran.stderr)


def main():
    program = Program(Builds(TOP, os.environ.get("SANCUS_PROGRAM")), Voice(True))
    if sys.argv[1:] == ["--write"]:
        PICTURE.write_text(picture(EXAMPLE, program))
    else:
        sys.stdout.write(picture(Path(sys.argv[1]), program))


if __name__ == "__main__":
    main()
