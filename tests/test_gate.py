"""The gate .ci/run, with a command rt and checks after it that only print. What it needs, what it runs and when, and
that it ends when it is told to."""

import os
import re
import shutil
import signal
import subprocess
import sys
import time
import unittest
from contextlib import redirect_stdout
from io import StringIO

from support import TOP, Room, usual_signals

sys.path.insert(0, str(TOP / "bench"))
import instructions  # noqa: E402


class Gate(Room):
    """A folder with the gate, where `rt` and the checks after it write their names into a file."""

    def setUp(self):
        super().setUp()
        shutil.copytree(TOP / ".ci", self.room / ".ci")
        self.begun = self.room / "begun"
        self.script("tools/after_gate.sh", 'echo "after" >>begun; echo "of the checks"')

    def script(self, name, text):
        path = self.room / name
        path.parent.mkdir(exist_ok=True)
        path.write_text(f"#!/bin/bash\n{text}\n")
        path.chmod(0o755)

    def rt(self, text):
        self.script("bin/rt", f'echo "rt $*" >>begun; {text}')

    def start(self):
        path = f"{self.room / 'bin'}:/usr/bin:/bin"
        return subprocess.Popen(
            [self.room / ".ci" / "run"],
            stdin=subprocess.DEVNULL,
            stdout=subprocess.PIPE,
            stderr=subprocess.PIPE,
            text=True,
            env={**os.environ, "PATH": path},
            preexec_fn=usual_signals,
        )

    def ended(self):
        process = self.start()
        out, said = process.communicate(timeout=60)
        return process.returncode, out, said

    def test_what_passes(self):
        self.rt('echo "1 passed, 0 failed"')
        self.assertEqual(self.ended(), (0, "1 passed, 0 failed\n", "of the checks\n"))
        self.assertEqual(self.begun.read_text(), "rt ci\nafter\n")
        self.script("tools/after_gate.sh", "exit 2")
        self.assertEqual(self.ended(), (1, "1 passed, 0 failed\n", ""))

    def test_what_fails(self):
        self.rt('echo "0 passed, 1 failed"; exit 7')
        self.assertEqual(self.ended(), (7, "0 passed, 1 failed\n", ""))
        self.assertEqual(self.begun.read_text(), "rt ci\n")

    def test_no_kit(self):
        status, out, said = self.ended()
        self.assertEqual((status, out), (127, ""))
        first, second = said.splitlines()
        self.assertIn("needs the command rt of the Rattle kit", first)
        self.assertIn("python3 -m unittest discover -s tests", second)
        self.assertFalse(self.begun.exists())

    def test_it_is_told_to_end(self):
        self.rt('echo $$ >>begun; exec sleep 60')
        process = self.start()
        while not self.begun.exists() or self.begun.read_text().count("\n") < 2:
            time.sleep(0.02)
        process.terminate()
        process.communicate(timeout=30)
        self.assertEqual(process.returncode, -signal.SIGTERM)
        self.assertRegex(self.begun.read_text(), r"^rt ci\n\d+\n$")

    def test_the_line_is_plain(self):
        lines = (TOP / ".ci" / "run").read_text().splitlines()
        self.assertEqual(len([it for it in lines if re.search(r"^[^#]*\brt ci$", it)]), 1)


class Measures(unittest.TestCase):
    """What is printed of the processor's instructions after the gate."""

    def test_counts_that_are_far_from_their_figures(self):
        stored = {"run": {"instructions": 1000}}
        for case, count, shown in (("run", 1030, ""), ("run", 970, ""), ("run", 1031, "+3.10%"), ("run", 969, "-3.10%"), ("gen", 1, "no figure")):
            with self.subTest(count), redirect_stdout(StringIO()) as printed:
                is_near = instructions.are_near({case: {"instructions": count}}, stored, instructions.TOLERANCE_OF_GATE, True)
            self.assertEqual((is_near, printed.getvalue().split()[3:]), (not shown, shown.split()))


if __name__ == "__main__":
    unittest.main()
