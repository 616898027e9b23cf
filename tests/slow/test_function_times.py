"""tools/function_times.py on files that a check could have kept."""

import os
import subprocess
import sys
import tempfile
import unittest
from pathlib import Path

from slow import TOOLS

TOOL = TOOLS / "function_times.py"
# Names of files, and the second in which each was written.
KEPT = (
    ("Rattle-sx_a-specs.Words.oantt", 10),
    ("Rattle-sx_a-proofs.reading.Table.find.Lts.oantt", 16),
    ("Rattle-sx_a-proofs.reading.Table.find.Proof.oantt", 18),
    ("Rattle-sx_a-proofs.Lemmas.oantt", 21),
    ("Rattle-sx_a-proofs.reading.Table.find.Met.decls.oantt", 22),
)


class FunctionTimes(unittest.TestCase):
    def said(self, files):
        with tempfile.TemporaryDirectory() as room:
            for name, second in files:
                path = Path(room, "seed", name)
                path.parent.mkdir(exist_ok=True)
                path.write_text("")
                os.utime(path, (second, second))
            words = [sys.executable, TOOL, "sx_a", "--rows", "2", "--kept", room]
            return subprocess.run(words, capture_output=True, text=True)

    def test_longest_first(self):
        ran = self.said(KEPT)
        self.assertEqual(
            ran.stdout,
            "   12.0 seconds in all\n"
            "    9.0   75% proofs.reading.Table.find  Lts 6.0, Proof 2.0, Met 1.0\n"
            "    3.0  100% proofs.Lemmas  file 3.0\n",
        )
        self.assertEqual(ran.returncode, 0)

    def test_nothing_kept(self):
        ran = self.said(KEPT[:1])
        self.assertEqual(ran.stderr, "no check of sx_a has kept its files\n")
        self.assertEqual(ran.returncode, 1)


if __name__ == "__main__":
    unittest.main()
