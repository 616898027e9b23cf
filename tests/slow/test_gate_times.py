"""tools/gate_times.py with a command rt and a prover that only sleep."""

import os
import subprocess
import sys
import tempfile
import unittest
from pathlib import Path

from slow import TOOLS, with_commands

TOOL = TOOLS / "gate_times.py"
# A prover that uses a processor for a second, and rt's three kinds of calls of it. $0 is the crate's folder.
PROVER = "#!/bin/bash\nend=$((SECONDS + 2)); while [[ $SECONDS -lt $end ]]; do :; done\n"
RT = """#!/bin/bash
echo "rt: begun $*"
mkdir -p crates/sx_a copy
(cd crates/sx_a && prover build --crate-name sx_a src/lib.rt) &
(cd crates/sx_a && prover build --crate-name sx_a src/lib.rt --test) &
wait
cd copy && prover check --crate-name sx_a src/lib.rt --incremental room/seed
prover check --crate-name sx_a src/lib.rt --incremental room/0
echo "1 passed, 0 failed"
exit 3
"""


@unittest.skipUnless(os.path.isdir("/proc/self"), "there is no /proc here")
class GateTimes(unittest.TestCase):
    def test_run_is_followed(self):
        with tempfile.TemporaryDirectory() as room:
            for name, text in (("rt", RT), ("prover", PROVER)):
                Path(room, name).write_text(text)
                Path(room, name).chmod(0o755)
            words = [sys.executable, TOOL, "run", "--every", "0.2", "--times", "times.json", "--", "--anew"]
            ran = subprocess.run(words, cwd=room, env=with_commands(room), capture_output=True, text=True)
            self.assertEqual(ran.returncode, 3)
            self.assertIn("[0:00] rt: begun ci --anew\n", ran.stderr)
            self.assertIn("1 passed, 0 failed\n", ran.stderr)
            row = ran.stdout.splitlines()[2]
            self.assertRegex(row, r"^\| sx_a \| 0:00 to 0:00, 0\.\d \| 0:00 to 0:00, 0\.\d \| .*, 1 tried \|$")
            again = subprocess.run(
                [sys.executable, TOOL, "table", "times.json"], cwd=room, capture_output=True, text=True
            )
            self.assertEqual(again.stdout, ran.stdout)

    def test_no_such_process(self):
        ran = subprocess.run([sys.executable, TOOL, "watch", "999999999"], capture_output=True, text=True)
        self.assertEqual((ran.returncode, ran.stderr), (1, "gate_times: there is no process 999999999\n"))


if __name__ == "__main__":
    unittest.main()
