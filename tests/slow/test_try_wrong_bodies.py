"""tools/try_wrong_bodies.py in a small repository, with a command rt that only prints."""

import shutil
import subprocess
import sys
import unittest

from slow import TOOLS, Room, with_commands

TOOL = TOOLS / "try_wrong_bodies.py"
RT = """#!/bin/bash
echo "rt: jobs ${RT_JOBS:-any}"
for edit in crates/$2/must-fail/*.edit; do
  case "$edit" in
    */kept.edit) echo "rt: must-fail $2/kept.edit: NOT REFUSED: the crate is still proved" ;;
    *) echo "rt: must-fail $2/$(basename "$edit"): refused, as it must be: src/lib.rt:1:1: error" ;;
  esac
done
"""


class TryWrongBodies(Room):
    def setUp(self):
        super().setUp()
        self.top = self.room / "repository"
        files = ["crates/sx_a/src/lib.rt", "crates/sx_a/must-fail/gate.edit", "crates/sx_b/specs/B.antt"]
        files += ["wrong-bodies/sx_a/one.edit", "wrong-bodies/sx_a/two.edit", "wrong-bodies/sx_b/kept.edit"]
        for file in files:
            (self.top / file).parent.mkdir(parents=True, exist_ok=True)
            (self.top / file).write_text("")
        (self.top / "tools").mkdir()
        for tool in (TOOL, TOOL.with_name("edits.py")):
            shutil.copy(tool, self.top / "tools")
        (self.room / "rt").write_text(RT)
        (self.room / "rt").chmod(0o755)

    def git(self, *words):
        who = ["-c", "user.name=n", "-c", "user.email=e"]
        subprocess.run(["git", *who, *words], cwd=self.top, check=True, capture_output=True)

    def tried(self, *words):
        tool = self.top / "tools" / TOOL.name
        return subprocess.run(
            [sys.executable, tool, *words], env=with_commands(self.room), capture_output=True, text=True
        )

    def test_all(self):
        ran = self.tried()
        self.assertEqual(ran.returncode, 1)
        self.assertIn("sx_a: 2: one two\nsx_b: 1: kept\n3 wrong bodies of 2 crates\n", ran.stdout)
        self.assertRegex(ran.stdout, r"sx_a: 2 wrong bodies in \d+ s: 2 refused\n")
        self.assertRegex(ran.stdout, r"3 wrong bodies in \d+ s: 2 refused\nsx_b/kept: NOT REFUSED\n$")
        self.assertNotIn("gate.edit", ran.stdout)

    def test_an_edit_that_lost_its_place(self):
        (self.top / "crates/sx_a/src/lib.rt").write_text("fn one() {}\n")
        edit = self.top / "wrong-bodies/sx_a/one.edit"
        edit.write_text("file: src/lib.rt\nold: one()\nnew: two()\n")
        self.assertEqual(self.tried("--applies").stdout, "")
        edit.write_text("file: src/lib.rt\nold: three()\nnew: two()\n")
        ran = self.tried("--applies")
        self.assertEqual(ran.returncode, 1)
        self.assertIn("wrong-bodies/sx_a/one.edit: in src/lib.rt this stands 0 times: three()", ran.stdout)

    def test_an_edit_of_a_crate_below(self):
        (self.top / "wrong-bodies/sx_b/kept.edit").unlink()
        (self.top / "wrong-bodies/sx_b/low.edit").write_text("crate: sx_a\nfile: src/lib.rt\nold: x\nnew: y\\nz\n")
        (self.top / "crates/sx_a/src/lib.rt").write_text("x\n")
        (self.room / "rt").write_text("#!/bin/bash\ngrep -q z ../sx_a/src/lib.rt && exit 1\nexit 0\n")
        ran = self.tried("sx_b")
        self.assertIn("1 refused", ran.stdout)
        self.assertEqual((self.top / "crates/sx_a/src/lib.rt").read_text(), "x\n")

    def test_names_and_processors(self):
        ran = self.tried("--jobs", "3", "sx_a/two.edit")
        self.assertEqual(ran.returncode, 0)
        self.assertIn("rt: jobs 3\nrt: must-fail sx_a/two.edit: refused", ran.stdout)
        self.assertNotIn("one.edit", ran.stdout)

    def test_no_such_name(self):
        ran = self.tried("sx_c")
        self.assertEqual((ran.returncode, ran.stdout), (1, ""))
        self.assertIn("sx_c is no wrong body", ran.stderr)

    def test_changed_since(self):
        self.git("init", "-q")
        self.git("add", ".")
        self.git("commit", "-qm", "first")
        self.assertIn("0 wrong bodies of 0 crates\n", self.tried("--changed-since", "HEAD").stdout)
        (self.top / "crates/sx_b/specs/B.antt").write_text("changed")
        (self.top / "wrong-bodies/sx_a/two.edit").write_text("changed")
        ran = self.tried("--list", "--changed-since", "HEAD")
        self.assertEqual(ran.stdout, "sx_a: 1: two\nsx_b: 1: kept\n2 wrong bodies of 2 crates\n")
        self.assertEqual(self.tried("--changed-since", "none").returncode, 1)


if __name__ == "__main__":
    unittest.main()
