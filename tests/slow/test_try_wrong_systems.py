"""tools/try_wrong_systems.py in a small repository, with a prover that only looks for a text."""

import shutil
import subprocess
import sys
import unittest

from slow import TOOLS, Room, with_commands

FILES = {
    "crates.txt": "sx_a:\nsx_b: sx_a\n",
    "crates/sx_a/specs/Lib.antt": "pub mod Key\npub mod Other\n",
    "crates/sx_a/specs/Key.antt": "key : Key\nkey = whole\n",
    "crates/sx_a/specs/Other.antt": "other : Other\n",
    "crates/sx_a/proofs/steps/OfKey.antt": "use Rattle.sx_a.specs.Key.{key}\nuse Rattle.sx_a.specs.Other.{other}\nof_key : Same\n",
    "crates/sx_a/proofs/Beside.antt": "use Rattle.sx_a.specs.Key.{key}\nbeside : Same\n",
    "crates/sx_b/specs/Law.antt": "law : Rattle.sx_a.specs.Key.key\n",
    "crates/sx_b/proofs/Final.antt": "use Rattle.sx_a.proofs.steps.OfKey.{of_key}\nuse Rattle.sx_b.specs.Law.{law}\nunseen : Law\n",
    "crates/sx_b/proofs/laws/unseen/Answers.antt": "use Rattle.sx_b.proofs.Final.{unseen}\n",
}
EDIT = """law: sx_b unseen
lemma: sx_a/proofs/steps/OfKey.antt of_key
file: sx_a/specs/Key.antt
old: key = whole
new: key = cut\\n-- of the key
"""
# Refuses the lemma that REFUSED names in each crate whose key is cut, keeps the last crate, and the words.
RATTLE = """#!/bin/bash
echo "$@" >"$ROOM/words"
rm -rf "$ROOM/made"
cp -r proofs "$ROOM/made"
grep -q cut proofs/sx_a_specs_Key.antt || exit 0
echo "./proofs/$REFUSED: error: \\`of_key\\`: the types differ"
exit 1
"""


class TryWrongSystems(Room):
    def setUp(self):
        super().setUp()
        self.top = self.room / "repository"
        for file, text in {**FILES, "wrong-systems/cut_key.edit": EDIT}.items():
            self.write(self.top / file, text)
        for crate in ("sx_a", "sx_b"):
            (self.top / f"crates/{crate}/out/rlib/{crate}.rlib").mkdir(parents=True)
        (self.room / "rlibs/std.rlib").mkdir(parents=True)
        (self.top / "tools").mkdir()
        for tool in ("try_wrong_systems.py", "edits.py", "crate_lists.py"):
            shutil.copy(TOOLS / tool, self.top / "tools")
        for command, text in (("rt", f"#!/bin/bash\necho {self.room}/START-HERE.md\n"), ("bin/rattle", RATTLE)):
            self.write(self.room / command, text)
            (self.room / command).chmod(0o755)

    def write(self, path, text):
        path.parent.mkdir(parents=True, exist_ok=True)
        path.write_text(text)

    def tried(self, *words, refused="sx_a_proofs_steps_OfKey.antt:3:1"):
        where = with_commands(self.room, ROOM=str(self.room), REFUSED=refused)
        tool = self.top / "tools/try_wrong_systems.py"
        return subprocess.run([sys.executable, tool, *words], env=where, capture_output=True, text=True)

    def test_refused(self):
        ran = self.tried()
        self.assertEqual(ran.returncode, 0, ran.stdout + ran.stderr)
        self.assertRegex(ran.stdout, r"^cut_key: 4 files in \d+ s\n  refused: sx_a/proofs/steps/OfKey.antt of_key\n")
        self.assertRegex(ran.stdout, r"\n1 wrong systems in \d+ s: 1 refused by the lemmas that they name\n$")

    def test_the_crate_that_is_made(self):
        self.tried()
        made = {path.name: path.read_text() for path in (self.room / "made").iterdir()}
        names = ["sx_a_proofs_steps_OfKey", "sx_a_specs_Key", "sx_b_proofs_Final", "sx_b_specs_Law"]
        self.assertEqual(made.pop("Lib.antt"), "".join(f"pub mod {name}\n" for name in names))
        self.assertEqual(sorted(made), [f"{name}.antt" for name in names])
        self.assertEqual(made["sx_a_specs_Key.antt"], "key : Key\nkey = cut\n-- of the key\n")
        self.assertEqual(made["sx_b_specs_Law.antt"], "law : Rattle.wrong_system.proofs.sx_a_specs_Key.key\n")
        uses = "use Rattle.wrong_system.proofs.sx_a_specs_Key.{key}\nuse Rattle.sx_a.specs.Other.{other}\nof_key : Same\n"
        self.assertEqual(made["sx_a_proofs_steps_OfKey.antt"], uses)
        given = (self.room / "words").read_text()
        self.assertIn(f"--extern sx_a={self.top}/crates/sx_a/out/rlib/sx_a.rlib", given)
        self.assertNotIn("--extern sx_b=", given)

    def test_another_lemma_is_refused(self):
        ran = self.tried(refused="sx_b_proofs_Final.antt:3:1")
        self.assertEqual(ran.returncode, 1)
        self.assertIn("  and with it: sx_b/proofs/Final.antt of_key\n", ran.stdout)
        self.assertIn("  NOT REFUSED: sx_a/proofs/steps/OfKey.antt of_key\n", ran.stdout)

    def test_a_definition_is_refused(self):
        ran = self.tried(refused="sx_a_specs_Key.antt:2:7")
        self.assertEqual(ran.returncode, 1)
        self.assertIn("  ./proofs/sx_a_specs_Key.antt:2:7: error: `of_key`: the types differ\n", ran.stdout)

    def test_files_that_are_refused_as_they_stand(self):
        self.write(self.top / "crates/sx_a/specs/Key.antt", "-- cut\nkey = whole\n")
        ran = self.tried()
        self.assertEqual(ran.returncode, 1)
        self.assertIn("  as the files stand: sx_a/proofs/steps/OfKey.antt of_key\n", ran.stdout)

    def test_without_libraries(self):
        shutil.rmtree(self.top / "crates/sx_a/out")
        ran = self.tried()
        self.assertEqual((ran.returncode, ran.stdout), (2, ""))
        self.assertIn("try_wrong_systems: there is no library of sx_a", ran.stderr)
        self.assertEqual(self.tried("--libraries", str(self.room)).returncode, 2)

    def test_applies(self):
        self.assertEqual((self.tried("--applies").returncode, self.tried("--applies").stdout), (0, ""))
        edit = self.top / "wrong-systems/cut_key.edit"
        edit.write_text(EDIT.replace("= whole", "= half").replace("OfKey.antt of_key", "OfKey.antt of"))
        ran = self.tried("--applies")
        self.assertEqual(ran.returncode, 1)
        self.assertIn("wrong-systems/cut_key.edit: in sx_a/specs/Key.antt this stands 0 times: key = half\n", ran.stdout)
        self.assertIn("cut_key.edit: there is no lemma of in sx_a/proofs/steps/OfKey.antt\n", ran.stdout)

    def test_names(self):
        ran = self.tried("--list", "wrong-systems/cut_key.edit")
        self.assertEqual(ran.stdout, "cut_key: sx_b unseen: sx_a/proofs/steps/OfKey.antt of_key\n")
        ran = self.tried("none")
        self.assertEqual(ran.returncode, 1)
        self.assertIn("none is no wrong system", ran.stderr)


if __name__ == "__main__":
    unittest.main()
