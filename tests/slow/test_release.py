"""tools/release.sh, .ci/run over it, and which build ./sancus starts, in a repository of its own with programs and a
command rt that only print."""

import os
import re
import shutil
import subprocess
import unittest

from slow import TOP, Room, with_commands

PROGRAM = """# GLIBC_2.4 GLIBC_2.34
[[ "$1" == check ]] && echo end && exit; echo "ran $* in $(basename "$(dirname "$0")")"; cat; exit 3"""
RT = """[[ "$1" == version ]] && echo "kit of the test" && exit; [[ "$1" == ci ]] && echo "1 passed, 0 failed" && exit
echo "rt was called" >&2; exit 1"""
NOTHING = "import unittest\nclass Nothing(unittest.TestCase):\n    def test_it(self): pass\n"


class Repository(Room):
    """Sources alone, and an rt that runs nothing."""

    def setUp(self):
        super().setUp()
        self.top = self.room / "repository"
        self.out = self.top / "crates/sancus_run/out"
        self.built = self.out / "sancus_run"
        self.main = self.write("crates/sancus_run/src/main.rt", "fn main() {}\n")
        self.released = self.top / "release/sancus_run"
        self.wasm = self.top / "release/sancus.wasm"
        self.note = self.top / "release/RELEASE"
        self.write("crates/sx_top/specs/Top.antt", "Top = ℕ\n")
        self.write("crates.txt", "sancus_run: sx_top\n")
        self.write("HANDLES", "Handles allowed: none.\n")
        self.write("tests/test_nothing.py", NOTHING)
        # (of what else runs after the gate, nothing is here)
        for name in ("try_wrong_bodies", "try_wrong_systems", "crate_lists", "contracts", "recursion"):
            self.write(f"tools/{name}.py", "")
        self.write("bench/instructions.py", "")
        for name in ("sancus", "tools/release.sh", "tools/after_gate.sh"):
            shutil.copy(TOP / name, self.top / name)
        for name in (".ci", "src"):
            shutil.copytree(TOP / name, self.top / name, ignore=shutil.ignore_patterns("__pycache__"))
        self.command("../bin/rt", RT)
        self.command("../bin/mypy", "")

    def write(self, name, text):
        path = self.top / name
        path.parent.mkdir(parents=True, exist_ok=True)
        path.write_text(text)
        return path

    def command(self, name, text):
        self.write(name, f"#!/bin/bash\n{text}\n").chmod(0o755)

    def prove(self):
        """What a gate leaves."""
        self.command("crates/sancus_run/out/sancus_run", PROGRAM)
        self.tool("stamp")

    def release(self):
        self.prove()
        self.tool("make")

    def release_alone(self):
        self.release()
        shutil.rmtree(self.out)

    def call(self, *words):
        env = with_commands(self.room / "bin")
        env.pop("SANCUS_PROGRAM", None)
        ran = subprocess.run(words, input="in\n", capture_output=True, text=True, env=env)
        return ran.returncode, ran.stdout, ran.stderr

    def tool(self, *words):
        return self.call(self.top / "tools/release.sh", *words)

    def change(self, path, old, new):
        """Changes a text of a file, and keeps the time of its last write."""
        seen, text = path.stat(), path.read_text()
        self.assertIsNotNone(re.search(old, text, re.MULTILINE))
        path.write_text(re.sub(old, new, text, count=1, flags=re.MULTILINE))
        os.utime(path, ns=(seen.st_atime_ns, seen.st_mtime_ns))

    def ends(self, ran, status, out, said):
        """Status and output, and words on standard error among others; none if there are to be none."""
        self.assertEqual(ran[:2], (status, out), ran[2])
        self.assertIn(said, ran[2])
        self.assertTrue(said or not ran[2], ran[2])


class Notes(Repository):
    """The note of a release, and its check."""

    def test_the_build_that_stands(self):
        self.release()
        self.ends(self.tool("check"), 0, "", "")
        self.assertIn("needs glibc 2.34, processor x86-64-v2\n", self.note.read_text())
        self.ends(self.call(self.top / ".ci/run"), 0, "1 passed, 0 failed\n", "")
        self.change(self.released, "ran", "rxn")
        said = "isn't the build that its note names"
        self.ends(self.call(self.top / ".ci/run"), 1, "1 passed, 0 failed\n", said)

    def test_a_gate_that_fails(self):
        self.release()
        self.change(self.released, "ran", "rxn")
        self.command("../bin/rt", "echo '0 passed, 1 failed'; exit 7")
        self.ends(self.call(self.top / ".ci/run"), 7, "0 passed, 1 failed\n", "")

    def test_a_checker_that_finds_something(self):
        self.release()
        for version, status, said in ("1.0.1", 1, "wrong type"), ("1.13.0", 0, ""):
            answers = f"[ \"$1\" != --version ] || exec echo mypy {version} '(compiled: yes)'"
            self.command("../bin/mypy", f"{answers}\necho wrong type\nexit 1")
            self.ends(self.call(self.top / ".ci/run"), status, "1 passed, 0 failed\n", said)

    def test_tests_that_fail_after_the_gate(self):
        self.release()
        self.write("tests/test_nothing.py", NOTHING.replace("pass", "self.fail('wrong')"))
        self.ends(self.call(self.top / ".ci/run"), 1, "1 passed, 0 failed\n", "AssertionError: wrong")

    def test_a_byte_of_the_note(self):
        for word in ("program", "needs", "kit", "sources", "bytes", "sha256", "note"):
            self.release()
            self.change(self.note, f"^({word} .*).$", r"\1x")
            self.ends(self.tool("check"), 1, "", "release/RELEASE isn't as it was written")

    def test_another_build(self):
        self.release()
        with open(self.built, "a") as file:
            file.write("\n")
        self.ends(self.tool("check"), 1, "", "isn't the build that was proved here")

    def test_another_kit(self):
        self.release()
        self.command("../bin/rt", "echo 'another kit'")
        self.ends(self.tool("check"), 0, "", "not compared with the build here")
        self.change(self.released, "ran", "rxn")
        self.ends(self.tool("check"), 1, "", "isn't the build that its note names")

    def test_another_source(self):
        self.release()
        self.change(self.main, "main", "mein")
        self.ends(self.tool("check"), 1, "", "release/ is of other sources")

    def test_no_build(self):
        self.release_alone()
        self.ends(self.tool("check"), 1, "", "there is no proved build to compare with")
        self.ends(self.tool("make"), 1, "", "there is no proved build")

    def test_webassembly(self):
        """It is made by a script that writes the program's sum."""
        self.release()
        self.wasm.write_text("a module\n")
        self.ends(self.tool("check"), 1, "", "sancus.wasm isn't the one that the note names")
        self.command("tools/wasm/make.sh", 'sha256sum <"$1" >"$2"')
        self.ends(self.tool("wasm"), 0, "", "")
        self.ends(self.tool("check"), 0, "", "")
        self.change(self.wasm, "^.", "x")
        self.ends(self.tool("check"), 1, "", "sancus.wasm isn't the one that the note names")

    def test_a_later_build_keeps_the_webassembly_of_an_earlier_one(self):
        self.release()
        self.command("tools/wasm/make.sh", 'sha256sum <"$1" >"$2"')
        self.tool("wasm")
        before = re.search("^wasm-of .*$", self.note.read_text(), re.MULTILINE)[0]
        with open(self.built, "a") as file:
            file.write("# more\n")
        self.ends(self.tool("make"), 0, "", "")
        self.ends(self.tool("check"), 0, "", "")
        self.assertIn(f"{before}\n", self.note.read_text())


class Started(Repository):
    """Which build is started."""

    def starts(self, place):
        self.assertEqual(self.call(self.top / "sancus", "run")[:2], (3, f"ran run in {place}\nin\n"))

    def refuses(self, said):
        self.ends(self.call(self.top / "sancus", "run"), 125, "", said)

    def test_the_proved_one(self):
        self.prove()
        self.starts("out")
        shutil.copytree(self.top, self.room / "copy")
        self.assertEqual(self.call(self.room / "copy/sancus", "run")[:2], (3, "ran run in out\nin\n"))
        self.main.touch()
        self.starts("out")
        self.change(self.main, "main", "mein")
        self.refuses("crates/sancus_run/src/main.rt")

    def test_the_first_source_that_differs(self):
        self.prove()
        self.write("crates/sx_top/specs/More.antt", "")
        self.refuses("crates/sx_top/specs/More.antt")
        self.write("crates/sancus_run/src/main.rt", "fn mein() {}\n")
        self.refuses("crates/sancus_run/src/main.rt")

    def test_another_program_in_the_place_of_the_proved_one(self):
        self.prove()
        self.command("crates/sancus_run/out/sancus_run", "echo other")
        self.refuses("rt was called")

    def test_the_released_one(self):
        self.release()
        self.command("crates/sancus_run/out/sancus_run", "echo other")
        self.starts("release")
        shutil.rmtree(self.out)
        self.starts("release")
        # (by what is kept)
        self.starts("release")
        self.change(self.main, "main", "mein")
        self.refuses("the released build is of other sources")

    def test_the_first_source_that_differs_from_the_release(self):
        self.release_alone()
        who = ["-c", "user.name=test", "-c", "user.email=test@localhost"]
        for words in (["init", "-q"], ["add", "."], [*who, "commit", "-qm", "released"]):
            subprocess.run(["git", "-C", self.top, *words], check=True)
        self.change(self.main, "main", "mein")
        self.refuses("crates/sancus_run/src/main.rt")

    def test_a_release_that_is_not_as_it_was(self):
        self.release_alone()
        self.command("release/sancus_run", "echo other")
        self.refuses("isn't the build that")
        self.release_alone()
        self.change(self.note, "^(needs .*)2", r"\g<1>3")
        self.refuses("isn't")

    def test_a_release_that_does_not_start(self):
        self.command("crates/sancus_run/out/sancus_run", "# GLIBC_2.34\necho 'GLIBC_2.34 not found' >&2; exit 1")
        self.tool("make")
        shutil.rmtree(self.out)
        self.refuses("it needs glibc 2.34, processor x86-64-v2")


if __name__ == "__main__":
    unittest.main()
