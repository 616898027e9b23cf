"""Builds without proof, and `sancus build`, by a command rt that only prints; its lines are those of the real one.

Which build is started, by sums, is tried by tests/slow/test_release.py; here, what is started where the released one can't
run.
"""

import os
import shutil
import subprocess
import time
import unittest
from unittest.mock import patch

from support import EXAMPLES, LIGHTING, PROGRAM, SANCUS, TOP, Room, needs_program

from sancus import builds, kept
from sancus.builds import Sources, sum_of
from sancus.status import Ended


class Builds(Room):
    """A repository with sources alone, and an rt that is a shell program."""

    def setUp(self):
        super().setUp()
        self.top = self.room / "repository"
        self.crate = self.top / "crates" / "sancus_run"
        for folder in (self.crate / "src", self.top / "crates" / "sx_top" / "specs", self.room / "bin"):
            folder.mkdir(parents=True)
        for name, text in (("crates.txt", "sancus_run: sx_top\nsx_top:\n"), ("HANDLES", "none\n")):
            (self.top / name).write_text(text)
        (self.crate / "src" / "main.rt").write_text("fn main() {}\n")
        shutil.copy(TOP / "sancus", self.top)
        shutil.copytree(TOP / "src", self.top / "src", ignore=shutil.ignore_patterns("__pycache__"))

    def rt(self, script):
        path = self.room / "bin" / "rt"
        path.write_text(f"#!/bin/bash\n{script}\n")
        path.chmod(0o755)

    def call(self, *words, text="in\n", **env):
        path = f"{self.room / 'bin'}:{os.environ['PATH']}"
        whole = {**os.environ, "PATH": path, **env}
        whole.pop("SANCUS_PROGRAM", None)
        ran = subprocess.run([self.top / "sancus", *words], input=text, capture_output=True, text=True, env=whole)
        return ran.returncode, ran.stdout, ran.stderr

    def test_a_build_without_proof(self):
        self.rt('cat; echo "run=ended status=3 runners=1 proved=no" >&2; exit 3')
        status, out, said = self.call("run")
        self.assertEqual((status, out), (3, "in\n"))
        self.assertIn("this build isn't proved", said)
        file = self.file("x", "of a file\n")
        self.assertEqual(self.call("run", str(file))[1], "of a file\n")

    def test_a_fault_in_words(self):
        self.rt(
            'cat >/dev/null; echo "fault deployment D4 top"; echo "run=ended status=1 runners=1 proved=no" >&2; exit 1'
        )
        status, out, said = self.call("check", str(self.file("x", "secret = 3\n%%\n")))
        self.assertEqual((status, out), (1, "fault deployment D4 top\n"))
        self.assertIn("must be 32 hexadecimal digits", said)

    def test_no_answer(self):
        for script, words in (
            (
                'echo "src/main.rt:31:21: error: no such type" >&2; echo "run=none proved=no" >&2; exit 1',
                "src/main.rt:31:21: error",
            ),
            (
                'echo "checked: fault: an index out of bounds" >&2; echo "run=fault proved=no" >&2; exit 1',
                "an index out of bounds",
            ),
            ('echo trace; echo "run=no-answer proved=no" >&2; exit 6', "was ended early, after 5 seconds"),
        ):
            self.rt(script)
            status, _, said = self.call("run", SANCUS_SECONDS="5")
            self.assertEqual(status, 125)
            self.assertIn(words, said)

    def test_words_are_judged_before_anything_is_built(self):
        self.rt('echo "rt was called" >&2')
        for words in ("", "--help", "help", "run --help", "gen 0", "dis", "nothing", "build 3", "build --jobs x"):
            self.assertNotIn("rt was called", self.call(*words.split())[2])

    def test_no_rt(self):
        (self.room / "bin" / "python3").symlink_to(shutil.which("python3"))
        ran = subprocess.run(
            [self.top / "sancus", "run"],
            capture_output=True,
            text=True,
            env={"PATH": str(self.room / "bin") + ":/usr/bin:/bin"},
        )
        self.assertEqual(ran.returncode, 125)
        self.assertIn("isn't on the path", ran.stderr)

    def test_line_by_line_needs_a_build(self):
        self.rt('echo "run=none proved=no" >&2; exit 1')
        status, out, said = self.call("schedule", text="%%\nreset n\n")
        self.assertEqual((status, out), (125, ""))
        self.assertIn("needs a fast build", said)

    def test_build(self):
        self.rt(
            'echo "fn sancus_run::main: proved"; mkdir -p out; printf "#!/bin/bash\\necho built\\n" >out/sancus_run; chmod +x out/sancus_run'
        )
        status, out, said = self.call("build", "--jobs", "1")
        self.assertEqual((status, out), (0, ""))
        for words in ("proved and built in ", "fn sancus_run::main: proved", "; 1 at a time"):
            self.assertIn(words, said)
        self.assertEqual(self.call("run")[:2], (0, "built\n"))
        self.assertIn("proved build", self.call("version")[1])
        (self.crate / "src" / "main.rt").write_text("fn main() { }\n")
        self.assertIn("crates/sancus_run/src/main.rt differs", self.call("run")[2])

    def test_build_one_by_one(self):
        self.rt(
            'if [[ "$1" == all ]]; then echo "$PWD: $*"; exit; fi\nmkdir -p out; printf "#!/bin/bash\\n" >out/sancus_run; chmod +x out/sancus_run'
        )
        self.assertIn(f"{self.top}/crates: all check --jobs 4", self.call("build", "--jobs", "4")[2])

    def test_build_says_how_far_it_is(self):
        work = "../../crates/sx_top/out/rlib"
        self.rt(
            f'mkdir -p {work}; sleep 0.5; touch {work}/stamp; sleep 0.5; mkdir -p out; printf "#!/bin/bash\\n" >out/sancus_run; chmod +x out/sancus_run'
        )
        said = self.call("build", "--jobs", "1", SANCUS_LOOK="0.1")[2]
        self.assertIn("0 of 1 crates below the program are proved, after 0 seconds; at work: sx_top", said)
        self.assertIn("1 of 1 crates below the program are proved", said)

    def test_a_build_that_fails(self):
        self.rt('echo "fn sancus_run::main: not proved"; exit 1')
        status, _, said = self.call("build", "--jobs", "1")
        self.assertEqual(status, 125)
        self.assertIn("fn sancus_run::main: not proved", said)
        self.assertIn("not built", said)


class Hosted(Room):
    """A release whose native program may be unable to run, and commands of the names of hosts."""

    def setUp(self):
        super().setUp()
        self.top = self.room / "repository"
        for name in ("release/sancus.wasm", "crates.txt", "HANDLES", "bin/none"):
            (self.top / name).parent.mkdir(parents=True, exist_ok=True)
            (self.top / name).write_text(name)
        self.program("release/sancus_run", "echo end")

    def program(self, name, text):
        path = self.top / name
        path.write_text(f"#!/bin/sh\n{text}\n")
        path.chmod(0o755)

    def note(self):
        native, wasm = (sum_of((self.top / "release" / it).read_bytes()) for it in ("sancus_run", "sancus.wasm"))
        lines = ["needs glibc 9.9", f"sources {Sources(str(self.top)).sum()}", f"sha256 {native}", f"wasm-of {native}"]
        text = "".join(f"{it}\n" for it in [*lines, f"wasm-sha256 {wasm}"])
        (self.top / "release" / "RELEASE").write_text(f"{text}note {sum_of(text.encode())}\n")

    def chosen(self, machine="x86_64"):
        if not (self.top / "release" / "RELEASE").exists():
            self.note()
        with patch.dict(os.environ, PATH=str(self.top / "bin")), patch("sancus.builds.machine", return_value=("Linux", machine)):
            return builds.Builds(self.top).choose()

    def is_hosted(self, why, machine="x86_64"):
        build = self.chosen(machine)
        wasm = str(self.top / "release" / "sancus.wasm")
        self.assertEqual(build.command, [str(self.top / "bin/node"), str(self.top / "tools/wasm/run.mjs"), wasm])
        self.assertTrue(build.is_fast)
        [said] = build.notes
        self.assertIn(why, said)
        self.assertIn("; node runs release/sancus.wasm", said)

    def test_the_native_one_where_it_runs(self):
        self.program("bin/node", "echo end")
        self.assertEqual(self.chosen().command, [str(self.top / "release/sancus_run")])

    def test_another_processor(self):
        self.program("bin/node", "echo end")
        self.is_hosted("is for Linux on x86-64, and this is Linux on riscv64", "riscv64")

    def test_an_older_library(self):
        self.program("bin/node", "echo end")
        self.program("release/sancus_run", "echo 'version GLIBC_9.9 not found' >&2; exit 1")
        self.is_hosted("doesn't start here: it needs glibc 9.9")

    def test_no_right_to_execute(self):
        self.program("bin/node", "echo end")
        (self.top / "release/sancus_run").chmod(0o644)
        self.is_hosted("has no right to be executed (`chmod +x release/sancus_run` gives it)")

    def test_another_host(self):
        self.program("bin/node", "echo 'an old node' >&2; exit 1")
        self.program("bin/wasmtime", "echo end")
        wasm = str(self.top / "release" / "sancus.wasm")
        self.assertEqual(self.chosen("arm64").command, [str(self.top / "bin/wasmtime"), wasm])

    def refused(self, *words):
        with self.assertRaises(Ended) as ended:
            self.chosen("arm64")
        self.assertEqual(ended.exception.status, 125)
        for it in words:
            self.assertIn(it, " ".join(ended.exception.lines))

    def test_no_host(self):
        self.refused("Linux on arm64", "with node (18 or newer) or wasmtime on the path")

    def test_another_module(self):
        self.note()
        (self.top / "release/sancus.wasm").write_text("other")
        self.program("bin/node", "echo end")
        self.refused("release/sancus.wasm isn't the one that is made from it")


@needs_program
@unittest.skipUnless(shutil.which("node"), "there is no node")
class UnderNode(Room):
    """release/sancus.wasm by tools/wasm/run.mjs, which reads when the program asks."""

    def ended(self, words, **streams):
        env = {**os.environ, "SANCUS_PROGRAM": f"node {TOP}/tools/wasm/run.mjs {TOP}/release/sancus.wasm"}
        return subprocess.run([SANCUS, *words], capture_output=True, env=env, timeout=60, **streams)

    def test_line_by_line(self):
        parking = EXAMPLES / "parking"
        files = [parking / "parking.toml", parking / "set-up.schedule"]
        native = subprocess.run(
            [SANCUS, "schedule", *files], capture_output=True, env={**os.environ, "SANCUS_PROGRAM": PROGRAM}
        )
        ran = self.ended(["schedule", *files])
        self.assertEqual((ran.returncode, ran.stdout), (native.returncode, native.stdout), ran.stderr)

    def test_streams(self):
        native = subprocess.run([PROGRAM, "run"], input=LIGHTING, capture_output=True)
        self.assertEqual(self.ended(["run"], input=LIGHTING).stdout, native.stdout)
        script = f"node '{TOP}/tools/wasm/run.mjs' '{TOP}/release/sancus.wasm' run"
        for streams, status, out in (("<.", 4, b"fault read\n"), (f"<'{EXAMPLES}/lighting.txt' >/dev/full", 5, b"")):
            ran = subprocess.run(["bash", "-c", f"{script} {streams}"], cwd=self.room, capture_output=True)
            self.assertEqual((ran.returncode, ran.stdout, ran.stderr), (status, out, b""))


class KeptChoices(Room):
    """A choice is kept until something that it depends on looks otherwise."""

    def setUp(self):
        super().setUp()
        self.top, self.kept = self.room / "checkout", self.room / "kept"
        self.program = self.top / "program"
        for name in ("crates/a/src/main.rt", "crates.txt", "HANDLES", "program"):
            (self.top / name).parent.mkdir(parents=True, exist_ok=True)
            (self.top / name).write_text("some")
        self.program.chmod(0o755)
        self.source = self.top / "crates/a/src/main.rt"

    def keep(self, waited=kept.TICK):
        """Keeps a choice as if so long had gone by since the files were written."""
        places = [os.fsencode(it) for it in (self.program, *Sources(str(self.top)).places())]
        choosing = kept.Choosing(str(self.top), places)
        choosing.begun = time.time_ns() + waited
        choosing.keep(str(self.kept), kept.Build([str(self.program), "word"], "released", ["a note"]))

    def found(self, top=None):
        return kept.kept_choice(str(top or self.top), str(self.kept))

    def test_it_is_found_again(self):
        self.keep()
        self.assertEqual(self.found(), kept.Build([str(self.program), "word"], "released", ["a note"]))

    def test_whatever_changes(self):
        def write_and_set_time_back():
            seen = self.source.stat()
            self.source.write_text("more")
            os.utime(self.source, ns=(seen.st_atime_ns, seen.st_mtime_ns))

        def replace():
            (self.room / "new").write_text("some")
            (self.room / "new").replace(self.source)

        changes = (
            write_and_set_time_back,
            replace,
            lambda: self.source.unlink(),
            lambda: (self.top / "crates/a/src/new.rt").write_text(""),
            lambda: (self.top / "crates/b").mkdir(),
            lambda: self.source.rename(self.source.with_name("other.rt")),
            lambda: self.program.chmod(0o644),
            lambda: (self.top / "HANDLES").write_text("more"),
        )
        for change in changes:
            with self.subTest(change):
                self.setUp()
                self.keep()
                time.sleep(0.02)
                change()
                self.assertIsNone(self.found())

    def test_what_changed_a_moment_ago_is_not_kept(self):
        self.keep(0)
        self.assertFalse(self.kept.exists())

    def test_of_another_checkout(self):
        self.keep()
        self.assertIsNone(self.found(self.room / "copy"))

    def test_damaged(self):
        self.keep()
        for text in (b"", b"\n\n\n\n", self.kept.read_bytes()[:-20]):
            self.kept.write_bytes(text)
            self.assertIsNone(self.found())


class Sums(Room):
    def test_the_sum_is_that_of_release_sh(self):
        """By the definition of tools/release.sh: sums and names, in the order of the names' bytes."""
        (self.room / "crates" / "b" / "out").mkdir(parents=True)
        for name in (
            "crates.txt",
            "HANDLES",
            "crates/b/x.rt",
            "crates/b/B.antt",
            "crates/b/out/x.rt",
            "crates/a.rt",
            "crates/b/x.txt",
        ):
            (self.room / name).write_text(name)
        sources = Sources(str(self.room))
        names = ["crates.txt", "HANDLES", "crates/a.rt", "crates/b/B.antt", "crates/b/x.rt"]
        self.assertEqual(sources.names(), names)
        lines = "".join(f"{sum_of(name.encode())}  {name}\n" for name in names)
        self.assertEqual(sources.sum(), sum_of(lines.encode()))
        (self.room / "crates" / "a.rt").write_text("other")
        self.assertNotEqual(sources.sum(), sum_of(lines.encode()))

    def test_of_this_repository(self):
        script = TOP / "tools" / "release.sh"
        if not script.is_file():
            self.skipTest("there is no tools/release.sh")
        ran = subprocess.run([script, "sources"], capture_output=True, text=True)
        self.assertEqual(ran.stdout.strip(), Sources(str(TOP)).sum())


if __name__ == "__main__":
    unittest.main()
