"""Misuse: whatever is given, the answer is a line, a status of its own kind, and no traceback; and everything is
bounded."""

import os
import resource
import subprocess
import time
import unittest

from support import (
    EXAMPLES,
    HEAD,
    LIGHTING,
    MEASURE,
    PROGRAM,
    SANCUS,
    Room,
    needs_program,
    program,
    sancus,
    one_by_one,
    whole_examples,
)

TAKES_FILES = (
    "run",
    "drive",
    "check",
    "explain",
    "snap",
    "asm 0",
    "dis 0",
    "schedule",
    "marks",
    "view",
    "vars {} eye 1",
    "vars {} {} eye 1",
    "steps {} 1",
    "steps {} {} 1",
    "view {} {}",
    "why {} {} 1",
    "hex put a",
    "hex image",
    "hex convert",
)


def call(words, file):
    """The words with a file at its place, or at the end."""
    return [it.replace("{}", str(file)) for it in words.split()] + ([] if "{}" in words else [str(file)])


class Files(Room):
    def kinds(self):
        closed = self.file("closed", b"x")
        closed.chmod(0)
        return {
            "missing": self.room / "none",
            "folder": self.room,
            "empty name": "",
            "nul": self.file("nul", b"\0" * 5000),
            "binary": self.file("binary", bytes(range(256)) * 40),
        }

    def test_no_traceback(self):
        fake = self.fake("fault deployment D3 -", 1)
        calls = [(words, kind, file) for words in TAKES_FILES for kind, file in self.kinds().items()]
        for (words, kind, _), ran in zip(
            calls, one_by_one(lambda it: sancus(*call(it[0], it[2]), program=fake, cwd=self.room), calls)
        ):
            with self.subTest(words=words, kind=kind):
                self.assertNotIn("Traceback", ran.said)
                self.assertNotIn("mistake of the front end", ran.said)
                if kind in ("missing", "folder"):
                    self.assertEqual(ran.status, 121, ran.said)
                    self.assertIn("can't be read", ran.said)
                    self.assertEqual(len(ran.said.splitlines()), 1)
                self.assertNotEqual((ran.status, ran.said), (0, ""), "nothing is said")

    def test_what_is_said_is_short(self):
        """Of a long line its beginning is shown."""
        zeros = self.file("zeros", b"\0" * 100_000)
        for words in (["asm", "0", zeros], ["schedule", EXAMPLES / "lighting.txt", zeros], ["run", zeros]):
            said = sancus(*words, program=PROGRAM or self.fake("fault asm A1 1", 10)).said
            self.assertTrue(said)
            self.assertLess(max(map(len, said.splitlines())), 400, words)

    def test_full_disk(self):
        for words in (["run", "examples/lighting.txt"], ["help"], ["version"], ["help", "--man"]):
            with open("/dev/full", "wb") as full:
                ran = subprocess.run(
                    [SANCUS, *words],
                    stdout=full,
                    stderr=subprocess.PIPE,
                    cwd=SANCUS.parent,
                    env={**os.environ, "SANCUS_PROGRAM": self.fake()},
                )
            self.assertEqual(ran.returncode, 5)
            self.assertIn(b"standard output can't be written: No space left", ran.stderr)
        ran = sancus("view", EXAMPLES / "lighting.txt", "--page", "/dev/full", program=self.fake())
        self.assertNotIn("Traceback", ran.said)

    def test_closed_streams(self):
        env = {**os.environ, "SANCUS_PROGRAM": PROGRAM or self.fake()}
        for words in ("help", "run examples/lighting.txt"):
            ran = subprocess.run(
                ["bash", "-c", f"'{SANCUS}' {words} >&-"], cwd=SANCUS.parent, capture_output=True, env=env
            )
            self.assertEqual((ran.returncode, ran.stdout), (5, b""))
            ran = subprocess.run(
                ["bash", "-c", f"'{SANCUS}' {words} 2>&-"], cwd=SANCUS.parent, capture_output=True, env=env
            )
            self.assertEqual(ran.returncode, 0)

    def test_a_missing_program(self):
        ran = sancus("run", EXAMPLES / "lighting.txt", program="/nowhere/program")
        self.assertEqual((ran.status, ran.out), (125, b""))
        self.says(ran, "/nowhere/program is no program that can be started")

    def test_a_program_that_is_ended(self):
        path = self.file("program", "#!/bin/sh\nkill -9 $$\n")
        path.chmod(0o755)
        ran = sancus("run", EXAMPLES / "lighting.txt", program=str(path))
        self.assertEqual(ran.status, 125)
        self.says(ran, "was ended by signal 9 (SIGKILL)")

    def test_terminal_escapes_are_shown(self):
        text = b"%%\nload \x1b[31mred\x1b]0;title\x07\xff\xc2\x9b\n"
        ran = sancus("run", self.file("x", text), program=self.fake("fault schedule S4 1", 3))
        self.assertIn("\\x1b[31mred\\x1b]0;title\\x07\\xff\\x9b", ran.said)
        self.assertFalse(set(ran.said) & {"\x1b", "\x07", "\x9b"})
        ran = sancus("\x1b[31m")
        self.assertNotIn("\x1b", ran.said)
        ran = sancus("run", self.room / "\x1b[31m")
        self.assertNotIn("\x1b", ran.said)


@needs_program
class Encodings(Room):
    """A byte order mark, which some editors write."""

    MARK = "\ufeff".encode()

    def test_a_deployment_may_begin_with_one(self):
        file = self.file("a.txt", self.MARK + LIGHTING)
        self.assertEqual(sancus("marks", file).status, 0)
        self.assertIn("module eye on node a", sancus("vars", file, "eye", "4").lines[1])
        wrong = sancus("check", self.file("wrong.toml", self.MARK + b"secret = 5\n%%\n"))
        self.assertNotIn("byte order mark", wrong.said)

    def test_nothing_else_may(self):
        deployment = self.file("a.toml", HEAD)
        for word, text in (("run", b"reset a\n"), ("schedule", b"reset a\n"), ("drive", b"light 1\n")):
            ran = sancus(word, deployment, self.file("more", self.MARK + text))
            self.says(ran, "it begins with a byte order mark, which only a deployment may have")

    def test_utf_16(self):
        self.says(sancus("run", self.file("a.txt", LIGHTING.decode().encode("utf-16"))), "this is UTF-16")
        ran = sancus("run", self.file("a.toml", HEAD), self.file("s", "reset a\n".encode("utf-16")))
        self.says(ran, "this is UTF-16: save it as UTF-8")


@needs_program
class Unreadable(Room):
    def test_standard_input_that_can_not_be_read(self):
        for how in ("< .", "<&-"):
            for word in ("run", "check", "snap", "asm 0", "dis 0"):
                ran = subprocess.run(
                    ["bash", "-c", f"'{SANCUS}' {word} {how}"],
                    cwd=self.room,
                    capture_output=True,
                    env={**os.environ, "SANCUS_PROGRAM": PROGRAM},
                )
                self.assertEqual((ran.returncode, ran.stdout), (4, b"fault read\n"), (how, word, ran.stderr))


@needs_program
class Bounded(Room):
    """Large inputs take about as long as the program itself, and little memory."""

    def bounded(self, words, text, seconds=15.0, room=160 * 1024):
        path = self.file("large", text)
        with open(path, "rb") as file:
            wanted = subprocess.run([PROGRAM, *words], stdin=file, capture_output=True)
        for direct in (True, False):
            before = time.monotonic()
            command = [SANCUS, *words, *([path] if direct else [])]
            cat = None if direct else subprocess.Popen(["cat", path], stdout=subprocess.PIPE, stderr=subprocess.DEVNULL)
            measured = ["python3", "-c", MEASURE, *map(str, command)]
            ran = subprocess.run(
                measured,
                stdin=cat.stdout if cat else subprocess.DEVNULL,
                capture_output=True,
                env={**os.environ, "SANCUS_PROGRAM": PROGRAM},
            )
            took = time.monotonic() - before
            if cat:
                cat.stdout.close()
                cat.wait()
            said, _, peak = ran.stderr.decode(errors="replace").rpartition("peak ")
            self.assertEqual((ran.returncode, ran.stdout), (wanted.returncode, wanted.stdout), said)
            self.assertNotIn("Traceback", said)
            self.assertLess(took, seconds)
            self.assertLess(int(peak), room)

    def test_zeros(self):
        self.bounded(["run"], b"\0" * 100_000_000)

    def test_comments(self):
        self.bounded(["check"], HEAD + b"%%\n" + b"# comment\n" * 3_000_000)

    def test_a_long_schedule(self):
        self.bounded(["run"], b"%%\n" + b"# comment\n" * 60_000 + b"nothing\n")

    def test_a_long_trace(self):
        self.bounded(["explain"], b"%%\ntrace\n" + b"skip n\n" * 400_000 + b"nothing\n")

    def test_a_long_line(self):
        self.bounded(["run"], HEAD + b"%%\n" + b"x" * 5_000_000)
        self.bounded(["dis", "0"], b"a" * 5_000_000)


@needs_program
class BothWays(unittest.TestCase):
    """Each example prints the same bytes through the front end as from the program, with the same status."""

    def test_examples(self):
        files = whole_examples()
        calls = [
            (word, file, kind)
            for word in ("run", "drive", "check", "snap", "explain")
            for file in files
            for kind in ("file", "pipe")
        ]
        # (attacks are all alike for the front end)
        calls = [
            it for it in calls if it[1].parent != EXAMPLES / "attacks" or it[0] in ("run", "check") and it[2] == "file"
        ]

        def both(it):
            word, file, kind = it
            text = file.read_bytes()
            own = sancus(word, file) if kind == "file" else sancus(word, text=text)
            return own, program(word, text=text)

        for it, (own, wanted) in zip(calls, one_by_one(both, calls)):
            with self.subTest(call=it):
                self.assertEqual((own.status, own.out), (wanted.status, wanted.out))

    def test_texts(self):
        for words, text in (
            (["asm", "0x4000"], b"mov #9, &0x1000\n"),
            (["dis", "0"], b"0343\n"),
            (["dis", "0"], b"034\n"),
            (["gen", "4"], b""),
            (["asm", "1"], b"nop\n"),
        ):
            own, wanted = sancus(*words, text=text), program(*words, text=text)
            self.assertEqual((own.status, own.out), (wanted.status, wanted.out))

    def test_traces(self):
        for file in sorted(EXAMPLES.glob("*.txt")):
            text = file.read_bytes()
            word = "drive" if file.name == "readings.txt" else "run"
            trace = program(word, text=text).out
            head = text.partition(b"\n%%\n")[0] + b"\n"
            own = sancus("explain", file, "-", text=trace)
            if word == "run":
                wanted = program("explain", text=head + b"%%\n" + trace)
                self.assertEqual((own.status, own.out), (wanted.status, wanted.out))
            else:
                self.assertEqual((own.status, own.lines[-1]), (0, "end"))

    def test_memory_of_the_front_end(self):
        self.assertEqual(sancus("run", EXAMPLES / "lighting.txt").out, program("run", text=LIGHTING).out)
        self.assertLess(resource.getrusage(resource.RUSAGE_CHILDREN).ru_maxrss, 400 * 1024)


if __name__ == "__main__":
    unittest.main()
