"""How an input is put together from files and pipes, and that it comes to the program byte for byte."""

import os
import pty
import select
import signal
import subprocess
import unittest
from contextlib import contextmanager
from functools import partial
from unittest.mock import patch

from support import EXAMPLES, HEAD, LIGHTING, PROGRAM, SANCUS, Room, needs_program, program, sancus, usual_signals

from sancus.cli.commands import BY_NAME, parse
from sancus.cli.main import waiting

SCHEDULE = LIGHTING.partition(b"\n%%\n")[2]


@contextmanager
def handled(number, how):
    """Handles a signal so, for a while."""
    before = signal.signal(number, how)
    try:
        yield
    finally:
        signal.signal(number, before)


class Joined(Room):
    def setUp(self):
        super().setUp()
        self.program = self.fake()
        self.deployment = self.file("a.toml", HEAD)
        self.schedule = self.file("s.txt", SCHEDULE)

    def given(self, *words, text=b""):
        """What the program gets."""
        ran = sancus(*words, text=text, program=self.program)
        self.assertEqual(ran.status, 0, ran.said)
        first, _, rest = ran.out.partition(b"\n")
        self.assertTrue(first.startswith(b"ran "))
        self.assertTrue(rest.endswith(b"end\n"))
        return rest[:-4]

    def test_one_file_is_the_input(self):
        for word in ("run", "batch"):
            self.assertEqual(self.given(word, self.file("x", b"no mark\0\r\n\xff")), b"no mark\0\r\n\xff")

    def test_a_pipe_is_the_input(self):
        for text in (b"", b"x", LIGHTING, b"\0" * 300_000 + b"\n"):
            self.assertEqual(self.given("run", text=text), text)

    def test_deployment_and_schedule(self):
        self.assertEqual(self.given("run", self.deployment, self.schedule), LIGHTING)
        self.assertEqual(self.given("run", self.deployment, "-", text=SCHEDULE), LIGHTING)
        self.assertEqual(self.given("drive", self.deployment, self.file("r", b"light 1\n")), HEAD + b"%%\nlight 1\n")

    def test_marks_of_their_own(self):
        marked = self.file("m.txt", b"# a schedule\n%%\n" + SCHEDULE)
        self.assertEqual(self.given("run", self.deployment, marked), LIGHTING)
        more = self.file("more.txt", b"reset a\n")
        self.assertEqual(self.given("run", self.deployment, marked, more), LIGHTING + b"reset a\n")
        whole = self.file("whole.txt", LIGHTING)
        self.assertEqual(self.given("run", whole, more), HEAD + b"%%\nreset a\n")
        self.assertEqual(self.given("run", self.deployment, whole), LIGHTING)

    def test_what_is_left_out_is_said(self):
        whole, more = self.file("whole.txt", LIGHTING), self.file("more.txt", b"reset a\n")
        self.says(sancus("run", whole, more, program=self.program), "the lines after its %% are left out")
        self.says(sancus("run", self.deployment, whole, program=self.program), "its own deployment is left out")

    def test_a_file_without_a_newline(self):
        bare = self.file("b.toml", HEAD[:-1])
        self.assertEqual(self.given("run", bare, self.schedule), LIGHTING)
        one, two = self.file("one", b"reset a"), self.file("two", b"reset b")
        self.assertEqual(self.given("run", self.deployment, one, two), HEAD + b"%%\nreset a\nreset b")

    def test_check_needs_no_mark(self):
        self.assertEqual(self.given("check", self.deployment), HEAD + b"%%\n")
        self.assertEqual(self.given("check", self.file("b", HEAD[:-1])), HEAD + b"%%\n")
        self.assertEqual(self.given("check", text=HEAD), HEAD + b"%%\n")
        self.assertEqual(self.given("check", text=LIGHTING), LIGHTING)
        self.assertEqual(self.given("check", EXAMPLES / "lighting.txt"), LIGHTING)
        self.assertEqual(self.given("check", self.file("e", b"")), b"%%\n")

    def test_explain(self):
        trace = self.file("t", b"trace\nend\n")
        self.assertEqual(self.given("explain", self.deployment, trace), HEAD + b"%%\ntrace\nend\n")
        self.assertEqual(
            self.given("explain", EXAMPLES / "lighting.txt", "-", text=b"trace\nend\n"), HEAD + b"%%\ntrace\nend\n"
        )

    def test_explain_takes_what_drive_wrote(self):
        driven = b"image eye 00\n> load eye\nprotect a eye\n> ask eye\nask eye 0\nsteps 1\nend\n"
        wanted = HEAD + b"%%\nimage eye 00\ntrace\nprotect a eye\nask eye 0\nend\n"
        self.assertEqual(self.given("explain", self.deployment, self.file("d", driven)), wanted)
        self.assertEqual(self.given("explain", self.deployment, "-", text=driven), wanted)
        self.assertEqual(
            self.given("explain", self.deployment, "-", text=b"steps 0\nend\n"), HEAD + b"%%\ntrace\nend\n"
        )
        long = b"x" * 300_000
        self.assertEqual(self.given("explain", self.deployment, "-", text=long), HEAD + b"%%\n" + long)

    def test_snap(self):
        queries = self.file("q", b"items 1\n")
        self.assertEqual(self.given("snap", self.deployment, self.schedule, queries), LIGHTING + b"%%\nitems 1\n")
        self.assertEqual(
            self.given("snap", self.deployment, self.file("sq", b"%%\nreset a\n%%\nitems 1\n")),
            HEAD + b"%%\nreset a\n%%\nitems 1\n",
        )

    def test_names_with_spaces_and_other_folders(self):
        odd = self.file("a name.txt", LIGHTING)
        link = self.room / "link"
        link.symlink_to(SANCUS)
        ran = subprocess.run([link, "--program", self.program, "run", odd.name], cwd=self.room, capture_output=True)
        self.assertEqual(ran.stdout, b"ran run\n" + LIGHTING + b"end\n")


@needs_program
class Streams(Room):
    def test_line_by_line_on_a_pipe(self):
        """The items of a line come before the next line is there."""
        process = subprocess.Popen(
            [SANCUS, "run"],
            stdin=subprocess.PIPE,
            stdout=subprocess.PIPE,
            env={**os.environ, "SANCUS_PROGRAM": PROGRAM},
        )
        process.stdin.write(b"%%\nreset n\n")
        process.stdin.flush()
        self.assertEqual(process.stdout.readline(), b"trace\n")
        self.assertEqual(process.stdout.readline(), b"reset n asked\n")
        process.stdin.close()
        self.assertEqual(process.stdout.read(), b"end\n")
        self.assertEqual(process.wait(), 0)
        process.stdout.close()

    def test_line_by_line_at_a_terminal(self):
        leader, follower = pty.openpty()
        process = subprocess.Popen(
            [SANCUS, "run"],
            stdin=follower,
            stdout=subprocess.PIPE,
            stderr=subprocess.PIPE,
            env={**os.environ, "SANCUS_PROGRAM": PROGRAM},
        )
        os.write(leader, b"%%\nreset n\n")
        self.assertEqual(process.stdout.readline(), b"trace\n")
        self.assertEqual(process.stdout.readline(), b"reset n asked\n")
        # (a line that breaks a rule is explained, and the run goes on)
        os.write(leader, b"nothing\nrestart n\nreset n\n")
        self.assertEqual(process.stdout.readline(), b"reset n asked\n")
        os.write(leader, b"\x04")
        out, said = process.communicate(timeout=60)
        self.assertEqual((process.returncode, out), (0, b"end\n"))
        self.assertIn(b"sancus: line 3: nothing\nsancus: S3: no line of a schedule begins with this word\n", said)
        self.assertIn(b"did you mean `reset`?", said)
        os.close(leader)
        os.close(follower)

    def test_a_deployment_and_typed_lines(self):
        leader, follower = pty.openpty()
        ran = subprocess.Popen(
            [SANCUS, "run", EXAMPLES / "lighting.txt", "-"],
            stdin=follower,
            stdout=subprocess.PIPE,
            stderr=subprocess.PIPE,
            env={**os.environ, "SANCUS_PROGRAM": PROGRAM},
        )
        os.write(leader, b"deploy all\ncarry eye lamp\nsample eye 120\ncarry eye logic\ncarry logic lamp\n\x04")
        out, said = ran.communicate(timeout=60)
        self.assertEqual((ran.returncode, out), (0, program("run", text=LIGHTING).out))
        self.assertIn(b"no connection leads from eye to lamp", said)
        os.close(leader)
        os.close(follower)

    def test_each_line_after_a_deployment_is_answered_at_once(self):
        process = subprocess.Popen(
            [SANCUS, "--quiet", "run", "--no-images", EXAMPLES / "lighting.txt", "-"],
            bufsize=0,
            stdin=subprocess.PIPE,
            stdout=subprocess.PIPE,
            env={**os.environ, "SANCUS_PROGRAM": PROGRAM},
        )
        for line, items in (
            (b"load eye", [b"trace", b"protect a eye"]),
            (b"ask eye", [b"ask eye 0", b"packet 0 18"]),
            (b"fly", [b"fault schedule S3 3"]),
        ):
            process.stdin.write(line + b"\n")
            process.stdin.flush()
            for it in items:
                self.assertTrue(select.select([process.stdout], [], [], 30)[0], line)
                self.assertEqual(process.stdout.readline(), it + b"\n")
        process.stdin.close()
        self.assertEqual(process.wait(), 3)
        process.stdout.close()

    def test_what_is_typed_at_a_terminal(self):
        wanted = {
            "run": "type a deployment, a line %%, and a schedule, each line of which is answered at once;",
            "check": "type a deployment;",
            "place": "type a deployment;",
            "run d.toml -": "type SCHEDULE;",
            "why d.toml -": "type TRACE;",
            "vars - eye 1": "type INPUT;",
            "asm 0": "type instructions, one a line;",
            "hex convert -": "type the file;",
        }
        with patch("os.isatty", return_value=True):
            for words, said in wanted.items():
                name, *rest = words.split()
                lines = waiting(parse(BY_NAME[name], rest))
                self.assertEqual([it.partition(";")[0] + ";" for it in lines], [said], words)
                self.assertTrue(lines[0].endswith("Ctrl-D ends it, and Ctrl-C leaves"))
            for words in ("run d.toml", "gen 3", "fmt", "view", "view --empty", "version", "vars d.toml eye 1", "build"):
                name, *rest = words.split()
                self.assertEqual(waiting(parse(BY_NAME[name], rest)), [], words)
        self.assertEqual(sancus("check", text=LIGHTING, program=self.fake()).said, "")

    def test_it_is_said_at_a_terminal(self):
        for word, typed, wrote, said in (
            ("run", b"%%\n\x04", b"trace\nend\n", b"sancus: type a deployment, a line %%"),
            ("lsp", b"\x04", b"", b"sancus: an editor starts this"),
        ):
            leader, follower = pty.openpty()
            os.write(leader, typed)
            ran = subprocess.run([SANCUS, "--program", PROGRAM, word], stdin=follower, capture_output=True, timeout=60)
            self.assertEqual(ran.stdout, wrote)
            self.assertIn(said, ran.stderr)
            os.close(leader)
            os.close(follower)

    def test_little_more_is_read_than_the_program_reads(self):
        read, write = os.pipe()
        os.write(write, b"%%\nnothing\n" + b"# more\n" * 5000)
        os.close(write)
        ran = subprocess.run(
            [SANCUS, "run"], stdin=read, capture_output=True, env={**os.environ, "SANCUS_PROGRAM": PROGRAM}
        )
        self.assertEqual(ran.stdout, b"trace\nfault schedule S3 1\n")
        left = b""
        while select.select([read], [], [], 0)[0]:
            piece = os.read(read, 65536)
            left += piece
            if not piece:
                break
        os.close(read)
        self.assertGreater(len(left), 35_000 - 5 * 4096)

    def test_a_shared_file_is_read_as_the_program_reads_it(self):
        path = self.file("x", b"%%\nnothing\n" + b"# more\n" * 5000)
        places = []
        for command in ([SANCUS, "run"], [PROGRAM, "run"]):
            with open(path, "rb") as file:
                subprocess.run(command, stdin=file, capture_output=True, env={**os.environ, "SANCUS_PROGRAM": PROGRAM})
                places.append(os.lseek(file.fileno(), 0, os.SEEK_CUR))
        self.assertEqual(places[0], places[1])

    def test_a_reader_that_ends(self):
        ran = subprocess.run(
            ["bash", "-c", f"set -o pipefail; '{SANCUS}' gen 2000 | head -n 1"],
            capture_output=True,
            env={**os.environ, "SANCUS_PROGRAM": PROGRAM},
        )
        self.assertIn(ran.returncode, (0, 5))
        self.assertEqual(ran.stderr, b"")

    def test_interrupt(self):
        """Also where a script started these tests with `&`, so that they ignore it; and where the program ignores to be
        ended."""
        for here, ignoring in ((signal.SIG_DFL, ()), (signal.SIG_IGN, ()), (signal.SIG_DFL, (signal.SIGTERM,))):
            with self.subTest(here=here, ignoring=ignoring), handled(signal.SIGINT, here):
                process = subprocess.Popen(
                    [SANCUS, "run"],
                    stdin=subprocess.PIPE,
                    stdout=subprocess.PIPE,
                    stderr=subprocess.PIPE,
                    env={**os.environ, "SANCUS_PROGRAM": PROGRAM},
                    preexec_fn=partial(usual_signals, *ignoring),
                )
                process.stdin.write(b"%%\nreset n\n")
                process.stdin.flush()
                process.stdout.readline()
                process.send_signal(signal.SIGINT)
                _, said = process.communicate(timeout=60)
                self.assertEqual((process.returncode, said), (130, b""))

    def test_the_program_reads_what_it_needs(self):
        self.assertEqual(sancus("check", text=LIGHTING).out, program("check", text=LIGHTING).out)


if __name__ == "__main__":
    unittest.main()
