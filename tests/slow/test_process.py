"""What no clause says of the program: that its words are those of the command line, and that its streams are the
process's own, with nothing put between."""

import os
import subprocess
import unittest

from slow import PROGRAM, Room, needs_program

# The words, the input, the status and the output.
CALLS = (
    ([], b"%%\n", 2, b"fault usage\n"),
    ([b"\xff"], b"%%\n", 2, b"fault usage\n"),
    (["run", b"\xff"], b"%%\n", 2, b"fault usage\n"),
    (["gen", "5", "x"], b"", 2, b"fault usage\n"),
    ([""], b"%%\n", 2, b"fault usage\n"),
    (["run"], b"%%\n", 0, b"trace\nend\n"),
    (["check"], b"", 1, b"fault deployment D2 -\n"),
    (["run"], b"%%\nfly n\n", 3, b"trace\nfault schedule S3 1\n"),
    (["dis", "0"], b"2\n", 10, b"fault hex B1 1\n"),
    (["snap"], b"%%\n%%\nfly n\n", 11, b"fault query Y3 1\n"),
)


@needs_program
class Process(Room):
    def test_words_and_statuses(self):
        for words, text, status, out in CALLS:
            with self.subTest(words=words):
                ran = subprocess.run([PROGRAM, *words], input=text, capture_output=True)
                self.assertEqual((ran.returncode, ran.stdout), (status, out))

    def begun(self, command, text):
        """A run that has got this, and waits for more."""
        process = subprocess.Popen([PROGRAM, command], stdin=subprocess.PIPE, stdout=subprocess.PIPE)
        self.addCleanup(process.stdout.close)
        self.addCleanup(process.wait)
        self.addCleanup(process.kill)
        self.addCleanup(process.stdin.close)
        process.stdin.write(text)
        process.stdin.flush()
        return process.stdout

    def test_items_come_before_the_next_line_is_read(self):
        out = self.begun("run", b"%%\nreset n\n")
        self.assertEqual([out.readline(), out.readline()], [b"trace\n", b"reset n asked\n"])

    def test_an_answer_comes_before_the_next_query_is_read(self):
        out = self.begun("snap", b"%%\nreset n\n%%\nitems 1\n")
        self.assertEqual(out.readline(), b"item 1 reset n asked\n")

    def test_at_most_4096_bytes_are_read_past_a_line(self):
        path = self.file("input", b"%%\n" + b"\0" * 100_000)
        with open(path, "rb") as file:
            subprocess.run([PROGRAM, "check"], stdin=file, capture_output=True)
            self.assertLessEqual(os.lseek(file.fileno(), 0, os.SEEK_CUR), 3 + 4096)


if __name__ == "__main__":
    unittest.main()
