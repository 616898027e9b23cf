"""What the program answers where the process's own streams fail."""

import subprocess
import unittest

from slow import EXAMPLES, PROGRAM, TOP, needs_program

READING = ("run", "lines", "batch", "check", "describe", "snap", "asm 0", "dis 0", "explain", "watch", "holds")


@needs_program
class Streams(unittest.TestCase):
    def ended(self, words, text, to):
        ran = subprocess.run([PROGRAM, *words.split()], stdin=text, stdout=to, stderr=subprocess.PIPE)
        return ran.returncode, ran.stdout, ran.stderr

    def test_a_read_that_fails(self):
        for words in READING:
            ran = subprocess.run(["bash", "-c", f"'{PROGRAM}' {words} <'{TOP}'"], capture_output=True)
            self.assertEqual((ran.returncode, ran.stdout, ran.stderr), (4, b"fault read\n", b""), words)

    def test_a_write_that_fails(self):
        for words in (*READING, "gen 1", "nothing"):
            with open(EXAMPLES / "lighting.txt", "rb") as text, open("/dev/full", "wb") as full:
                self.assertEqual(self.ended(words, text, full), (5, None, b""), words)


if __name__ == "__main__":
    unittest.main()
