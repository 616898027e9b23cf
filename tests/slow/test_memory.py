"""How much memory the program takes at its limits, of which no clause says anything."""

import subprocess
import sys
import unittest

from slow import LIGHTING, MEASURE, PROGRAM, Room, needs_program

PACKET = b"take n 0x400 384\n"


@needs_program
class Memory(Room):
    def room_of(self, command, text):
        """The most memory that a call takes, in KiB."""
        measured = [sys.executable, "-I", "-S", "-c", MEASURE, PROGRAM, command]
        with open(self.file("input", text), "rb") as file:
            ran = subprocess.run(measured, stdin=file, stdout=subprocess.DEVNULL, stderr=subprocess.PIPE, text=True)
        self.assertEqual(ran.returncode, 0)
        return int(ran.stderr.split()[-1])

    def run_of(self, lines):
        return self.room_of("run", b"%%\n" + lines)

    def test_lines(self):
        few = self.run_of(b"reset n\n" * 100)
        self.assertLess(few, 20 * 1024)
        with self.subTest("65,536 packets of 384 bytes: 24 MiB, and what an allocator rounds up"):
            self.assertLess(self.run_of(PACKET * 65536) - few, 96 * 1024)
        with self.subTest("65,536 lines that reset a node with a page of memory"):
            self.assertLess(self.run_of(b"put n 0x4000 2645\nreset n\n" * 32768) - few, 6 * 1024)

    def test_queries(self):
        """Nine worlds and the one that is asked for, which share their packets."""
        queries = b"items 65536\n" * 64
        self.assertLess(self.room_of("snap", b"%%\n" + PACKET * 65536 + b"%%\n" + queries), 48 * 1024)

    def test_readings(self):
        """16,010 packets of at most 38 bytes, as many entries of the ledger, and no items."""
        head = LIGHTING.partition(b"%%\n")[0] + b"%%\n"
        one, many = (self.room_of("drive", head + b"light 120\n" * count) for count in (1, 8000))
        self.assertLess(many - one, 6 * 1024)


if __name__ == "__main__":
    unittest.main()
