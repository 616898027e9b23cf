"""Quiet calls that the program answers in place of the front end, which shows in the number of its process."""

import os
import subprocess
import unittest

from support import HEAD, LIGHTING, SANCUS, Room

PROGRAM = "#!/bin/sh\necho \"$$ $*\"; cat; exit 3\n"
RUN = LIGHTING
TRACE = HEAD + b"%%\ntrace\nend\n"
PEOPLE = HEAD + b"%%\ndeploy all\n"


class InPlace(Room):
    def setUp(self):
        super().setUp()
        self.program = self.file("program", PROGRAM)
        self.program.chmod(0o755)

    def called(self, *words, text=RUN, name="input", **streams):
        """Whether the program was executed in place, with these words and this file."""
        file = self.file(name, text)
        with open(file, "rb") as given:
            process = subprocess.Popen(
                [SANCUS, *(str(file) if it == "FILE" else it for it in words)],
                **{"stdin": given, "stdout": subprocess.PIPE, **streams},
                stderr=subprocess.DEVNULL,
                env={**os.environ, "SANCUS_PROGRAM": str(self.program)},
            )
            out = process.communicate()[0]
        command = next(it for it in words if not it.startswith("-"))
        return (out, process.returncode) == (f"{process.pid} {command}\n".encode() + text, 3)

    def test_in_place(self):
        for words in (["run", "-q", "FILE"], ["--quiet", "run", "FILE"], ["run", "-q"], ["run", "-q", "-"]):
            self.assertTrue(self.called(*words), words)
        self.assertTrue(self.called("check", "-q", "FILE"))
        self.assertTrue(self.called("drive", "-q", "FILE"))
        self.assertTrue(self.called("explain", "-q", "FILE", text=TRACE))
        self.assertTrue(self.called("run", "-q", "FILE", text=HEAD + b"%%\n# as deploy says\nreset a\n"))

    def test_what_the_front_end_does(self):
        for words in (["run", "FILE"], ["run", "-q", "--no-images", "FILE"], ["run", "-q", "FILE", "FILE"]):
            self.assertFalse(self.called(*words), words)
        self.assertFalse(self.called("check", "-q", "FILE", text=HEAD))
        self.assertFalse(self.called("explain", "-q", "FILE", text=HEAD + b"%%\nreset a\n"))
        for text in (PEOPLE, HEAD + b"%%\ntake a 24 as stolen\n", HEAD):
            self.assertFalse(self.called("run", "-q", "FILE", text=text))

    def test_pipes_are_read_line_by_line(self):
        read, write = os.pipe()
        os.write(write, RUN)
        os.close(write)
        self.assertFalse(self.called("run", "-q", stdin=read))
        os.close(read)

    def test_a_program_that_cannot_be_started(self):
        self.program.write_text("no program")
        self.program.chmod(0o644)
        ran = subprocess.run(
            [SANCUS, "run", "-q", self.file("input", RUN)],
            capture_output=True,
            text=True,
            env={**os.environ, "SANCUS_PROGRAM": str(self.program)},
        )
        self.assertEqual((ran.returncode, ran.stdout), (125, ""))
        self.assertIn("is no program that can be started", ran.stderr)


if __name__ == "__main__":
    unittest.main()
