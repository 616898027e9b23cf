"""`sancus live`: events wait until they are delivered, acts are taken back, and a session that was saved goes on."""

import os
import pty
import re
import subprocess
import unittest

from support import EXAMPLES, HEAD, PROGRAM, SANCUS, Room, needs_program, program, sancus

import sancus as api
from sancus.live import Live

BEGINNING = "deploy all\nsample eye 120\nsample eye 7\n"


@needs_program
class Session(unittest.TestCase):
    """The library, without the command."""

    def setUp(self):
        os.environ["SANCUS_PROGRAM"] = PROGRAM
        self.app = api.loads(HEAD)
        self.live = Live(self.app)
        self.addCleanup(self.live.close)

    def texts(self, items):
        return [it.text for it in items]

    def begin(self):
        for it in BEGINNING.splitlines():
            self.live.line(it)

    def test_what_is_on_its_way(self):
        self.begin()
        self.assertEqual(list(map(str, self.live.waiting)), ["1: eye -> logic by up", "2: eye -> logic by up"])
        items = self.texts(self.live.deliver(2))
        self.assertEqual(items[:2], ["take logic up 1 7", "done logic 1 1"])
        self.assertEqual([it.number for it in self.live.waiting], [1, 3])
        # (event 1 is older than what logic took)
        self.assertEqual(self.texts(self.live.twice(1)), ["done logic 6 0", "done logic 6 0"])
        self.live.drop(3)
        self.assertEqual(self.live.waiting, [])

    def test_carry_is_a_delivery(self):
        self.begin()
        self.assertIn("take logic up 0 120", self.texts(self.live.line("carry eye logic")))
        self.assertIn("take logic up 1 7", self.texts(self.live.line("carry eye logic up")))
        with self.assertRaisesRegex(api.Refused, "no event from eye to logic is on its way"):
            self.live.line("carry eye logic")
        with self.assertRaisesRegex(api.Refused, "there is no module eyes"):
            self.live.line("carry eyes logic")

    def test_what_other_lines_take_does_not_wait(self):
        self.live.line("deploy all")
        self.live.line("flow light 120")
        self.assertEqual(self.live.waiting, [])
        self.assertEqual(self.live.schedule.run().outs("lamp"), [1])

    def test_undo(self):
        self.begin()
        self.live.deliver(1)
        self.live.drop(2)
        lines, waiting = self.live.lines, self.live.waiting
        self.live.deliver(3)
        self.assertEqual(self.live.schedule.run().outs(), [1])
        self.live.undo()
        self.assertEqual((self.live.lines, self.live.waiting), (lines, waiting))
        self.live.undo(2)
        self.assertEqual([it.number for it in self.live.waiting], [1, 2])
        self.assertIn("take logic up 0 120", self.texts(self.live.deliver(1)))
        with self.assertRaisesRegex(api.Refused, "there are 4 acts to take back"):
            self.live.undo(5)

    def test_what_is_refused_changes_nothing(self):
        self.begin()
        lines = self.live.lines
        for act in (lambda: self.live.line("sample lamp 1"), lambda: self.live.line("fly"), lambda: self.live.deliver(9)):
            self.assertRaises(api.Refused, act)
        self.assertEqual(self.live.lines, lines)
        self.assertEqual([it.number for it in self.live.waiting], [1, 2])

    def test_questions(self):
        self.begin()
        self.live.deliver(1)
        self.live.deliver(3)
        self.assertEqual(self.live.variables("logic").variables, {"limit": 100})
        self.assertTrue(self.live.why().startswith("46 out lamp 1"), self.live.why())
        self.assertEqual(self.live.verdict(), ["legal: the first 47 items are a legal run of the sources"])

    def test_a_session_goes_on(self):
        self.begin()
        self.live.deliver(1)
        self.live.drop(2)
        with Live(self.app, self.live.lines) as again:
            self.assertEqual(again.waiting, self.live.waiting)
            self.assertEqual(self.texts(again.deliver(3)), self.texts(self.live.deliver(3)))


@needs_program
class Command(Room):
    def test_from_a_pipe(self):
        head = self.file("light.toml", HEAD)
        ran = sancus("live", head, text=f"{BEGINNING}deliver 1\ndeliver 3\nwhy out lamp\nsave day.txt\n", cwd=self.room)
        self.assertEqual((ran.status, ran.said), (0, ""))
        self.assertIn("  on its way 2: eye -> logic by up", ran.lines)
        self.assertRegex(ran.out.decode(), r"(?m)^   46 out lamp 1 +lamp wrote 1 to its actuator$")
        # what was saved is an input of the program, and a session
        made = program("run", text=sancus("schedule", self.room / "day.txt").out)
        self.assertEqual([it for it in made.lines if it.startswith("out ")], ["out lamp 1"])
        again = sancus("live", "day.txt", text="net\nsave day.txt\n", cwd=self.room)
        self.assertEqual((again.status, again.lines[:2]), (0, ["  47 items so far", "  on its way 2: eye -> logic by up"]))
        ran = sancus("live", head, text="save light.toml\n", cwd=self.room)
        self.assertEqual((ran.status, head.read_bytes()), (121, HEAD))
        self.says(ran, "light.toml is there, and is no session: name another file")

    def test_what_cannot_be_done_ends_a_pipe(self):
        ran = sancus("live", self.file("light.toml", HEAD), text="deploy all\nsample lamp 1\nnet\n")
        self.assertEqual(ran.status, 122)
        self.says(ran, "lamp drives no sensor")
        self.assertNotIn("  nothing is on its way", ran.lines)
        ran = sancus("live", self.room / "light.toml", self.file("it.txt", "deploy all\nsample lamp 1\n"))
        self.assertEqual(ran.status, 122)
        self.says(ran, "it.txt:2: sample lamp 1: lamp drives no sensor")
        ran = sancus("live", self.file("bad.toml", HEAD.replace(b"0x6000", b"0x4000")))
        self.assertEqual((ran.status, ran.lines), (122, []))
        self.says(ran, "fault deployment D10 module 1")

    def test_at_a_terminal(self):
        """What can't be done is explained, and the session goes on."""
        leader, follower = pty.openpty()
        command = [SANCUS, "--program", PROGRAM, "live", EXAMPLES / "lighting.txt"]
        process = subprocess.Popen(command, stdin=follower, stdout=follower, stderr=follower)
        os.close(follower)
        os.write(leader, b"sample lamp 1\nsample eye 7\nquit\n")
        said = b""
        while process.poll() is None or b"on its way" not in said:
            try:
                said += os.read(leader, 1 << 16)
            except OSError:
                break
        os.close(leader)
        self.assertEqual(process.wait(), 0)
        self.assertTrue(re.search(rb"lamp drives no sensor.*on its way 1: eye -> logic by up", said, re.S), said)


if __name__ == "__main__":
    unittest.main()
