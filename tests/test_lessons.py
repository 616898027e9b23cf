"""The lessons of playground.html: what their lines show. What a student does is tried in browsers, by
tools/playground/lessons.mjs."""

import json
import shutil
import subprocess
import unittest

from support import EXAMPLES, HEAD, TOP, Room, needs_program, program, sancus

NODE = shutil.which("node") or shutil.which("nodejs")
LESSONS = TOP / "tools" / "playground" / "lessons.js"
# What each lesson's lines show that its question is about.
SHOWN = ("out lamp 1", "out lamp 1", "done lamp 6 0", "reset b write", "done lamp 5 0", "done lamp 7 0", "sense light 20")


def lessons():
    script = f"{LESSONS.read_text()}\nconsole.log(JSON.stringify(LESSONS));"
    ran = subprocess.run([NODE, "-e", script], capture_output=True, text=True)
    assert ran.returncode == 0, ran.stderr
    return json.loads(ran.stdout)


@unittest.skipUnless(NODE, "there is no node")
class Lessons(Room):
    @needs_program
    def test_lines(self):
        made = lessons()
        self.assertEqual(len(made), len(SHOWN))
        for lesson, shown in zip(made, SHOWN):
            with self.subTest(lesson["title"]):
                ran = sancus("run", "--no-images", EXAMPLES / "lighting.txt", self.file("lines.txt", lesson["lines"]))
                self.assertEqual(ran.status, 0, ran.said)
                items = ran.lines[1:-1]
                self.assertIn(shown, items)
                # (what is given doesn't do the task)
                self.assertNotIn(lesson.get("item"), items)
                text = HEAD.decode() + f"%%\n{lesson.get('property', '')}\n%%\n{ran.out.decode()}"
                self.assertNotIn("broken", program("watch", text=text).out.decode())


if __name__ == "__main__":
    unittest.main()
