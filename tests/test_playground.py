"""playground.html is what its parts give: the viewer, tools/playground, tools/wasm, the examples and release/sancus.wasm.
What it makes of lines for people is what `sancus schedule` makes of them."""

import json
import os
import shutil
import subprocess
import sys
import unittest
from unittest.mock import patch

from support import EXAMPLES, HEAD, PROGRAM, TOP, needs_program, sancus

import sancus as api

NODE = shutil.which("node") or shutil.which("nodejs")
PARKING = (EXAMPLES / "parking" / "parking.toml").read_bytes()
# The worker of the page, under node: a text for people comes in, and what it becomes goes out.
MADE = """
const {readFileSync} = require("fs");
const module = new WebAssembly.Module(readFileSync(process.argv[1]));
console.log(JSON.stringify(new Session(module, readFileSync(0, "utf8")).result()));
"""
DAY = """
deploy all
sample eye 120
carry eye logic
carry logic lamp
give event.eye.logic a
call logic 2
take a 16 as heard
forge 00ff as made
give made b
windows 0x320 0x480
reset b
deploy lamp
sample eye 3
carry eye logic up
carry logic lamp 0
flow light 101
sample eye 7
settle
asm a 0x800 mov #1, r5; jmp 0x800
"""


class Playground(unittest.TestCase):
    @unittest.skipUnless((TOP / "playground.html").is_file(), "there is no page")
    def test_it_is_current(self):
        make = TOP / "tools" / "playground" / "make.py"
        ran = subprocess.run([sys.executable, make, "--check"], capture_output=True, text=True)
        self.assertEqual((ran.returncode, ran.stderr), (0, ""))


@needs_program
@unittest.skipUnless(NODE, "there is no node")
class People(unittest.TestCase):
    @classmethod
    def setUpClass(cls):
        make = TOP / "tools" / "playground" / "make.py"
        code = "import runpy, sys; sys.stdout.write(runpy.run_path(sys.argv[1])['worker']())"
        ran = subprocess.run([sys.executable, "-c", code, make], capture_output=True, text=True, check=True)
        cls.worker = ran.stdout

    def made(self, text):
        script = f"let onmessage;\n{self.worker}\n{MADE}"
        wasm = TOP / "release" / "sancus.wasm"
        ran = subprocess.run([NODE, "-e", script, wasm], input=text, capture_output=True)
        self.assertEqual((ran.returncode, ran.stderr), (0, b""))
        return json.loads(ran.stdout)

    def test_a_schedule(self):
        def without_marks(text):
            return [it for it in text.splitlines() if not it.startswith("#=")]

        day = (EXAMPLES / "parking" / "day.people").read_bytes()
        for text in (HEAD + b"%%\n" + DAY.encode(), PARKING + b"%%\n" + day):
            made, wanted = self.made(text), sancus("schedule", "-", text=text)
            self.assertIsNone(made["wrong"])
            self.assertEqual(wanted.status, 0, wanted.said)
            self.assertEqual(without_marks(made["parts"][0]), without_marks(wanted.out.decode()))

    def test_what_is_on_its_way(self):
        """As a session of `sancus live` has it, in whose lines some events were taken, given and dropped."""
        begin = "deploy all\nsample eye 120\ntake a 0x400 24 as e1.eye.logic\nsample eye 7\n"
        for lines in (
            begin,
            f"{begin}take a 0x400 24 as e2.eye.logic\ngive e1.eye.logic a\ncall logic 2\n",
            f"{begin}take a 0x400 24 as e2.eye.logic\n# drop e2.eye.logic\n",
            f"{begin}carry eye logic\n",
            "deploy all\nflow light 120\n",
        ):
            made = self.made(HEAD + b"%%\n" + lines.encode())
            with patch.dict(os.environ, SANCUS_PROGRAM=PROGRAM), api.Live(api.loads(HEAD), lines.splitlines()) as live:
                self.assertEqual([it["name"] for it in made["events"]], [it.name for it in live.waiting], lines)

    def test_mistakes(self):
        for lines, line, words in (
            ("deploy eye\nsample eye 1\ncarry eye logic", 3, "logic isn't loaded on a yet: `deploy logic` first"),
            ("deploy all\nsample ey 1", 2, "there is no module ey; did you mean `eye`?"),
            ("deploy all\ncarry eye lamp", 2, "no connection leads from eye to lamp; eye sends to: logic"),
            ("deploy all\nsample eye 5\ncarry eye logic\ncarry eye logic", 4, "`give event.eye.logic NODE` gives it again"),
            (
                "deploy all\nsample eye 5\ncarry eye logic\nsample eye 6\ncarry logic lamp",
                5,
                "in the window of logic any more: eye's call at line 48 wrote over what it sent",
            ),
            ("deploy all\nsample 1", 2, "`sample` has too many words or too few: sample MODULE VALUE"),
        ):
            text = HEAD + b"%%\n" + lines.encode() + b"\n"
            wrong = self.made(text)["wrong"]
            self.assertEqual(wrong["line"], HEAD.count(b"\n") + 1 + line)
            self.assertIn(words, wrong["words"])
            self.assertIn(words, sancus("schedule", "-", text=text).said)


if __name__ == "__main__":
    unittest.main()
