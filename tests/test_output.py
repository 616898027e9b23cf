"""Output on request: without images, the schedule or the trace of an honest run, JSON, marks, and listings of
images."""

import contextlib
import json
import os
import pty
import subprocess
import unittest

from support import (
    EXAMPLES,
    LIGHTING,
    PROGRAM,
    SANCUS,
    Room,
    needs_program,
    program,
    sancus,
    one_by_one,
    whole_examples,
)

from sancus.cli.program import Collected
from sancus.cli.sinks import NoImages, ScheduleOnly, ShortImages, TraceOnly
from sancus.model.texts import Input

READINGS = EXAMPLES / "readings.txt"


def passed(sink, text, size):
    to = Collected()
    made = sink(to)
    for at in range(0, len(text), size):
        made.write(text[at : at + size])
    made.close()
    return to.data()


class Sinks(unittest.TestCase):
    def test_no_images(self):
        text = b"image eye 8241\nimag\nimages\nimage \nout eye 1\n\nimage x 00"
        for size in range(1, len(text) + 1):
            self.assertEqual(passed(NoImages, text, size), b"imag\nimages\nout eye 1\n\n")
        for text in (b"", b"end\n", b"ima", b"image "):
            self.assertEqual(passed(NoImages, text, 1), b"" if text == b"image " else text)

    def test_short_images(self):
        for digits, shown in (("00" * 16, "00" * 16), ("8241" * 600, "8241" * 8 + ".. (1,200 bytes)")):
            text = f"image eye {digits}\ntrace\nout eye 1\nend\n".encode()
            for size in (1, 7, len(text)):
                self.assertEqual(passed(ShortImages, text, size), text.replace(digits.encode(), shown.encode()))

    def test_schedule_and_trace(self):
        text = b"image eye 8241\n> load eye\nprotect a eye\nsteps 5\nend\n"
        for size in (1, 3, 100):
            self.assertEqual(passed(ScheduleOnly, text, size), b"load eye\n")
            self.assertEqual(passed(TraceOnly, text, size), b"image eye 8241\ntrace\nprotect a eye\nend\n")
        self.assertEqual(passed(TraceOnly, b"fault deployment D2 -\n", 5), b"fault deployment D2 -\n")


@needs_program
class Output(Room):
    def test_no_images(self):
        for words in (
            ("run", EXAMPLES / "lighting.txt"),
            ("drive", READINGS),
            ("snap", EXAMPLES / "snap" / "dark_bulb.txt"),
            ("gen", "4"),
        ):
            whole, without = sancus(*words), sancus(*words, "--no-images")
            self.assertEqual(without.lines, [it for it in whole.lines if not it.startswith("image ")])
            self.assertEqual(whole.status, without.status)

    def test_images_on_a_terminal(self):
        for words, is_short in (([], True), (["--images"], False)):
            leader, follower = pty.openpty()
            ran = subprocess.Popen(
                [SANCUS, "run", *words, EXAMPLES / "lighting.txt"],
                stdout=follower,
                env={**os.environ, "SANCUS_PROGRAM": PROGRAM},
            )
            os.close(follower)
            out = b""
            with contextlib.suppress(OSError):
                while not out.endswith(b"end\r\n"):
                    out += os.read(leader, 65536)
            self.assertEqual(ran.wait(), 0)
            os.close(leader)
            line = out.partition(b"\r\n")[0]
            self.assertEqual(line.endswith(b".. (2,432 bytes)"), is_short)
            self.assertEqual(len(line), len("image eye ") + (32 + 16 if is_short else 2 * 2432))

    def test_an_honest_run_as_a_schedule(self):
        schedule = sancus("drive", READINGS, "--schedule")
        self.assertTrue(schedule.lines[0] == "load eye" and schedule.lines[-1] == "call lamp 2 0x40 0x80")
        run = sancus("run", READINGS, "-", text=schedule.out)
        self.assertEqual(run.out, sancus("drive", READINGS, "--trace").out)
        self.assertEqual((run.status, run.lines[-1]), (0, "end"))

    def test_a_trace_is_explained(self):
        trace = sancus("drive", READINGS, "--trace", "--no-images")
        self.assertEqual(trace.lines[0], "trace")
        self.assertEqual(sancus("explain", READINGS, "-", text=trace.out).lines[-1], "end")

    def test_marks(self):
        ran = sancus("marks", EXAMPLES / "forged.txt")
        self.assertEqual(
            ran.lines[-6:],
            [
                "packet 1 16",
                "> # The deployer accepts it as left's answer. left never made one.",
                "> answer left 0 1",
                "forged deployer",
                "attested left 0",
                "end",
            ],
        )

    def test_marks_hold_no_keys(self):
        """The deployment, with its keys, is printed on demand alone, and what a comment holds moves no cursor."""
        text = LIGHTING + b"# \x1b]0;owned\x07 \xc2\x9b caf\xc3\xa9\n"
        ran = sancus("marks", self.file("x", text))
        self.assertEqual((ran.status, ran.lines[0]), (0, f"> {Input(LIGHTING).schedule[0].decode()}"))
        self.assertNotIn(b"secret", ran.out)
        self.assertIn("> # \\x1b]0;owned\\x07 \\x9b caf\u00e9\n", ran.out.decode())
        whole = sancus("marks", self.file("x", text), "--input")
        self.assertEqual(whole.out, text.partition(b"%%\n")[0] + b"%%\n" + ran.out)

    def test_marks_up_to_a_line_that_can_not_be_done(self):
        lines = self.file("p", "deploy eye\nsample ear 3\nreset a\n")
        ran = sancus("marks", EXAMPLES / "lighting.txt", lines)
        self.assertEqual((ran.status, ran.lines[:2]), (122, [f"> #= {lines}:1 deploy eye", "> load eye"]))
        self.assertEqual(ran.lines[-1], "done eye 1 0")
        self.says(ran, f"{lines}:2: sample ear 3: there is no module ear")

    def test_marks_of_examples(self):
        files = [it for it in whole_examples() if b"`./sancus drive`" not in it.read_bytes()[:400]]
        for file, ran in zip(files, one_by_one(lambda it: sancus("marks", it), files)):
            with self.subTest(file.name):
                wanted = program("run", text=file.read_bytes())
                items = [it for it in ran.lines if not it.startswith("> ")]
                self.assertEqual((["trace", *items], ran.status), (wanted.lines[wanted.lines.index("trace") :], wanted.status))

    def test_marks_of_faults(self):
        ran = sancus("marks", text=LIGHTING + b"\n# x\nload ear\n")
        self.assertEqual((ran.status, ran.lines[-1]), (3, "fault schedule S4 48"))
        self.says(ran, "a module: eye logic lamp")
        self.assertEqual(sancus("marks", text=b"load eye\n").lines, ["fault deployment D2 -"])
        self.assertEqual(sancus("marks", text=b"node = 3\n%%\n").lines, ["fault deployment D4 top"])
        ran = sancus("marks", text=b"%%\nset n r5 1\n\nreset n\n")
        self.assertEqual(ran.lines, ["> set n r5 1", "> ", "> reset n", "reset n asked", "end"])


@needs_program
class Json(Room):
    def objects(self, *words, text=b"", status=0):
        ran = sancus(*words, "--json", text=text)
        self.assertEqual(ran.status, status, ran.said)
        return [json.loads(it) for it in ran.lines]

    def test_run(self):
        made = self.objects("run", EXAMPLES / "lighting.txt")
        self.assertEqual(
            [(it["kind"], it["module"]) for it in made[:3]], [("image", "eye"), ("image", "logic"), ("image", "lamp")]
        )
        self.assertEqual(
            made[-3],
            {"item": 42, "line": 45, "kind": "out", "node": "b", "module": "lamp", "value": 1, "text": "out lamp 1"},
        )
        self.assertEqual(made[-1], {"kind": "end"})
        take = next(it for it in made if it["kind"] == "take")
        self.assertEqual(
            (take["connection"], take["number"], take["epoch"], take["event"], take["value"], take["line"]),
            ("up", 0, 0, 0, 120, 42),
        )
        self.assertEqual(len(self.objects("run", "--no-images", EXAMPLES / "lighting.txt")), 44)

    def test_lines_for_people(self):
        easy = self.file("easy.txt", "deploy all\nsample eye 120\n")
        made = self.objects("run", EXAMPLES / "lighting.txt", easy)
        self.assertEqual([it["text"] for it in made[-4:-1]], ["sense light 120", "read eye 120", "done eye 1 1"])

    def test_items_are_those_of_run(self):
        for file in (
            EXAMPLES / "forged.txt",
            EXAMPLES / "busy.txt",
            EXAMPLES / "renewal.txt",
            EXAMPLES / "attacks" / "impostor.txt",
        ):
            made = self.objects("run", file)
            self.assertEqual(
                [it["text"] for it in made if "item" in it],
                program("run", text=file.read_bytes()).out.decode().partition("trace\n")[2].splitlines()[:-1],
            )

    def test_a_fault(self):
        made = self.objects("run", text=LIGHTING + b"load ear\n", status=3)[-1]
        self.assertEqual(
            (made["kind"], made["of"], made["rule"], made["place"], made["text"]),
            ("fault", "schedule", "S4", [46], "fault schedule S4 46"),
        )
        self.assertTrue(any("a module: eye logic lamp" in it for it in made["words"]))
        made = self.objects("check", text=b"node = 3\n", status=1)[-1]
        self.assertEqual((made["of"], made["rule"], made["place"]), ("deployment", "D4", ["top"]))

    def test_drive(self):
        made = self.objects("drive", READINGS)
        self.assertIn({"kind": "line", "line": 1, "text": "load eye"}, made)
        self.assertEqual([it["line"] for it in made if it.get("text") == "protect a eye"], [1])
        self.assertEqual([it["kind"] for it in made[-2:]], ["steps", "end"])

    def test_check(self):
        made = self.objects("check", EXAMPLES / "lighting.txt")
        self.assertEqual(
            made[0],
            {"kind": "module", "module": "eye", "node": "a", "text": [0x4000, 0x4980], "data": [0x1000, 0x1218]},
        )

    def test_explain(self):
        trace = self.file("t", program("run", text=LIGHTING).out)
        made = self.objects("explain", EXAMPLES / "lighting.txt", trace)
        self.assertEqual(
            made[-3:], [{"kind": "because", "item": 42, "cause": 41}, {"kind": "legal", "items": 43}, {"kind": "end"}]
        )
        made = self.objects("explain", EXAMPLES / "lighting.txt", EXAMPLES / "tampered.trace", status=8)
        self.assertEqual(made[-1], {"kind": "illegal", "item": 38})


@needs_program
class Listings(Room):
    def test_an_image_as_it_stands(self):
        image = next(it for it in program("run", text=LIGHTING).lines if it.startswith("image logic"))
        code = bytes.fromhex(image.split()[2])
        by_pieces = program(
            "dis", "0x6000", text=b"\n".join(code[at : at + 1024].hex().encode() for at in range(0, len(code), 1024))
        ).out
        for text in (image, image + "\n", image.split()[2] + "\n"):
            self.assertEqual(sancus("dis", "0x6000", text=text).out, by_pieces)
            self.assertEqual(sancus("dis", "0x6000", self.file("x", text)).out, by_pieces)

    def test_an_image_of_more_than_8192_bytes(self):
        code = bytes.fromhex("3640341203430543") * 1500
        lines = sancus("dis", "0x4000", text="image big " + code.hex()).lines
        self.assertEqual((lines[0], lines[-1]), ("0x4000 36403412 mov #0x1234, r6", "end"))
        self.assertEqual(len(lines), 3 * 1500 + 1)
        self.assertEqual(bytes.fromhex("".join(it.split()[1] for it in lines[:-1])), code)

    def test_other_texts_are_the_programs(self):
        for text in (
            b"image x 0\n",
            b"image\n",
            b"0343\n0343\n",
            b"x" * 5000,
            b"ab" * 3000 + b"\n00\n",
            b"image X 00\n",
            b"",
        ):
            for words in (("dis", "0"), ("dis", "1")):
                wanted = program(*words, text=text)
                for own in (sancus(*words, text=text), sancus(*words, self.file("x", text))):
                    self.assertEqual((own.out, own.status), (wanted.out, wanted.status), text[:20])


class Head(unittest.TestCase):
    def test_marks_are_found(self):
        for text, found in (
            (b"%%\n", True),
            (b"a\n%%", True),
            (b"%%\r\n", True),
            (b"%%\r", False),
            (b"a%%\n", False),
            (b"%% \n", False),
            (b"", False),
            (b"%%%\n%%\nx", True),
        ):
            self.assertEqual(Input(text).has_mark, found, text)


if __name__ == "__main__":
    unittest.main()
