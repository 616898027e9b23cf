"""`sancus schedule`: lines for people, done by the program as they are written."""

import unittest
from unittest.mock import patch

from support import HEAD, LIGHTING, TOP, Room, needs_program, program, sancus, one_by_one

from sancus.cli import people
from sancus.model import schedule, session

DEPLOYMENT = HEAD.decode() + "%%\n"
READING = "deploy all\nsample eye 120\ncarry eye logic\ncarry logic lamp\n"
RENEWED = "deploy all\nreset a\ndeploy eye logic\nsample eye 120\ncarry eye logic\ncarry logic lamp\n"
MARKED = ((2, "deploy eye"), (3, "reset b"), (4, "asm a 0x800 mov #1, r5"))
# One output that leads to two modules, as a spot's to violations and free spots; another input; and an output with
# two connections to one module.
FAN_OUT = """secret = "000102030405060708090a0b0c0d0e0f"
node = [ { name = "a", key = "101112131415161718191a1b1c1d1e1f" }, { name = "b", key = "202122232425262728292a2b2c2d2e2f" } ]
device = [ { name = "spot", node = "a", kind = "sensor", at = 0x1000 } ]
connection = [ { name = "to_vio", from = "eye.o", to = "vio.i" }, { name = "to_agg", from = "eye.o", to = "agg.i" },
               { name = "again", from = "eye.o", to = "agg.j" } ]
[[module]]
name = "eye"
node = "a"
provider = 7
text = 0x4000
device = "spot"
source = "sensor; output o; var last = 2; sample(v) { let n = v != 0; if n != last { last = n; send o(n); } }"
[[module]]
name = "vio"
node = "a"
provider = 8
text = 0x6000
data = 0x2000
source = "input i; output o; on i(v) { send o(v); }"
[[module]]
name = "agg"
node = "b"
provider = 9
text = 0x6000
data = 0x2000
source = "input i; input j; var x; on i(v) { x = v; } on j(v) { x = v; }"
%%
"""
# An event goes straight to end, and another through mid, which is on the sender's node and so writes to the same window.
CHAIN = """secret = "000102030405060708090a0b0c0d0e0f"
node = [ { name = "a", key = "101112131415161718191a1b1c1d1e1f" }, { name = "b", key = "202122232425262728292a2b2c2d2e2f" } ]
device = [ { name = "light", node = "a", kind = "sensor", at = 0x1000 } ]
connection = [ { name = "straight", from = "eye.o", to = "end.i" }, { name = "to_mid", from = "eye.o", to = "mid.i" },
               { name = "on", from = "mid.o", to = "end.j" }, { name = "back", from = "end.o", to = "mid.j" } ]
[[module]]
name = "eye"
node = "a"
provider = 7
text = 0x4000
device = "light"
source = "sensor; output o; sample(v) { send o(v); send o(v + 1); }"
[[module]]
name = "mid"
node = "a"
provider = 8
text = 0x6000
data = 0x2000
source = "input i; input j; output o; on i(v) { send o(v); } on j(v) { if v < 3 { send o(v + 1); } }"
[[module]]
name = "end"
node = "b"
provider = 9
text = 0x6000
data = 0x2000
source = "input i; input j; output o; on i(v) {} on j(v) { send o(v); }"
%%
"""
FIRST = FAN_OUT.count("\n") + 2


def written(lines, *words, deployment=DEPLOYMENT):
    return sancus("schedule", *words, text=deployment + lines)


def acts(text):
    """The lines of a schedule without comments."""
    return [it for it in text.partition("%%\n")[2].splitlines() if it and not it.startswith("#")]


def trace(text):
    return program("run", text=text).out.decode().partition("trace\n")[2].splitlines()


@needs_program
class Schedule(Room):
    def test_the_lighting_example(self):
        self.assertEqual(acts(written(READING).out.decode()), acts(LIGHTING.decode()))

    def test_lines_as_they_are(self):
        lines = acts(LIGHTING.decode())
        self.assertEqual(acts("%%\n" + written("\n".join(lines) + "\n", "--lines").out.decode()), lines)

    def test_files(self):
        head, lines = self.file("a.toml", HEAD), self.file("easy.txt", READING)
        out = sancus("schedule", head, lines).out.decode()
        self.assertEqual(acts(out), acts(LIGHTING.decode()))
        self.assertIn(f"#= {lines}:3 carry eye logic\n", out)
        self.assertEqual(
            sancus("schedule", head, "-", text=READING).out.decode().replace("#= line ", f"#= {lines}:"), out
        )
        self.says(sancus("schedule", head), "has no line %%")

    def test_windows_and_names(self):
        lines = "deploy logic\nforge 0011 as bad\ngive bad b\nwindows 0x500 0x600\ncall logic 2\ntake a 4\n"
        out = written(lines, "--lines").out.decode()
        self.assertIn("forge 0011\n# bad is packet 4\n#= line 47 give bad b\ngive 4 b 0x300\n", out)
        self.assertIn("call logic 2 0x500 0x600\n#= line 50 take a 4\ntake a 0x600 4\n", out)
        out = written(
            "deploy eye\ngive key.eye.up.from b 0x500\nask eye as who\ngive who a\nanswer eye answer.eye\n", "--lines"
        ).out.decode()
        acts = [it for it in out.splitlines() if not it.startswith("#= ")]
        self.assertEqual(
            acts[-5:], ["give 2 b 0x500", "ask eye", "# who is packet 3", "give 3 a 0x300", "answer eye 0 1"]
        )

    def test_marks(self):
        """Each line has a mark once one was made, so that what follows a mark up to the next was made of its line."""
        file = self.file("x", "reset a\ndeploy eye\nreset b\nasm a 0x800 mov #1, r5\n# a remark\n")
        out = sancus("schedule", "--lines", self.file("d.toml", HEAD), file).out.decode().splitlines()
        self.assertEqual(out[0], "reset a")
        self.assertEqual([it for it in out if it.startswith("#= ")], [f"#= {file}:{at} {it}" for at, it in MARKED])
        self.assertEqual(out[-1], "# a remark")

    def test_a_renewed_run(self):
        items = trace(written(RENEWED).out)
        self.assertEqual(
            [it for it in items if it.startswith(("attested", "out"))],
            [
                "attested eye 0",
                "attested logic 0",
                "attested lamp 0",
                "attested eye 1",
                "attested logic 1",
                "out lamp 1",
            ],
        )
        self.assertFalse([it for it in items if it.startswith(("skip", "busy", "denied"))])

    def test_resets_that_nobody_asked_for(self):
        """A jump into a section resets the node; then `deploy` renews at the boot that was shown."""
        lines = (
            READING
            + "asm a 0x800 mov #0x6010, pc\nset a pc 0x800\nrun a 2\ndeploy eye logic\nsample eye 130\ncarry eye logic\ncarry logic lamp\n"
        )
        items = trace(written(lines).out)
        self.assertIn("reset a order", items)
        self.assertIn("attested logic 1", items)
        self.assertEqual([it for it in items if it.startswith("out")], ["out lamp 1", "out lamp 1"])
        self.assertEqual([it for it in items if it.startswith("done") and it.split()[2] != "1"], [])

    def test_fan_out(self):
        """A piece is found by its connection, in any order, and also if an end isn't open."""
        for lines, taken in (
            (
                "deploy all\nsample eye 1\ncarry eye agg\ncarry eye vio\n",
                ["take agg to_agg 0 1", "take vio to_vio 0 1"],
            ),
            (
                "deploy all\nsample eye 1\ncarry eye agg again\ncarry eye agg\n",
                ["take agg again 0 1", "take agg to_agg 0 1"],
            ),
            ("deploy all\nsample eye 1\ncarry eye agg\ncarry eye agg\n", ["take agg to_agg 0 1", "take agg again 0 1"]),
            ("deploy all\nsample eye 1\ncarry eye agg 2\n", ["take agg again 0 1"]),
            ("deploy eye agg\nsample eye 1\ncarry eye agg\n", ["take agg to_agg 0 1"]),
        ):
            with self.subTest(lines):
                ran = written(lines, deployment=FAN_OUT)
                self.assertEqual(ran.status, 0, ran.said)
                self.assertEqual([it for it in trace(ran.out) if it.startswith("take")], taken)

    MISTAKES = (
        ("carry eye", "too many words or too few: carry MODULE MODULE"),
        ("deploy ear", "there is no module ear"),
        ("deploy all", "is loaded already, since boot 0 of a: `reset a` first"),
        ("reset b\ndeploy all", "`deploy agg` deploys the others"),
        ("give lost a", "no packet is named lost"),
        ("sample vio 3", "vio drives no sensor"),
        ("sample eye 32768", "32768 is no value of a sensor"),
        ("reset a as x", "makes no packet to name"),
        ("carry agg eye", "no connection leads from agg to eye; agg sends to: nobody"),
        ("carry vio agg", "no connection leads from vio to agg"),
        ("carry eye agg", "eye sent nothing at its last call"),
        ("sample eye 1\nsample eye 1\ncarry eye agg", "eye sent nothing at its last call"),
        ("sample eye 1\ncarry eye vio\ncarry eye vio", "was carried; `give event.eye.vio NODE` gives it again"),
        ("sample eye 1\ncarry eye agg 0", "piece 0 is for vio, by to_vio, and not for agg"),
        ("sample eye 1\ncarry eye agg 3", "there is no piece 3: the last call wrote 3"),
        ("sample eye 1\ncarry eye agg other", "no connection other leads from eye to agg: to_agg again"),
        ("reset a\nsample eye 1", "eye isn't loaded on a any more: a was reset once, and `deploy eye` renews it"),
        ("sample eye 1\nreset a\ncarry eye agg", "eye wasn't called since it was loaded"),
        (
            f"sample eye 1\nput a 0x400 {'00' * 72}\ncarry eye agg",
            f"no event for agg is in the window of eye any more: the `put` at line {FIRST + 1} wrote over what it sent; `carry eye agg` before",
        ),
        ("deploy a", "there is no module a: a is a node, with the modules eye vio"),
        ("sample spot 3", "there is no module spot: spot is a device, and eye drives it"),
        ("flow spott 3", "there is no sensor spott, and no module of this name; did you mean `spot`?"),
        ("give event.vio.agg b", "there is no event.vio.agg yet: no event was carried from vio to agg"),
        ("flow agg 3", "agg drives no sensor"),
        ("load ear", "S4: a field isn't a name"),
        ("fly", "S3: no line of a schedule begins with this word"),
        ("cary eye agg", "lines for people: deploy sample carry"),
        ("cary eye agg", "did you mean `carry`?"),
        ("windows 1", "windows IN OUT"),
    )

    def test_mistakes(self):
        def tried(case):
            return written(
                "deploy all\n" + case[0] + "\n" if case[0] != "deploy all" else "deploy all\ndeploy all\n",
                deployment=FAN_OUT,
            )

        for (lines, words), ran in zip(self.MISTAKES, one_by_one(tried, self.MISTAKES)):
            with self.subTest(lines):
                self.assertEqual((ran.status, ran.out), (122, b""), ran.said)
                self.assertIn(f"line {FIRST + lines.count(chr(10))}: ", ran.said)
                self.assertIn(words, ran.said)

    def test_what_was_written_over(self):
        for last, words in (
            ("carry eye end", f"mid's call at line {CHAIN.count(chr(10)) + 3} wrote over what it sent"),
            ("carry eye end 0", f"piece 0 isn't there any more: mid's call at line {CHAIN.count(chr(10)) + 3} wrote"),
        ):
            ran = written(f"deploy all\nsample eye 7\ncarry eye mid\ncarry eye end\n{last}\n", deployment=CHAIN)
            self.assertEqual(ran.status, 122, ran.said)
            self.says(ran, words)

    def test_flow_as_drive(self):
        """The events that follow a reading come as `drive` brings them, by the sensor's name or its driver's."""
        driven = program("drive", text=CHAIN + "light 1\nlight 0\n").out.decode()
        items = [it for it in driven.partition("> sense")[2].splitlines() if it[:1] not in ("", ">", " ")]
        wanted = [it for it in items if not it.startswith(("packet", "steps", "end"))]
        self.assertIn("take end on 0 1", wanted)
        ran = written("deploy all\nflow light 1\nflow eye 0\n", deployment=CHAIN)
        made = trace(ran.out)[trace(ran.out).index("sense light 1") :]
        self.assertEqual([it for it in made if not it.startswith(("packet", "end"))], wanted)

    def test_settle(self):
        lines = "deploy all\nsample eye 7\ncarry eye mid\nsettle\nsettle\n"
        ran = written(lines, deployment=CHAIN)
        self.assertEqual(ran.status, 0, ran.said)
        taken = [it for it in trace(ran.out) if it.startswith("take")]
        after_mid = ["take mid to_mid 0 7", "take end straight 1 8", "take mid to_mid 1 8", "take end on 0 7"]
        self.assertEqual(taken[:4], after_mid)
        self.says(ran, "1 event of eye can't be carried any more: mid's call", "settle: nothing is on its way")

    def test_what_is_gone_is_passed_over(self):
        ran = written("deploy all\nreset b\nflow light 1\n", deployment=CHAIN)
        self.assertEqual(ran.status, 0, ran.said)
        self.says(ran, "the event of eye isn't delivered: end isn't loaded on b any more: b was reset once")
        self.assertIn("take mid to_mid 1 2", trace(ran.out))
        restless = CHAIN.replace("v < 3", "1")
        with patch.object(schedule, "MOST_CARRIED", 20):
            self.says(written("deploy all\nflow light 1\n", deployment=restless), "doesn't come to rest")

    def test_an_event_is_carried_once(self):
        """Also a second event, over the one end that is open."""
        reading = "sample eye 120\ncarry eye logic\n"
        lines = f"deploy all\n{reading}windows 0x300 0x400\n{reading}carry eye logic\n"
        lines = lines.replace("120\ncarry", "120\nwindows 0x300 0x600\ncarry")
        self.says(written(lines), "what eye sent to logic at its last call was carried")

    def test_names_of_files(self):
        """Each mark is one line, and its place one word, whatever the file's name is."""
        head = self.file("d.toml", HEAD)
        for name in ("a b.txt", "x\nreset a\n.txt", "\x1b]0;owned\x07.txt", "n" * 250):
            lines = self.file(name, READING + f"asm a 0x800 mov #1, r5 // {'x' * 4000}\n")
            out = sancus("schedule", "--lines", head, lines).out
            self.assertEqual(acts("%%\n" + out.decode())[:-1], acts(LIGHTING.decode()))
            self.assertLessEqual(max(map(len, out.split(b"\n"))), 4096)
            self.assertNotIn(b"\x1b", out)
            made = self.file("made.txt", out)
            for given in (made, lines):
                ran = sancus("vars", head, given, "lamp", f"{name}:4")
                self.assertEqual(ran.status, 0, ran.said)
                self.assertTrue(ran.lines[0].endswith(":4: carry logic lamp"), ran.lines[0])
                self.assertNotIn(b"\x1b", ran.out)

    def test_as_many_lines_as_a_run_takes(self):
        """Neither marks in the schedule nor those between lines that are done one by one count: what a run takes can be
        made of lines for people."""
        lines = READING + "set a r5 1\n" * 30
        most = len(acts(LIGHTING.decode())) + 30
        whole = written(lines, "--lines")
        with patch.object(people, "MOST_LINES", most), patch.object(session, "MOST_LINES", most):
            ran = written(lines, "--lines")
        self.assertEqual(ran.status, 0, ran.said)
        self.assertEqual(ran.lines, [it for it in whole.lines if not it.startswith("#= ")])
        self.assertEqual(len(ran.lines), most)
        self.says(ran, "the comments `#= FILE:LINE ..` are left out: with them there are more than ")

    def test_notes_stand_before_a_fault(self):
        ran = written("deploy all\nwindows 0x1000 0x400\nsample eye 1\ncarry eye agg\n", deployment=FAN_OUT)
        self.assertEqual(ran.status, 122, ran.said)
        self.says(ran, "eye answers with status 3", "eye sent nothing at its last call")

    def test_what_did_nothing_is_noted(self):
        ran = written(
            "deploy all\nsample eye 1\ncarry eye vio\ngive event.eye.vio a\ncall vio 2\nsample eye 0\ntake a 0x400 24\npackets 3\nboots a 4\n",
            deployment=FAN_OUT,
        )
        self.assertEqual(ran.status, 0, ran.said)
        self.says(ran, "`packets` is no longer needed", "a is at boot 0")

    def test_a_deployment_that_is_refused(self):
        ran = sancus("schedule", text="node = 3\n%%\ndeploy all\n")
        self.assertEqual((ran.status, ran.out), (122, b""))
        self.says(ran, "fault deployment D4 top", "`node` must be an array of tables")


@needs_program
class Names(Room):
    """A file's name, or a comment, makes no line and moves no cursor."""

    def test_names(self):
        folder = self.room / "x\nreset a\n\x1b[2J"
        folder.mkdir()
        easy = folder / "easy.txt"
        easy.write_text(READING)
        ran = sancus("schedule", "--lines", self.file("d.toml", HEAD), easy)
        self.assertEqual((ran.status, acts("%%\n" + ran.out.decode())), (0, acts(LIGHTING.decode())))
        self.assertIn(f"#= {self.room}/x\\x0areset\\x20a\\x0a\\x1b[2J/easy.txt:3 carry eye logic\n", ran.out.decode())

    def test_comments(self):
        text = self.file("x", b"# \x1b]0;owned\x07\n")
        for words in (("vars", self.file("d.toml", HEAD), text, "eye", "1"), ("steps", self.room / "d.toml", text, "1")):
            self.assertEqual(sancus(*words).lines[0], r"line 1: # \x1b]0;owned\x07")


@needs_program
class Run(Room):
    """Lines for people in a run: their items come as they are done."""

    def setUp(self):
        super().setUp()
        self.head, self.easy = self.file("d.toml", HEAD), self.file("easy.txt", READING)
        self.wanted = program("run", text=LIGHTING).out

    def test_files_and_pipes(self):
        whole = self.file("whole.txt", DEPLOYMENT + READING)
        more = self.file("more.txt", READING.partition("carry")[0])
        rest = self.file("rest.txt", "carry eye logic\ncarry logic lamp\n")
        for words, text in (
            ([self.head, self.easy], ""),
            ([self.head, more, rest], ""),
            ([self.head, "-"], READING),
            ([whole], ""),
        ):
            ran = sancus("run", *words, text=text)
            self.assertEqual((ran.status, ran.out, ran.said), (0, self.wanted, ""))

    def test_a_line_that_can_not_be_done(self):
        for line, words in (("carry eye lamp", "no connection leads from eye to lamp"), ("load ear", "S4: a field")):
            file = self.file("bad.txt", f"reset a\ndeploy eye\n{line}\nreset b\n")
            ran = sancus("run", self.head, file, "--no-images")
            self.assertEqual((ran.status, ran.lines[:2]), (122, ["trace", "reset a asked"]))
            self.assertEqual(ran.lines[-1], "done eye 1 0")
            self.says(ran, f"{file}:3: {line}", words)

    def test_notes_and_faults(self):
        again = self.file("again.txt", READING + "give event.eye.logic a\ncall logic 2\nsample eye 3\n")
        ran = sancus("run", self.head, again)
        self.assertEqual((ran.status, ran.out[: len(self.wanted) - 4]), (0, self.wanted[:-4]))
        self.assertIn("done logic 6 0", ran.lines)
        ran = sancus("run", self.head, self.file("still.txt", "settle\n"), "--no-images")
        self.assertEqual((ran.status, ran.lines), (0, ["trace", "end"]), ran.said)
        ran = sancus("run", self.file("bad.toml", "node = 3\n"), self.easy)
        self.assertEqual((ran.status, ran.lines), (1, ["fault deployment D4 top"]))
        self.says(ran, "`node` must be an array of tables")

    def test_a_forged_tag_is_told(self):
        text = (TOP / "examples" / "forged.txt").read_text().replace("load left", "windows 0x500 0x600\nload left", 1)
        ran = sancus("run", self.file("f.txt", text))
        self.says(ran, "item 8, `forged deployer`", "left hadn't made, in packet 1")


if __name__ == "__main__":
    unittest.main()
