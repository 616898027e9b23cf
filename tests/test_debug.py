"""`vars`, `steps`, `why` and `explain --words`: what a run did, and why, by the program's own answers."""

import re
import unittest

from support import EXAMPLES, HEAD, LIGHTING, PROGRAM, Room, needs_program, program, sancus

from sancus.model import forged, session
from sancus.model.described import described
from sancus.model.items import Item
from sancus.model.texts import Input
from sancus.runner import Runner

LIGHTING_FILE = EXAMPLES / "lighting.txt"
EASY = "deploy all\nsample eye 120\ncarry eye logic\nput a 0x900 00\n# at last\ncarry logic lamp\n"
NOTHING = "the line executes no instruction"
ARRAYS = LIGHTING.replace(
    b"var limit = 100;\non level(v) { if v > limit {",
    b"var limit = 100; array last[3]; var n = 7;\non level(v) { last[1] = v; n = n + 65530; limit = limit - 1; if v > limit {",
)


@needs_program
class Variables(Room):
    def test_after_the_last_line(self):
        ran = sancus("vars", LIGHTING_FILE, "logic", "45")
        self.assertEqual(
            ran.lines,
            [
                "line 45: call lamp 2 0x300 0x400",
                "module logic on node a, boot 0: protected since line 3; text 0x6000 to 0x6c00, data 0x2000 to 0x2232",
                "var limit = 100",
                "end up to: open in epoch 0, next event 1 (takes from eye)",
                "end down from: open in epoch 0, next event 1 (sends to lamp)",
                "pc of a 0x0000, outside the deployed modules",
            ],
            ran.said,
        )

    def test_before_keys_and_before_it_stands(self):
        self.assertIn("end up to: not open (takes from eye)", sancus("vars", LIGHTING_FILE, "logic", "4").lines)
        self.assertIn("not protected after this line", sancus("vars", LIGHTING_FILE, "logic", "0").out.decode())
        reset = self.file("x", LIGHTING + b"reset a\n")
        self.assertIn("boot 1: not protected", sancus("vars", reset, "logic", "46").out.decode())

    def test_arrays_and_first_values(self):
        lines = sancus("vars", self.file("x", ARRAYS), "logic", "45").lines
        self.assertEqual(lines[2:5], ["var limit = 99", "array last = 0 120 0", "var n = 1"])

    def test_readings(self):
        lines = sancus("vars", EXAMPLES / "readings.txt", "logic", "58", "--drive").lines
        self.assertIn("end up to: open in epoch 0, next event 4 (takes from eye)", lines)
        ran = sancus("vars", EXAMPLES / "readings.txt", "logic", "58")
        self.assertEqual(ran.lines, lines)
        self.says(ran, "has readings: the lines are those that `drive` makes of them")

    def test_lines_of_files(self):
        """A line by its place in a file, as an editor shows it; the files may be several."""
        whole = LIGHTING.decode().split("\n")
        last = f"lighting.txt:{len(whole) - 1}"
        wanted = sancus("vars", LIGHTING_FILE, "logic", "45").lines
        self.assertEqual(sancus("vars", LIGHTING_FILE, "logic", last).lines, wanted)
        schedule = self.file("s", LIGHTING[len(HEAD) + 3 :])
        self.assertEqual(sancus("vars", self.file("d", HEAD), schedule, "logic", "s:45").lines, wanted)
        self.assertEqual(sancus("vars", LIGHTING_FILE, schedule, "logic", f"{schedule}:45").lines, wanted)

    def test_lines_for_people(self):
        head, easy = self.file("d.toml", HEAD), self.file("easy.txt", EASY)
        for word in ("3", "easy.txt:3", f"{easy}:3"):
            lines = sancus("vars", head, easy, "logic", word).lines
            self.assertEqual(lines[0], f"{easy}:3: carry eye logic")
            self.assertIn(f"protected since {easy}:1; text", lines[1])
            self.assertIn("end up to: open in epoch 0, next event 1 (takes from eye)", lines)
        made = self.file("made.txt", sancus("schedule", head, easy).out)
        self.assertEqual(sancus("vars", made, "logic", "easy.txt:3").lines[2:], lines[2:])
        # one after it, and a comment, after which the run is as before
        self.assertIn("next event 0", sancus("vars", head, easy, "lamp", "5").out.decode())
        self.assertIn("next event 1", sancus("vars", head, easy, "lamp", "6").out.decode())

    def test_without_a_line(self):
        """Without LINE it is the last."""
        wanted = sancus("vars", LIGHTING_FILE, "logic", "45").lines
        self.assertEqual(sancus("vars", LIGHTING_FILE, "logic").lines, wanted)
        head, easy = self.file("d.toml", HEAD), self.file("easy.txt", EASY)
        self.assertEqual(sancus("vars", head, easy, "lamp").lines, sancus("vars", head, easy, "lamp", "easy.txt:6").lines)
        self.says(sancus("vars", LIGHTING_FILE, "45"), "missing: MODULE")

    def test_changes(self):
        head, easy = self.file("d.toml", Input(ARRAYS).head), self.file("easy.txt", EASY + "reset a\n")
        first = f"{easy}:1: protected, boot 0; var limit = 100; array last = 0 0 0; var n = 7"
        carried = [f"{easy}:3: {it}" for it in ("limit 100 -> 99", "last[1] 0 -> 120", "n 7 -> 1")]
        gone = f"{easy}:7: not protected any more: a was reset"
        self.assertEqual(sancus("vars", "--changes", head, easy, "logic").lines, [first, *carried, gone])
        self.assertEqual(sancus("vars", "--changes", head, easy, "logic", "easy.txt:2").lines, [first])
        self.assertEqual(sancus("vars", "--changes", head, easy, "logic", "0").lines, ["logic isn't protected in this run"])
        # more lines than one call of `snap` answers for
        many = self.file("many.txt", "deploy all\n" + "sample eye 120\ncarry eye logic\n" * 70)
        self.assertEqual(len(sancus("vars", "--changes", head, many, "logic").lines), 1 + 70 * 2 + 1)

    def test_a_reading_by_its_line(self):
        """After a reading its last event was carried; after a comment it is as after the reading before."""
        head, readings = self.file("d.toml", Input(ARRAYS).head), self.file("r.txt", "light 7\n# dark\nlight 9\n")
        for line, values in (("r.txt:1", "0 7 0"), ("r.txt:2", "0 7 0"), (f"{readings}:3", "0 9 0")):
            ran = sancus("vars", head, readings, "logic", line)
            self.assertIn(f"array last = {values}", ran.lines, ran.said)
        self.assertEqual(ran.lines[0], f"{readings}:3: light 9")
        changed = sancus("vars", "--changes", head, readings, "logic").lines
        self.assertIn(f"{readings}:3: last[1] 7 -> 9", changed)
        self.assertIn("> call lamp 2 0x40 0x80", sancus("steps", head, readings, "r.txt:1").lines)

    def test_up_to_a_line_that_can_not_be_done(self):
        head, easy = self.file("d.toml", HEAD), self.file("bad.txt", EASY.replace("# at last", "sample lamp 3"))
        good = self.file("good.txt", EASY)
        for words in (("vars", "logic", "3"), ("steps", "3")):
            ran = sancus(words[0], head, easy, *words[1:])
            wanted = sancus(words[0], head, good, *words[1:]).lines
            self.assertEqual((ran.status, ran.lines), (0, [it.replace("good.txt", "bad.txt") for it in wanted]))
            self.says(ran, "bad.txt:5: sample lamp 3: lamp drives no sensor", "the lines before it are looked into")
        ran = sancus("vars", head, easy, "logic", "6")
        self.assertEqual((ran.status, ran.out), (122, b""))
        self.says(ran, "lamp drives no sensor", "6 is no line of the schedule: it has 4")

    def test_misuse(self):
        for words, said in (
            (("vars", LIGHTING_FILE, "ear", "1"), "there is no module ear; the modules: eye logic lamp"),
            (("vars", LIGHTING_FILE, "eye", "46"), "46 is no line of the schedule: it has 45"),
            (("vars", LIGHTING_FILE, "eye", "x"), "x is no line of the schedule"),
            (("vars", self.file("a", HEAD), "eye", "1"), "has no line %%"),
            (("vars", self.file("b", b"node = 3\n%%\n"), "eye", "1"), "`node` must be an array of tables"),
            (("vars", self.file("c", LIGHTING + b"fly\n"), "eye", "46"), "S3: no line of a schedule begins with this word"),
            (("vars", LIGHTING_FILE, "eye", "lighting.txt:9"), "it has 45, counted from 1 after %%; the first is"),
            (("steps", LIGHTING_FILE, "0"), "line 0 is power-on"),
            (("steps", self.file("d", HEAD), self.file("e", "fly 3\n"), "1"), "S3: no line of a schedule begins with this word"),
            (("steps", self.file("d", HEAD), self.file("g", "call eye 3\n"), "1"), "S7: it has too many words or too few"),
            (("steps", self.file("d", HEAD), self.file("h", "run a x\n"), "1"), "S5: a field isn't a number"),
            (("vars", self.file("d", HEAD), self.file("f", "deploy ear\n"), "eye", "1"), "there is no module ear"),
        ):
            ran = sancus(*words)
            self.assertEqual((ran.status, ran.out), (122, b""), ran.said)
            self.says(ran, said)


@needs_program
class Marks(Room):
    def test_a_short_line_is_no_line_for_people(self):
        text = LIGHTING.replace(b"call eye 3 0x300 0x400", b"call eye 3")
        self.assertEqual(sancus("marks", text=text).lines[-1], program("run", text=text).lines[-1])

    def test_a_deployment_with_a_fault(self):
        self.says(sancus("marks", text=b"x = 1\n"), "D2: there is no line %%")
        self.says(sancus("marks", text=b"secret\n%%\n"), "D3: the deployment isn't TOML")

    def test_as_many_lines_as_a_run_takes(self):
        text = b"%%\n" + b"reset n\n" * 65537
        self.assertEqual(sancus("marks", text=text).lines[-3:], ["> reset n", "reset n asked", "fault schedule S2 65537"])

    def test_lines_for_people(self):
        head, easy = self.file("d.toml", HEAD), self.file("easy.txt", EASY)
        lines = sancus("marks", head, easy).lines
        at = lines.index("> call lamp 2 0x300 0x400")
        self.assertEqual(lines[at + 1 :], ["take lamp down 0 1", "out lamp 1", "done lamp 1 0", "end"])
        self.assertIn(f"> #= {easy}:6 carry logic lamp", lines)


@needs_program
class Snap(Room):
    """Queries about lines for people."""

    QUERIES = "items 3\n# regs a 9\nregs a 4\nbytes a 0x300 4 3\nregs b 0\n"

    def test_lines_for_people(self):
        head, easy, queries = self.file("d", HEAD), self.file("e", EASY), self.file("q", self.QUERIES)
        made = sancus("schedule", head, easy).out.decode()
        lines = made.partition("%%\n")[2].splitlines()
        first, second = (next(at for at, it in enumerate(lines, 1) if it.startswith(f"#= {easy}:{n}")) for n in (3, 4))
        asked = "".join(f"items {it}\n" for it in range(first + 1, second)) + f"regs a {second - 1}\n"
        wanted = program("snap", text=f"{made}%%\n{asked}bytes a 0x300 4 {second - 1}\nregs b 0\n")
        answers = [it.split(" ") for it in wanted.lines if not it.startswith("image ")]
        for it in answers[:-1]:
            it[{"item": 1, "regs": 2, "bytes": 3}[it[0]]] = {"regs": "4"}.get(it[0], "3") if it[1] != "b" else "0"
        both = self.file("both", EASY + "%%\n" + self.QUERIES)
        for files in ((head, easy, queries), (head, both), (self.file("w", f"{HEAD.decode()}%%\n{EASY}%%\n{self.QUERIES}"),)):
            ran = sancus("snap", "--no-images", *files)
            self.assertEqual((ran.status, ran.lines), (0, [" ".join(it) for it in answers]), ran.said)

    def test_misuse(self):
        head, easy = self.file("d", HEAD), self.file("e", EASY)
        for queries, last in (("regs a 1\nregs a 99\n", "Y6 2"), ("\nmoods a 1\n", "Y3 2"), ("\n" * 65, "Y2 65")):
            ran = sancus("snap", "--no-images", head, easy, self.file("q", queries))
            self.assertEqual((ran.status, ran.lines[-1]), (11, f"fault query {last}"), ran.said)
            self.says(ran, f"{last.split()[0]}: ")
        ran = sancus("snap", head, self.file("bad", "deploy ear\n"), self.file("q", "regs a 1\n"))
        self.assertEqual((ran.status, ran.out), (122, b""))
        self.says(ran, "there is no module ear")


@needs_program
class Steps(Room):
    def test_after_many_lines(self):
        """A line costs what it does itself, wherever it is: the lines before it are done together."""
        head, _, lines = LIGHTING.partition(b"%%\n")
        call = b"call eye 3 0x300 0x400\n"
        before, _, after = lines.partition(call)
        many = 60_000
        text = head + b"%%\n" + before + b"set a r5 0\n" * many + call + after
        ran = sancus("steps", self.file("x", text), str(39 + many))
        self.assertEqual(ran.status, 0, ran.said)
        self.assertEqual(ran.lines[1:], sancus("steps", LIGHTING_FILE, "39").lines[1:])

    def test_near_a_copy(self):
        """What is asked is after a line at which `snap` keeps a copy of the run, if there is room for that."""
        lines = [f"run a {it}" for it in range(1, 60_002)]
        made, asked = session.near_a_copy(lines, ["regs a 8193", "bytes a 0x10 2 8195"])
        self.assertEqual(asked, ["regs a 16384", "bytes a 0x10 2 16386"])
        self.assertEqual((made[8192], made[8193:16384], made[16384:]), (lines[8192], [""] * 8191, lines[8193:8195]))
        self.assertEqual(session.near_a_copy(lines, ["regs a 0", "regs a 2"]), (lines[:2], ["regs a 0", "regs a 2"]))
        last = ["regs a 60000", "regs a 60001"]
        self.assertEqual(session.near_a_copy(lines, last), (lines, last))

    def test_a_call(self):
        ran = sancus("steps", LIGHTING_FILE, "39")
        lines = ran.lines
        self.assertEqual(
            lines[:6],
            [
                "line 39: call eye 3 0x300 0x400",
                "set a r12 3",
                "set a r13 0x300",
                "set a r14 0x400",
                "set a r15 0",
                "set a pc 0x4000",
            ],
            ran.said,
        )
        self.assertEqual(lines[6].split()[:3], ["1", "0x4000", "eye"])
        self.assertEqual([it.strip() for it in lines if it.startswith("      ")], ["read eye 120", "done eye 1 1"])
        self.assertFalse([it for it in lines if "?" in it])
        # as many steps as `run` takes
        steps = len([it for it in lines if it[:5].strip().isdigit()])
        sets = "set a r12 3\nset a r13 0x300\nset a r14 0x400\nset a r15 0\nset a pc 0x4000\n"
        for more, is_done in ((0, True), (-1, False)):
            text = LIGHTING.decode().replace("call eye 3 0x300 0x400", f"{sets}run a {steps + more}")
            self.assertEqual(program("run", text=text).lines.count("done eye 1 1"), 1 + is_done)

    def test_plain_code(self):
        text = b"%%\nset n sp 0x600\nasm n 0x800 mov #5, r5; add #0xffff, r5; mov r5, &0x900\nset n pc 0x800\nrun n 3\n"
        self.assertEqual(
            sancus("steps", self.file("x", text), "4").lines,
            [
                "line 4: run n 3",
                "    1 0x0800 -          mov #0x5, r5                 r5=0x0005",
                "    2 0x0804 -          add #0xffff, r5              sr=0x0001 (C) r5=0x0004",
                "    3 0x0806 -          mov r5, &0x900",
            ],
        )

    def test_a_reset(self):
        lines = sancus("steps", self.file("x", b"%%\nasm n 0x800 .word 0\nset n pc 0x800\nrun n 9\n"), "3").lines
        self.assertEqual([it.split()[0] for it in lines[1:]], ["1", "reset"])

    def test_load_and_lines_without_instructions(self):
        lines = sancus("steps", LIGHTING_FILE, "2").lines
        self.assertIn("protect", lines[-2])
        self.assertEqual(lines[-1].strip(), "protect a eye")
        self.assertIn("executes no instruction", sancus("steps", LIGHTING_FILE, "38").out.decode())
        self.assertIn("executes no instruction", sancus("steps", LIGHTING_FILE, "1").out.decode())

    def test_lines_for_people(self):
        head, easy = self.file("d.toml", HEAD), self.file("easy.txt", EASY)
        lines = sancus("steps", head, easy, "easy.txt:3").lines
        self.assertEqual(
            [it for it in lines if not it.startswith((" ", "set"))],
            [
                f"{easy}:3: carry eye logic",
                "> take a 0x400 24",
                "> give 10 a 0x300",
                "> call logic 2 0x300 0x400",
            ],
        )
        made = self.file("made.txt", sancus("schedule", head, easy).out)
        self.assertEqual(sancus("steps", made, "easy.txt:3").lines, lines)
        self.assertEqual(sancus("steps", head, easy, "5").lines, [f"{easy}:5: # at last", NOTHING])

    def test_busy(self):
        text = (
            LIGHTING
            + b"give 10 a 0x300\nset a r12 2\nset a r13 0x300\nset a r14 0x400\nset a r15 0\nset a pc 0x6000\nrun a 5\ncall eye 3 0x300 0x400\n"
        )
        self.assertIn("refused, since a module runs on a", sancus("steps", self.file("x", text), "53").out.decode())


@needs_program
class Why(Room):
    def setUp(self):
        super().setUp()
        self.trace = self.file("t", program("run", text=LIGHTING).out)

    def changed(self, old, new):
        text = self.trace.read_bytes()
        self.assertIn(old, text)
        return self.file("c", text.replace(old, new, 1))

    def test_a_chain(self):
        wanted = [
            "42 out lamp 1: lamp wrote 1 to its actuator",
            "  because of 41 take lamp down 0 1: lamp took event 0 of down (logic.bright to lamp.show), with the value 1 (the last event that triggered it)",
            "  because of 38 take logic up 0 120: logic took event 0 of up (eye.level to logic.level), with the value 120 (where this event was sent)",
            "  because of 35 read eye 120: eye read 120 from its sensor (where this event was sent)",
            "  because of 34 sense light 120: the sensor light got the value 120 (the sensor's last sample)",
        ]
        for words in (("42",), ()):
            self.assertEqual(sancus("why", LIGHTING_FILE, self.trace, *words).lines, wanted)

    def test_an_item_by_words(self):
        wanted = sancus("why", LIGHTING_FILE, self.trace, "42")
        for words in (("out lamp",), ("out", "lamp"), ("out", "lamp", "1"), ("out",)):
            self.assertEqual(sancus("why", LIGHTING_FILE, self.trace, *words), wanted)
        ran = sancus("why", LIGHTING_FILE, self.trace, "done lamp")
        self.assertTrue(ran.lines[0].startswith("43 done lamp 1 0"))
        self.says(ran, "3 items begin with `done lamp`, and this is the last of them: 28 33 43")
        for word, said in (
            ("out alarm", "no item begins with `out alarm`; the trace has: `out lamp`"),
            ("out bulb", "an item names the module, and lamp drives bulb"),
            ("alarm", "no item begins with `alarm`; the trace has: `ask`, `attested`,"),
            ("0", "0 is no item: the trace has 43"),
        ):
            ran = sancus("why", LIGHTING_FILE, self.trace, word)
            self.assertEqual((ran.status, ran.out), (122, b""))
            self.says(ran, said)

    def test_a_trace_in_a_pipe(self):
        trace = self.trace.read_bytes()
        wanted = sancus("why", LIGHTING_FILE, self.trace, "42").lines
        for words in ((), ("-",), ("42",), ("out", "lamp"), ("out lamp",), ("-", "out", "lamp")):
            self.assertEqual(sancus("why", LIGHTING_FILE, *words, text=trace).lines, wanted)
        self.says(sancus("why", LIGHTING_FILE, "nofile"), "nofile can't be read: No such file")
        whole = sancus("explain", LIGHTING_FILE, self.trace)
        for file in (LIGHTING_FILE, self.file("d.toml", HEAD)):
            for words in ((), ("--words",), ("--json",)):
                wanted = sancus("explain", *words, LIGHTING_FILE, self.trace)
                self.assertEqual(sancus("explain", *words, file, text=trace), wanted)
        # a file with a trace is the whole input, whatever the pipe has
        both = self.file("both", HEAD + b"%%\n" + trace)
        self.assertEqual(sancus("explain", both, text="image x\n"), whole)
        ran = sancus("explain", LIGHTING_FILE)
        self.assertEqual((ran.status, ran.out), (3, program("explain", text=LIGHTING).out))
        self.says(ran, "`sancus run FILE | sancus explain FILE` judges it")
        self.says(sancus("explain", "--words", LIGHTING_FILE), "takes DEPLOYMENT and TRACE")

    def test_items_without_a_cause(self):
        self.assertIn("here the chain ends", sancus("why", LIGHTING_FILE, self.trace, "34").out.decode())
        self.assertIn("and no others", sancus("why", LIGHTING_FILE, self.trace, "1").out.decode())
        self.says(sancus("why", LIGHTING_FILE, self.trace, "99"), "99 is no item: the trace has 43")

    def test_illegal_items(self):
        for old, new, words in (
            (b"out lamp 1", b"out lamp 2", "it emits 1 now, and not 2"),
            (b"take lamp down 0 1", b"take lamp down 0 2", "logic sent the value 1 as event 0 of down, and not 2"),
            (
                b"take lamp down 0 1",
                b"take lamp down 1 1",
                "logic sent 1 event over down in epoch 0, so there is no event 1",
            ),
            (b"read eye 120", b"read eye 121", "the sensor light has the value 120, and not 121"),
            (b"sense light 120\n", b"", "has no new sample"),
            (b"open lamp down to\ndone lamp 1 0\n", b"", "lamp's end of down isn't open"),
            (b"attested eye 0", b"attested eye 1", "didn't vouch for challenge 0 at boot 1"),
            (b"vouch eye 0\n", b"", "no item shows what"),
            (b"protect b lamp\n", b"", "lamp isn't there"),
            (b"done eye 1 1\npacket 10", b"packet 10", None),
            (b"done lamp 1 0\nend", b"done lamp 1 1\nend", "makes 0 pieces over its open ends, and not 1"),
        ):
            with self.subTest(new=new, old=old):
                trace = self.changed(old, new)
                ran = sancus("why", LIGHTING_FILE, trace)
                last = program("explain", text=HEAD + b"%%\n" + trace.read_bytes()).lines[-1]
                if words is None:
                    continue
                self.assertTrue(last.startswith("illegal "), last)
                self.assertIn(f"illegal: {last.split()[1]} ", ran.out.decode())
                self.assertIn(words, ran.lines[-1])

    def test_the_tampered_example(self):
        lines = sancus("why", LIGHTING_FILE, EXAMPLES / "tampered.trace").lines
        self.assertTrue(lines[-2].startswith("illegal: 38 done logic 1 1"))
        self.assertIn("no item shows what: an `open`, `vouch`, `take` or `read` of it is missing", lines[-1])

    def test_a_driven_trace(self):
        driven = self.file("d", program("drive", text=(EXAMPLES / "readings.txt").read_bytes()).out)
        self.assertIn("  because of", sancus("why", EXAMPLES / "readings.txt", driven).lines[1])

    def test_explain_words(self):
        ran = sancus("explain", "--words", LIGHTING_FILE, self.trace)
        self.assertEqual(ran.status, 0)
        self.assertEqual(ran.lines[-1], "legal: the first 43 items are a legal run of the sources")
        self.assertIn("because of 41 take lamp down 0 1", ran.lines[-2])
        ran = sancus("explain", "--words", LIGHTING_FILE, EXAMPLES / "tampered.trace")
        self.assertEqual(ran.status, 8)
        self.assertIn("illegal: 38", ran.out.decode())
        self.says(
            sancus("why", LIGHTING_FILE, self.file("x", "secret = 1\n")),
            "the trace isn't judged: fault trace E1 1",
            "this is a deployment",
        )

    def test_explain_words_of_a_fault(self):
        """A fault has the same words with and without --words."""
        faulty, trace = self.file("d.toml", HEAD.replace(b"v > limit", b"v % limit")), self.file("e", b"none\n")
        for files, said in (((faulty, self.trace), "there is no remainder"), ((LIGHTING_FILE, trace), "E1: a line")):
            plain, worded = sancus("explain", *files), sancus("explain", "--words", *files)
            self.assertEqual(worded, plain)
            self.says(worded, said)

    def test_a_schedule_is_run_first(self):
        """It is run first: a plain one, one for people, or readings."""
        head, easy = self.file("d.toml", HEAD), self.file("easy.txt", EASY)
        whole = sancus("why", LIGHTING_FILE, self.trace).lines
        for files in ((LIGHTING_FILE, LIGHTING_FILE), (head, easy), (head, easy, "42"), (head, easy, "out lamp")):
            lines = sancus("why", *files).lines
            self.assertEqual([re.sub(r", at (line )?\S+", "", it) for it in lines], whole)
        self.assertEqual(sancus("explain", head, easy).out, sancus("explain", head, self.trace).out)
        self.assertEqual(sancus("explain", "--words", head, easy).lines[-1].split(":")[0], "legal")
        self.assertIn("42 out lamp 1", sancus("why", head, self.file("r", "light 120\n")).out.decode())
        for text in ("node = 3\n", "node\n"):
            ran = sancus("explain", self.file("n.toml", text), easy)
            self.assertEqual((ran.status, ran.out), (1, program("explain", text=text + "%%\n").out))
        bad = self.file("bad", "deploy all\ncarry eye logic\n")
        ran = sancus("why", head, bad, "1")
        self.assertEqual((ran.status, ran.lines[0].split(":")[0]), (0, "1 protect a eye"))
        self.says(ran, "eye sent nothing at its last call", "the lines before it are looked into")
        ran = sancus("explain", head, bad)
        self.assertEqual((ran.status, ran.out), (122, b""))
        self.says(ran, "eye sent nothing at its last call")
        ran = sancus("why", head, self.file("s", "load eye\nload ear\n"), "1")
        self.assertEqual((ran.status, ran.lines[0].split(":")[0]), (0, "1 protect a eye"))
        self.says(ran, "fault schedule S4 2", "/s:2: load ear", "what came before is judged")

    # Lines after those of the lighting example, the item that is asked about, and what is said of it.
    REFUSED = (
        ("give 99 a 0x300", "skip a", "there is no packet 99: 12 were made before"),
        ("put a 0x4000 00", "skip a", "0x4000 to 0x4000 meet the public section of eye, 0x4000 to 0x497f"),
        ("take a 0x1010 4", "skip a", "0x1010 to 0x1013 meet the private section of eye, 0x1000 to 0x1217"),
        ("asm a 0x0ffe mov #3, r5", "skip a", "0x0ffe to 0x1001 meet"),
        ("give 11 a 0x1ff0", "skip a", "0x1ff0 to 0x2007 meet the private section of logic"),
        ("put a 0xffff 0000", "skip a", "0xffff and 2 bytes pass the end of memory"),
        ("irq a 3", "skip a", "interrupts are masked: GIE in SR, 0x0000, is 0"),
        ("set a r12 3\nset a pc 0x4000\nrun a 5\nput a 0x900 00", "busy a", "PC is 0x4014, in eye, which isn't done"),
        ("answer eye 0 1", "denied eye", "no ask of eye is open"),
        ("ask eye\nanswer eye 0 1", "denied eye", "eye didn't answer its last ask, with challenge 3, before"),
        ("answer eye 0 99", "denied eye", "there is no packet 99: 12 were made before"),
        ("call lamp 2 0x300 0x400", "done lamp 6", "the packet is event 0 of down in epoch 0, and the next that lamp takes is 1"),
        ("call lamp 2 0x300 0x400", "done lamp 6", "`call lamp 2 0x300 0x400`; packet 11 was given to this window last"),
        ("call eye 3 0x300 0x400", "done eye 8", "the last sample of light was read at item 35, read eye 120"),
        ("call lamp 3 0x300 0x400", "done lamp 2", "lamp has no entry 3: 0 set-key, 1 attest, 2 input"),
        ("call lamp 2 0xff0 0x400", "done lamp 3", "the in-window of 40 bytes, 0x0ff0 to 0x1017, meets the private section"),
        ("call lamp 2 0x300 0xff00", "done lamp 3", "the out-window of 384 bytes, 0xff00 to 0x007f, passes the end"),
        ("call lamp 0 0x300 0x400", "done lamp 4", "entry 0 takes a set-key packet, and in the in-window is an event"),
        ("reset b\nload lamp\ngive 11 b 0x300\ncall lamp 2 0x300 0x400", "done lamp 5", "lamp's end of it isn't open"),
        ("call lamp 2 0x300 0x400", "done lamp 1", "because of 41 take lamp down 0 1"),
        ("put b 0x306 ff\nput b 0x304 0900\ncall lamp 2 0x300 0x400", "done lamp 7", "the packet is event 9 of down"),
        ("reset a", "reset a", "asked for by line 46, `reset a`"),
        ("asm a 0x800 mov #0x1000, r5; push r5; mov @r5, r6\nset a sp 0x600\nset a pc 0x800\nrun a 9", "reset a read",
         "by line 49, `run a 9`, step 3: `mov @r5, r6` at 0x0806, outside the deployed modules"),
        ("asm a 0x800 mov @r5, r6\nset a r5 0x2000\nset a pc 0x800\nrun a 9", "reset a read",
         "0x2000 is in the private section of logic, 0x2000 to 0x2231"),
        ("asm a 0x800 push r5\nset a sp 0x4010\nset a pc 0x800\nrun a 9", "reset a write",
         "0x400e is in the public section of eye, 0x4000 to 0x497f"),
        ("asm a 0x800 mov #0x4010, pc\nset a pc 0x800\nrun a 9", "reset a order", "step 1 was `mov #0x4010, pc` at 0x0800"),
        ("asm a 0x800 mov #0x4010, pc\nset a pc 0x800\nrun a 9", "reset a order", "which is entered at 0x4000 alone"),
        ("call eye 0 0x1ff0 0x400", "reset a read", "is in the private section of logic"),
        ("asm b 0x800 mov #1, &0x1000\nreset b\nasm b 0x800 mov #1, &0x1000\nset b pc 0x800\nrun b 1", "raw bulb",
         "lamp, which drives bulb, isn't protected: until it is, any code can do this"),
    )

    def test_what_was_refused(self):
        for lines, item, words in self.REFUSED:
            with self.subTest(lines):
                ran = sancus("why", self.file("x.txt", LIGHTING + lines.encode() + b"\n"), *item.split())
                self.assertEqual(ran.status, 0, ran.said)
                self.assertTrue(ran.lines[1:] and all(it.startswith("  ") for it in ran.lines[1:]), ran.lines)
                self.assertIn(words, "\n".join(ran.lines[1:]))

    def test_a_schedule_in_place_of_a_trace(self):
        head, easy = self.file("d.toml", HEAD), self.file("easy.txt", EASY + "give event.logic.lamp b\ncall lamp 2\n")
        lines = sancus("why", head, easy, "out", "lamp").lines
        self.assertTrue(lines[0].endswith(f": lamp wrote 1 to its actuator, at {easy}:6"), lines)
        self.assertTrue(lines[-1].endswith(f"at {easy}:2 (the sensor's last sample)"), lines)
        lines = sancus("why", head, easy, "done lamp 6").lines
        self.assertIn(f"  by {easy}:8, `call lamp 2 0x300 0x400`; packet 11 was given to this window last", lines)
        readings = sancus("why", head, self.file("r.txt", "light 120\n"), "out lamp").lines
        self.assertIn("r.txt:1 (the sensor's last sample)", readings[-1])
        self.assertEqual(sancus("why", LIGHTING_FILE, "out", "lamp").lines[0].partition(", at ")[2], "line 45")
        lines = sancus("why", head, self.file("t", program("run", text=LIGHTING + b"reset a\n").out), "reset").lines
        self.assertIn("`sancus why DEPLOYMENT SCHEDULE ITEM` does", lines[1])
        self.says(sancus("why", head), "`why` takes SCHEDULE or TRACE, or a trace in a pipe")

    def test_forged(self):
        for name, item, words in (
            (
                "forged",
                8,
                "as left's answer for boot 0, the deployer accepts a tag under left's key that left hadn't made",
            ),
            (
                "public_key",
                12,
                "as event 0 of up (eye.level to lamp.show), lamp accepts a tag under the key of up in its epoch 0 that eye hadn't made",
            ),
        ):
            file = EXAMPLES / f"{name}.txt"
            ran = sancus("run", file)
            self.says(ran, f"item {item}, `forged ", words, "after it no more is promised than")
            self.assertNotIn(words, sancus("run", "-q", file).said)
            self.assertIn(words, sancus("run", text=file.read_bytes()).said)
            trace = self.file("f", ran.out)
            lines = sancus("explain", "--words", file, trace).lines
            self.assertTrue(lines[-1].startswith(f"forged: {item} forged "), lines)
            self.assertIn(words, lines[-1])
            lines = sancus("why", file, trace, "forged").lines
            self.assertIn(words, lines[0])
            self.assertIn("up to here the trace is a legal run", lines[1])
            self.assertIn(words, sancus("why", file, trace, str(item + 1)).lines[1])
        self.says(
            sancus("run", EXAMPLES / "forged.txt"), "hadn't made, in packet 1\n", "forged.txt:29: answer left 0 1"
        )
        self.says(sancus("run", EXAMPLES / "public_key.txt"), "; packet 3 was given to this window last\n")

    def test_kinds_of_forged(self):
        deployment = described(Runner([PROGRAM]), HEAD)
        for texts, words in (
            (
                ("packet 4 38", "forged lamp", "open lamp down to 1"),
                "as a set-key packet for its end of down (logic.bright to lamp.show) in epoch 1, lamp accepts a tag "
                "under lamp's key that the deployer hadn't made; the last packet of 38 bytes before it is packet 4",
            ),
            (("forged lamp", "take lamp down 65537 3"), "as event 1 of down (logic.bright to lamp.show), lamp accepts"),
            (("forged lamp", "take lamp down 65537 3"), "the key of down in its epoch 1 that logic hadn't made"),
            (("forged lamp",), "lamp accepts a tag that its rightful maker hadn't made"),
            (("forged deployer",), "the deployer accepts a tag that its rightful maker hadn't made"),
        ):
            items = [Item(at, it) for at, it in enumerate(texts, 1)]
            at = next(it.number for it in items if it.kind == "forged")
            self.assertIn(words, forged.said(items, at, deployment))
        lines = ["give 3 b 0x300", "give 4 b 768", "give 5 a 0x300", "give 6 b 0x302", "call lamp 2 0x300 0x400"]
        self.assertEqual(forged.presented_by(lines, 5, deployment), "; packet 4 was given to this window last")
        self.assertEqual(forged.presented_by([*lines[:4], "reset b", lines[4]], 6, deployment), "")
        self.assertEqual(forged.presented_by(["answer lamp 0 7"], 1, deployment), ", in packet 7")
        self.assertEqual(forged.presented_by(["run b 9"], 1, deployment), "")


if __name__ == "__main__":
    unittest.main()
