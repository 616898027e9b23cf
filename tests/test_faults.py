"""Faults in words: what is said of fault lines, where it points, and what is guessed. With a program, the fault lines
are its own too."""

import re
import unittest
from unittest.mock import patch

from support import EXAMPLES, HEAD, LIGHTING, PROGRAM, Room, needs_program, program, sancus, one_by_one, whole_examples

from sancus.model import language, tables, toml, warnings
from sancus.model.deployment import tables_of
from sancus.model.faults import Teller
from sancus.model.texts import Input, kept_of
from sancus.status import Ended

# What is changed in the lighting example, the command, the fault line, and words of what is told.
CASES = [
    (
        b"level(v); }",
        b"level(v) }",
        "check",
        "deployment D7 module 0 3 27",
        ["x.txt:19: sample(v) { send level(v) }\n", "module eye, x.txt:10", "expected `;`, and found `}`"],
    ),
    (
        b"var limit = 100;",
        b"const limit = 100;",
        "check",
        "deployment D7 module 1 3 1",
        ["there are no constants", "x.txt:30"],
    ),
    (b"if v > limit", b"if v > limit && v < 9", "check", "deployment D7 module 1 4 29", ["there is no `&&`"]),
    (b"if v > limit", b"if v > limit || v < 9", "check", "deployment D7 module 1 4 29", ["there is no `||`"]),
    (
        b"if v > limit",
        b"limit += 1; if v > limit",
        "check",
        "deployment D7 module 1 4 21",
        ["there is no such assignment"],
    ),
    (b"if v > limit", b"limit++; if v > limit", "check", "deployment D7 module 1 4 20", ["there is no `++`"]),
    (b"if v > limit", b"if v / 2 > limit", "check", "deployment D7 module 1 4 20", ["there is no division"]),
    (b"if v > limit", b"if v % 2 > limit", "check", "deployment D7 module 1 4 20", ["there is no remainder"]),
    (b"if v > limit", b"if v << 2 > limit", "check", "deployment D7 module 1 4 21", ["there is no shift"]),
    (
        b"else {",
        b"else if v {",
        "check",
        "deployment D7 module 1 4 53",
        ["there is no `else if`", "expected `{`"],
    ),
    (
        b"if v > limit",
        b"if v > 3 & v < limit",
        "check",
        "deployment D7 module 1 4 28",
        ["`&`, `|` and `^` bind more than comparisons do", "`(v > a) & (v < 900)`"],
    ),
    (b"if v > limit", b"bright(1); if v", "check", "deployment D7 module 1 4 21", ["by `send output(value);`"]),
    (b"if v > limit", b"while v { } if v > limit", "check", "deployment D7 module 1 4 21", ["there is no such loop"]),
    (b"if v > limit", b"if v = limit", "check", "deployment D7 module 1 4 20", ["`==` compares"]),
    (
        b"if v > limit",
        b"let on = 1; if v > limit",
        "check",
        "deployment D7 module 1 4 19",
        ["this word is reserved"],
    ),
    (b"limit = 100", b"limit = 70000", "check", "deployment D7 module 1 3 17", ["a number is at most 65,535"]),
    (b"limit = 100", b"Limit = 100", "check", "deployment D7 module 1 3 5", ["lower-case letters"]),
    (b"if v > limit", b"# x\nif v > limit", "check", "deployment D7 module 1 4 15", ["begins with `//`"]),
    (
        b"v > limit",
        b"v > limits",
        "check",
        "deployment D8 module 1 2",
        [
            "rule 2 of the language, Unknown",
            "module logic",
            "`limits` isn't declared; did you mean `limit`?",
            "x.txt:31: on level(v) { if v > limits",
            "^^^^^^",
        ],
    ),
    (
        b"if v > limit",
        b"if true",
        "check",
        "deployment D8 module 1 2",
        ["`true` isn't declared", "there are no truth values"],
    ),
    (
        b"if v > limit",
        b"if v { let w = 1; } if w",
        "check",
        "deployment D8 module 1 2",
        ["the local `w` is out of sight here"],
    ),
    (b"var limit", b"var level", "check", "deployment D8 module 1 1", ["`level` is declared a second time"]),
    (b"if v > limit", b"let v = 1; if v > limit", "check", "deployment D8 module 1 1", ["has a local `v` already"]),
    (
        b"if v > limit",
        b"bright = 1; if v > limit",
        "check",
        "deployment D8 module 1 3",
        ["`bright` is an output, and is used as a value"],
    ),
    (b"emit v;", b"emit v; repeat 0 { }", "check", "deployment D8 module 2 6", ["the count is 0"]),
    (b"emit v;", b"repeat 256 { repeat 256 { } }", "check", "deployment D8 module 2 8", ["`on show` costs 4,"]),
    (
        b"actuator;\ninput",
        b"actuator;\narray a[0];\ninput",
        "check",
        "deployment D8 module 2 10",
        ["the array `a` has length 0"],
    ),
    (
        b"provider = 7",
        b"providr = 7",
        "check",
        "deployment D4 module 0",
        ["`providr` is unknown here; did you mean `provider`?", "`provider` is missing"],
    ),
    (
        b"node = [ {",
        b"node = [ 5, {",
        "check",
        "deployment D4 node 0",
        ["node number 0, counted from 0", "it is 5, and must be a table"],
    ),
    (
        b'2d2e2f"',
        b'2d2e"',
        "check",
        "deployment D4 node 1",
        ["`key` must be 32 hexadecimal digits, and has 30 characters", "node b, x.txt:5"],
    ),
    (b'0e0f"\n', b"0e0f\nn = 1", "check", "deployment D3 -", ["x.txt:3: secret"]),
    (
        b'node = "b", kind',
        b'node = "c", kind',
        "check",
        "deployment D5 device 1",
        ["device bulb", "there is no node `c`"],
    ),
    (
        b'name = "logic"',
        b'name = "eye"',
        "check",
        "deployment D5 module 1",
        ["the name `eye` is taken by an earlier module"],
    ),
    (
        b"actuator;\ninput show;\non show(v) { emit v; }",
        b"sensor; input show;",
        "check",
        "deployment D9 module 2",
        ["declares a sensor, and its device bulb is an actuator"],
    ),
    (
        b"eye.level",
        b"eye.levl",
        "check",
        "deployment D9 connection 0",
        ["the module eye has no output `levl`; its outputs: level; did you mean `level`?"],
    ),
    (
        b"text = 0x6000",
        b"text = 0x4900",
        "check",
        "deployment D10 module 1",
        ["0x4900 to 0x5500", "share 0x4900 to 0x4980, 128 bytes", "section of eye"],
    ),
    (b"data = 0x2000", b"data = 0xff00", "check", "deployment D10 module 1", ["ends 338 bytes above 0xffe0"]),
    (b"at = 0x1000 },\n", b"at = 0x1001 },\n", "check", "deployment D10 device 0", ["its place 0x1001 is odd"]),
    (b"%%\n", b"", "run", "deployment D2 -", ["there is no line %%", "`sancus run x.txt SCHEDULE` takes a schedule"]),
    (b"%%\n", b"%% \n", "run", "deployment D2 -", ["x.txt:44: %% ", "the mark is a line `%%` alone"]),
    (b"secret", b"#" * 4097 + b"\nsecret", "check", "deployment D1 -", ["x.txt:3: ####", "(4,097 bytes)"]),
    (
        b"load lamp",
        b"lod lamp",
        "run",
        "schedule S3 4",
        ["lod lamp\n", "^^^", "the acts: run finish", "did you mean `load`?"],
    ),
    (
        b"load lamp",
        b"deploy lamp",
        "run",
        "schedule S3 4",
        ["`sancus run DEPLOYMENT LINES` takes those"],
    ),
    (b"load lamp", b"light 5", "run", "schedule S3 4", ["this looks like a reading"]),
    (b"load lamp", b"items 5", "run", "schedule S3 4", ["is a query of `sancus snap`"]),
    (b"load lamp", b"%%", "run", "schedule S3 4", ["a second `%%` is for `sancus snap`"]),
    (
        b"load lamp",
        b"load lump",
        "run",
        "schedule S4 4",
        ["load lump\n", "     ^^^^", "a module: eye logic lamp; did you mean `lamp`?"],
    ),
    (b"sense light 120", b"sense  bulb 120", "run", "schedule S4 38", ["       ^^^^", "a sensor: light"]),
    (b"sense light 120", b"sense light 99999", "run", "schedule S5 38", ["^^^^^", "VALUE, a number from 0 to 32,767"]),
    (b"ask eye", b"forge 123", "run", "schedule S6 9", ["^^^", "1 to 384 bytes"]),
    (b"load logic", b"load logic now", "run", "schedule S7 3", ["its words: load MODULE"]),
    (
        b"ask eye",
        b"asm a 0x200 mov 1 2",
        "run",
        "schedule S8 9",
        ["            ^", "two operands, with a comma between them"],
    ),
    (b"ask eye", b"asm a 0x200 mov #1, r5; ret", "run", "schedule S8 9", ["write `mov @sp+, pc`", "^^^"]),
    (b"ask eye", b"asm a 0x200 clr r5", "run", "schedule S8 9", ["write `mov #0, r5`"]),
    (b"ask eye", b"asm a 0x200 br #0x4000", "run", "schedule S8 9", ["write `mov #0x4000, pc`"]),
    (b"ask eye", b"asm a 0x200 nop", "run", "schedule S8 9", ["write `mov #0, r3`"]),
    (b"ask eye", b"asm a 0x200 mvo #1, r5", "run", "schedule S8 9", ["`mvo` is no mnemonic (did you mean `mov`?)"]),
    (b"ask eye", b"asm a 0x200 mov #70000, r5", "run", "schedule S8 9", ["`70000` is out of range"]),
    (b"ask eye", b"asm a 0x200 mov #-1, r5", "run", "schedule S8 9", ["write `65535`"]),
    (b"ask eye", b"asm a 0x200 mov.w #1, r5", "run", "schedule S8 9", ["is written `mov`"]),
    (b"if v > limit", b"if v > 3 send bright(1); if v > limit", "check", "deployment D7 module 1 4 24", ["a block has braces"]),
    (b"send bright(1)", b"send bright(1, v)", "check", "deployment D7 module 1 4 43", ["an event carries one word"]),
    (b"if v > limit", b"print v; if v > limit", "check", "deployment D7 module 1 4 21", ["nothing is printed"]),
    (b"limit = 100", b"limit = -1", "check", "deployment D7 module 1 3 13", ["-1 is written 65535"]),
    (b"var limit = 100;", b"var limit = 100; array h[2] = {1, 2};", "check", "deployment D7 module 1 3 29", ["an array begins with zeros"]),
    (b"var limit = 100;", b"var limit = 100; array h[limit];", "check", "deployment D7 module 1 3 26", ["an array's length is a number"]),
    (b"if v > limit", b"let w = v ? 1 : 2; if v > limit", "check", "deployment D7 module 1 4 25", ["there is no `? :`"]),
    (b"if v > limit", b"let w; if v > limit", "check", "deployment D7 module 1 4 20", ["a local has a value from the start"]),
    (b"on show(v)", b"on show()", "check", "deployment D7 module 2 3 9", ["a handler has one parameter"]),
    (b"on show(v)", b"on show", "check", "deployment D7 module 2 3 9", ["a handler has one parameter"]),
    (b"on show(v)", b"on show(input)", "check", "deployment D7 module 2 3 9", ["this word is reserved"]),
    (b"var limit = 100;", b"let limit = 100;", "check", "deployment D7 module 1 3 1", ["declared by `var x = 1;`"]),
    (b"if v > limit", b"var w = 1; if v > limit", "check", "deployment D7 module 1 4 15", ["in a handler a local is declared by `let x = 1;`"]),
    (b"limit = 100", b"limit = 0xFFFFF", "check", "deployment D7 module 1 3 19", ["a number is at most 65,535"]),
    (b'[[module]]\nname = "logic"', b'[module]\nname = "logic"', "check", "deployment D3 -", ["`[[module]]`"]),
]


def told(text, fault, word="run", name="x.txt"):
    ask = (lambda words, it: program(*words, text=it).out) if PROGRAM else (lambda _words, _text: b"")
    return "\n".join(Teller(kept_of(text, name), word, ask).told(fault))


class Cases(unittest.TestCase):
    def test_cases(self):
        for old, new, word, fault, words in CASES:
            with self.subTest(fault=fault, new=new):
                text = LIGHTING.replace(old, new, 1)
                self.assertNotEqual(text, LIGHTING)
                lines = told(text, f"fault {fault}", word)
                for it in words:
                    if it == "^^^" and not PROGRAM and " S8" in fault:
                        continue
                    self.assertIn(it, lines)

    def test_an_array_is_no_text_without_quotes(self):
        for value, is_bare in ((b"0011", True), (b"[ { ]", False)):
            lines = told(b"node = " + value + b"\n%%\n", "fault deployment D3 -")
            self.assertEqual("a text is written between quotes" in lines, is_bare, lines)

    @needs_program
    def test_a_free_place(self):
        """A place that doesn't suit is named with one that does."""
        port = b'{ name = "port", node = "a", kind = "actuator", at = 0x1000 },\n         '
        for old, new, place, key in (
            (b"text = 0x6000", b"text = 0x4900", b"text = 0x4900", "text = 0x4a00"),
            (b"data = 0x2000", b"data = 0xff00", b"data = 0xff00", "data = 0x0600"),
            (b"data = 0x2000", b"data = 0x1000", b"data = 0x1000", "data = 0x1300"),
            (b"data = 0x2000", b"data = 0x6400", b"data = 0x6400", "data = 0x6c00"),
            (b"at = 0x1000 },\n", b"at = 0x1001 },\n", b"at = 0x1001 },\n", "at = 0x1100"),
            (b"text = 0x6000", b"text = 0xe000", b"data = 0x2000", ""),
            (b'{ name = "light"', port + b'{ name = "light"', b'"sensor", at = 0x1000', "at = 0x1100"),
        ):
            text = HEAD.replace(old, new, 1)
            ran = sancus("check", text=text)
            if key:
                self.assertTrue(ran.out.startswith(b"fault deployment D10 "), ran.out)
                self.assertIn(f": `{key}`", ran.said)
                text = text.replace(place, re.sub(b"0x[0-9a-f]+", key[-6:].encode(), place), 1)
            self.assertEqual(sancus("check", text=text + b"%%\n").status, 0, text)
        taken = [tables.Range("", 0x0600, 0x8004), tables.Range("", 0x8020, 0xFF00)]
        self.assertEqual(tables.free_place(0x10, taken, 0x4000), 0xFF00)
        taken.append(tables.Range("", 0xFF00, 0xFFE0))
        self.assertEqual(tables.free_place(0x10, taken, 0x4000), 0x8004)
        self.assertIsNone(tables.free_place(0x1E, taken, 0x4000))

    @needs_program
    def test_the_program_says_so(self):
        def last(case):
            old, new, word, _, _ = case
            return program(word, text=LIGHTING.replace(old, new, 1)).lines[-1]

        for case, line in zip(CASES, one_by_one(last, CASES)):
            with self.subTest(new=case[1]):
                self.assertEqual(line, f"fault {case[3]}")

    def test_the_caret_stands_below_the_place(self):
        lines = told(LIGHTING.replace(b"level(v); }", b"level(v) }", 1), "fault deployment D7 module 0 3 27").split(
            "\n"
        )
        at = next(at for at, it in enumerate(lines) if it.startswith("x.txt:19: "))
        self.assertEqual(lines[at][lines[at + 1].index("^")], "}")

    def test_texts(self):
        self.assertIn("line 2 of the input: jmp there", told(b"nop\njmp there\n", "fault asm A3 2", "asm", "-"))
        self.assertIn("write `mov #0, r3`", told(b"nop\n", "fault asm A1 1", "asm"))
        self.assertIn("odd in number", told(b"00\n", "fault hex B2 -", "dis"))

    def test_readings(self):
        text = LIGHTING.partition(b"%%\n")[0] + b"%%\n"
        self.assertIn("sensors that a module drives: light", told(text + b"bulb 1\n", "fault reading Q4 1", "drive"))
        self.assertIn("^^^^^", told(text + b"light 32768\n", "fault reading Q5 1", "drive"))
        self.assertIn("a line of a schedule", told(text + b"load eye\n", "fault reading Q4 1", "drive"))
        self.assertIn("65,536 lines", told(text + b"light 1\n", "fault drive long", "drive"))

    def test_traces(self):
        text = b"%%\nimage eye 00\ntrace\nout eye 1\nnone 2\n"
        self.assertIn("x.txt:5: none 2", told(text, "fault trace E2 2", "explain"))
        self.assertIn("the items: protect reset", told(text, "fault trace E2 2", "explain"))
        self.assertIn("x.txt:4: out eye 1", told(text, "illegal 1", "explain"))
        for item, missing in (("take eye up 0 1", "module `eye`"), ("open m up to 1", "connection `up`")):
            other = HEAD.replace(b'"eye', b'"m').replace(b'"up"', b'"u"') + f"%%\ntrace\n{item}\n".encode()
            self.assertIn(f"the deployment has no {missing}", told(other, "fault trace E2 1", "explain"))
        self.assertIn("this is a schedule, and no trace", told(b"%%\nload eye\n", "fault trace E1 1", "explain"))
        for text, said in (
            (
                b"# x\n\nload eye\n",
                "these are lines of a schedule, and the deployment comes before them: `sancus run DEPLOY",
            ),
            (
                b"deploy all\n",
                "lines of a schedule for people, and the deployment comes before them: `sancus run DEPLOY",
            ),
        ):
            self.assertIn(said, told(text, "fault deployment D2 -", "run"))
        for text, rule in ((b"deploy all\n", "Q4"), (b"sample eye 3\n", "Q3")):
            self.assertIn("is a line for people", told(HEAD + b"%%\n" + text, f"fault reading {rule} 1", "drive"))
        empty = told(b"%%\n", "fault trace E1 1", "explain")
        self.assertIn("the trace is empty", empty)
        self.assertNotIn("x.txt:2:", empty)
        self.assertIn(
            "this is a fault, and no trace", told(b"%%\nfault deployment D2 -\n", "fault trace E1 1", "explain")
        )
        self.assertIn("this is what `explain` wrote", told(b"%%\nbecause 2 1\n", "fault trace E1 1", "explain"))
        self.assertIn(
            "the deployment first, and then the trace", told(b"%%\nsecret = 1\n", "fault trace E1 1", "explain")
        )

    def test_queries(self):
        text = LIGHTING.partition(b"%%\n")[0] + b"%%\nload eye\n%%\n"
        self.assertIn("what\n", told(text + b"what\n", "fault query Y3 1", "snap") + "\n")
        self.assertIn("the queries: regs bytes items", told(text + b"what\n", "fault query Y3 1", "snap"))
        lines = told(text + b"regs c 1\n", "fault query Y5 1", "snap").split("\n")
        self.assertTrue(lines[2].endswith("     ^") and "a node: a b" in lines[3], lines)
        self.assertIn("^^\n", told(text + b"bytes a 0 65 1\n", "fault query Y6 1", "snap"))
        self.assertIn("the bytes pass 0xffff", told(text + b"bytes a 0xffff 2 1\n", "fault query Y6 1", "snap"))
        self.assertIn(": what\n", told(text + b"what\n%%\n", "fault query Y3 1", "snap"))

    def test_nothing_is_told_of_other_lines(self):
        for line in (
            "",
            "end",
            "fault usage",
            "fault deployment D99 -",
            "fault schedule S9 1",
            "fault schedule S3",
            "illegal",
            "\x1b",
        ):
            self.assertEqual(told(LIGHTING, line), "")

    def test_every_fault_that_may_come_is_told(self):
        for text in (b"", b"\0\xff", HEAD, LIGHTING, b"%%\n", b"module = 3\n%%\n"):
            for fault in (
                "deployment D1 -",
                "deployment D2 -",
                "deployment D3 -",
                "deployment D4 top",
                "deployment D4 module 7",
                "deployment D5 node 0",
                "deployment D6 node",
                "deployment D7 module 9 1 1",
                "deployment D7 module 0 9 9",
                "deployment D8 module 0 2",
                "deployment D9 module 0",
                "deployment D10 module 0",
                "schedule S1 99999",
                "schedule S8 1",
                "reading Q1 1",
                "query Y1 1",
                "trace E5 1",
                "asm A1 1",
                "hex B1 1",
            ):
                self.assertTrue(told(text, f"fault {fault}"))


class Guessed(Room):
    def test_swapped_arguments_and_other_traces(self):
        trace = self.file("t", b"image eye 00\ntrace\nend\n")
        ran = sancus("explain", trace, EXAMPLES / "lighting.txt", program=self.fake("fault deployment D3 -", 1))
        self.says(ran, "the deployment first, and then the trace")
        ran = sancus(
            "explain",
            EXAMPLES / "lighting.txt",
            self.file("s", b"load eye\n"),
            program=self.fake("fault trace E1 1", 3),
        )
        self.says(ran, "this is a schedule, and no trace", f"{self.room}/s:1: load eye")

    def test_lines_are_those_of_their_own_file(self):
        head, schedule = self.file("a.toml", HEAD), self.file("s.txt", b"# one\n%%\nload eye\nload ear\n")
        ran = sancus("run", head, schedule, program=self.fake("fault schedule S4 2", 3))
        self.says(ran, f"{schedule}:4: load ear")
        ran = sancus("run", head, "-", text=b"load eye\nload ear\n", program=self.fake("fault schedule S4 2", 3))
        self.says(ran, "line 2 of the input: load ear")

    def test_pipes_get_the_same_words(self):
        fake, text = self.fake("fault schedule S4 4", 3), LIGHTING.replace(b"load lamp", b"load lump")
        by_file, by_pipe = (
            sancus("run", self.file("x", text), program=fake).said,
            sancus("run", text=text, program=fake).said,
        )
        self.assertEqual(
            re.sub(r"(?m)^sancus: .*?: load|^sancus: +", "", by_file),
            re.sub(r"(?m)^sancus: .*?: load|^sancus: +", "", by_pipe),
        )

    def test_generated_lines_lead_back(self):
        text = b"%%\nload eye\n#= easy.txt:7 carry eye logic\ntake a 0x400\n"
        self.assertIn("it was made of easy.txt:7 carry eye logic", told(text, "fault schedule S7 3"))


class Warnings(Room):
    def of(self, text):
        return warnings.of_deployment(tables_of(Input(text).head))

    def test_none_of_examples(self):
        self.assertEqual(self.of(LIGHTING), [])

    def test_keys(self):
        weak = (
            LIGHTING.replace(b"secret", b"# secret").replace(b"2021", b"1011").replace(b"222324252627", b"121314151617")
        )
        lines = self.of(weak.replace(b"28292a2b2c2d2e2f", b"18191A1B1C1D1E1F"))
        self.assertEqual(len(lines), 2)
        self.assertIn("nodes a and b have one key", lines[0])

    def test_ports(self):
        text = LIGHTING.replace(b"output level;", b"output level; output other;").replace(
            b"input show;", b"input show; input more;"
        )
        lines = "\n".join(self.of(text))
        for it in (
            "no connection leads from the output eye.other",
            "no connection leads to the input lamp.more",
            "lamp has no handler `on more(..)`",
        ):
            self.assertIn(it, lines)
        self.assertIn(
            "no handler `sample(..)`", "\n".join(self.of(LIGHTING.replace(b"sample(v) { send level(v); }", b"")))
        )

    def test_values(self):
        array = b"var limit = 100; array last[3];"
        for old, new, words, caret in (
            (b"v > limit", b"v > -40", "comparisons have no sign, and -40 is 65,496 here", b">"),
            (b"v > limit", b"5 + v < 0 - 7", "comparisons have no sign, and -7 is 65,529 here", b"<"),
            (b"v > limit", b"-1 <= v", "comparisons have no sign, and -1 is 65,535 here", b"<="),
            (b"v > limit", b"v >= 0", "this always holds, since a value is from 0 to 65,535", b">="),
            (b"v > limit", b"!(v < 0)", "this never holds", b"< 0"),
            (b"v > limit", b"65535 < v", "this never holds", b"< v"),
            (b"v > limit", b"last[9]", "the last element of `last` is last[2], and past it 0 is read", b"last[9]"),
            (b"if v", b"last[3] = v; if v", "past it nothing is stored", b"last[3]"),
            (b"v > limit", b"limit == 1 & !v", "is `(.. == ..) & ..` meant?", b"=="),
            (b"v > limit", b"!limit | v < 9", "is `.. | (.. < ..)` meant?", b"<"),
        ):
            text = HEAD.replace(b"var limit = 100;", array).replace(old, new)
            with self.subTest(new):
                lines = warnings.of_values(Teller(kept_of(text, "x.toml"), "check"))
                self.assertEqual(len(lines), 3, lines)
                self.assertIn(words, lines[0])
                self.assertTrue(lines[1].startswith("x.toml:31: "), lines)
                self.assertEqual(lines[1][lines[2].index("^") :].encode()[: len(caret)], caret)

    def test_no_warning(self):
        array = b"var limit = 100; array last[3];"
        for new in (b"v == -1", b"v - 3 > limit", b"v > 0", b"last[2] > last[v]", b"0 - v > 9", b"9 - 7 < v", b"v & 7 == limit"):
            text = HEAD.replace(b"var limit = 100;", array).replace(b"v > limit", new)
            self.assertEqual(warnings.of_values(Teller(kept_of(text), "check")), [], new)
        for file in whole_examples():
            self.assertEqual(warnings.of_values(Teller(kept_of(file.read_bytes()), "check")), [], file.name)

    def test_they_are_said(self):
        found = sancus("check", text=HEAD.replace(b"v > limit", b"v > -40"), program=self.fake())
        self.says(found, "line 31 of the input: on level(v) { if v > -40")
        text = LIGHTING.replace(b"secret", b"# secret")
        for word in ("run", "check"):
            self.says(sancus(word, self.file("x", text), program=self.fake()), "no `secret`")
            self.says(sancus(word, text=text, program=self.fake()), "no `secret`")
        self.assertEqual(sancus("run", "--quiet", self.file("x", text), program=self.fake()).said, "")

    def test_a_fault_comes_first(self):
        """Warnings wait until the deployment is accepted, and come below the fault of a schedule."""
        text = LIGHTING.replace(b"secret", b"# secret")
        for word, last, status in (("run", "schedule S3 1", 3), ("check", "deployment D4 top", 1)):
            for words, piped in (((self.file("x", text),), b""), ((), text)):
                ran = sancus(word, *words, text=piped, program=self.fake(f"fault {last}", status))
                self.assertTrue(ran.said.startswith(f"sancus: {last.split()[1]}: "), ran.said)
                self.assertEqual("no `secret`" in ran.said, status == 3)

    @needs_program
    def test_a_finish_that_ends_inside_a_module(self):
        text = LIGHTING + b"asm b 0x800 mov #0x4010, pc\nset b pc 0x800\nfinish b\n"
        path = self.file("x", text)
        ran = sancus("run", path)
        self.assertEqual(ran.out, program("run", text=text).out)
        self.says(ran, "ends before code outside runs an instruction of lamp, at 0x4010", f"{path}:92: finish b")
        self.assertEqual(sancus("run", self.file("y", text.replace(b"finish b", b"run b 2"))).said, "")


class Reading(unittest.TestCase):
    """What the front end reads by itself."""

    def test_what_reads_toml(self):
        missing = patch("sancus.model.toml.import_module", side_effect=ImportError)
        with missing, patch("site.main"), patch("sys.path", []), self.assertRaises(Ended) as caught:
            toml.read("")
        self.assertIn("pip install tomli", caught.exception.lines[0])
        self.assertEqual(toml.read('[[i]]\nj = "\\u0041"'), {"i": [{"j": "A"}]})

    def test_sizes(self):
        tree = language.parse("var a; array b[3]; input i; on i(v) { b[v] = -a * (2 + b[1]); repeat 3 { } }")
        self.assertEqual((language.nodes(tree), language.cells(tree)), (13, 4))
        tree = language.parse(
            "input level;output bright;var limit = 100;on level(v) { if v > limit { send bright(1); } else { send bright(0); } }"
        )
        self.assertEqual((language.nodes(tree), 64 + language.block_cost(tree.handlers[0].body)), (10, 8448))

    def test_places_of_faults(self):
        for text, place in (
            ("var x = 65536;", (1, 13)),
            ("sample(v) { v = a == b == c; }", (1, 24)),
            ("on a(v) { } input b;", (1, 13)),
            ("sensor", (1, 7)),
            ("sensor;\noutput level;\nsample(v) { send level(v) }", (3, 27)),
        ):
            with self.assertRaises(language.NotInGrammar) as caught:
                language.parse(text)
            self.assertEqual(language.place_of(text, caught.exception.token.at), place)


if __name__ == "__main__":
    unittest.main()
