"""Thirty properties of seven applications, with the answers that an earlier engine of tables and of SAT gave.

Of each false property a schedule shows it: at which item of its run the property is broken, and what that is. The true
ones that a table proves the program proves too; the others `holds` mustn't refute.
"""

import resource
import unittest
from pathlib import Path

from slow import EXAMPLES, PROGRAM, Room, program
from support import sancus

from sancus.model import solvers
from sancus.model.texts import Input

PROPERTIES = Path(__file__).resolve().parent / "properties"
KNOWS = bool(PROGRAM) and program("holds").out != b"fault usage\n"
LIGHTING, PARKING = EXAMPLES / "lighting.txt", EXAMPLES / "parking" / "parking.toml"
FILES = {"D": "dose_repaired", "H": "heat", "V": "vote", "B2": "ack", "D1": "dose", "S": "spots"}
OTHERS = {name: PROPERTIES / f"{file}.toml" for name, file in FILES.items()}
# S1 has 256 states, and may take so many seconds of a processor.
MOST_SECONDS = 5
PROVED = "L1 L7 P1 P2 P3 D1' D3 D5 H2 V1 V4".split()
TRUE = "L3 L6 L6g R2 P6".split()
# (the remaining one, L3, counts)
BY_ENGINES = "L6 L6g R2 P6".split()
BROKEN = (
    ("L2", 43, "out lamp 1"),
    ("L4", 56, "out lamp 1"),
    ("L5", 35, "raw bulb 1"),
    ("L8", 51, "take lamp down 1 0"),
    ("R1", 43, "out lamp 1"),
    ("P4", 83, "out dvio 1"),
    ("P5", 86, "out dvio 1"),
    ("D1", 52, "out pump 65534"),
    ("D4", 66, "out pump 40"),
    ("H1", 60, "out heater 1"),
    ("V2", 75, "out siren 1"),
    ("V3", 74, "out siren 0"),
    ("B1", 42, "sense light 0"),
)


def deployment(name):
    """The deployment of a property: D1' is D1 of the repaired pump."""
    if name == "D1'":
        return OTHERS["D"]
    return OTHERS.get(name) or {"P": PARKING}.get(name[0]) or OTHERS.get(name[0], LIGHTING)


def text_of(name):
    return PROPERTIES / f"{name.rstrip(chr(39))}.property"


@unittest.skipUnless(KNOWS, "the program has no `watch` and `holds`")
class Thirty(Room):
    def answer(self, name, *words):
        return sancus("holds", deployment(name), text_of(name), "--schedule", "it.txt", *words, cwd=self.room)

    def test_each_false_one_is_shown_by_a_schedule(self):
        for name, number, item in BROKEN:
            with self.subTest(name):
                head = Input(deployment(name).read_bytes()).head
                schedule, source = PROPERTIES / f"{name}.schedule", text_of(name).read_bytes()
                trace = program("run", text=head + b"%%\n" + schedule.read_bytes()).out
                ran = program("watch", text=head + b"%%\n" + source + b"%%\n" + trace)
                self.assertEqual((ran.status, ran.lines), (12, [f"broken {number}"]))
                self.assertEqual(trace.split(b"\n")[trace.split(b"\n").index(b"trace") + number], item.encode())

    def test_each_false_one_is_found(self):
        for name, _, _ in BROKEN:
            with self.subTest(name):
                ran = self.answer(name, "--seconds", "60")
                self.assertEqual((ran.status, ran.lines[0]), (12, "fails"))

    def test_those_with_a_table_are_proved(self):
        for name in PROVED:
            with self.subTest(name):
                self.assertEqual(self.answer(name).lines[0], "holds (proved)")

    def test_a_property_with_many_states_takes_seconds(self):
        text = b"%%\n".join(it.read_bytes() for it in (deployment("S1"), text_of("S1"))) + b"%%\n"
        before = resource.getrusage(resource.RUSAGE_CHILDREN).ru_utime
        ran = program("holds", text=text)
        self.assertEqual((ran.status, ran.lines), (0, ["holds", "end"]))
        self.assertLess(resource.getrusage(resource.RUSAGE_CHILDREN).ru_utime - before, MOST_SECONDS)

    def test_no_true_one_is_refuted(self):
        for name in TRUE:
            with self.subTest(name):
                self.assertIn(self.answer(name, "--seconds", "5").lines[0].split(" ")[0], ("holds", "unknown"))

    @unittest.skipUnless(solvers.are_there(), "berkeley-abc and cadical aren't installed")
    def test_other_engines_prove_what_tables_cannot(self):
        for name in BY_ENGINES:
            with self.subTest(name):
                self.assertEqual(self.answer(name, "--seconds", "600").lines[0], "holds (berkeley-abc)")

    def test_an_order_that_the_sources_leave_open(self):
        self.assertEqual(self.answer("B2").lines[0], "unconfirmed")
