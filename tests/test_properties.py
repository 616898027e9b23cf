"""Properties: each answer of `watch` and `holds` once, each fault once, and counterexamples that run.

What needs the program's commands `watch` and `holds` is passed over where the program that is started has none.
"""

import json
import unittest

from support import EXAMPLES, HEAD, PROGRAM, Room, needs_program, program, sancus

from sancus.cli import vacuity
from sancus.model import language, solvers
from sancus.model.described import described
from sancus.model.moves import Moves
from sancus.model.property import Property, watched_of
from sancus.model.search import Search
from sancus.model.system import System
from sancus.model.texts import Input
from sancus.runner import Runner

LAMP = EXAMPLES / "lighting.txt"
PROPERTIES = EXAMPLES / "properties"
KNOWS = bool(PROGRAM) and program("holds").out != b"fault usage\n"
needs_holds = unittest.skipUnless(KNOWS, "the program has no `watch` and `holds`")
BRIGHT = (PROPERTIES / "bright.property").read_text()


def items(text):
    return [watched_of(it) for it in text.split("\n") if it]


@needs_program
@unittest.skipUnless(solvers.are_there(), "berkeley-abc and cadical aren't installed")
class Engines(Room):
    """What the engines of others answer: examples/properties/README.md has it in its table."""

    def asked(self, name):
        plan = described(Runner([PROGRAM]), Input(LAMP.read_bytes()).head)
        return plan, Property("", (PROPERTIES / f"{name}.property").read_text())

    @needs_holds
    def test_berkeley_abc_proves_what_intervals_cannot(self):
        ran = sancus("holds", LAMP, PROPERTIES / "since_attested.property", "--seconds", "60", cwd=self.room)
        self.assertEqual((ran.status, ran.lines[0]), (0, "holds (berkeley-abc)"))

    def test_berkeley_abc_finds_the_run_that_breaks_one(self):
        for name, last in (("last_reading", "down"), ("bulb", "bulb")):
            with self.subTest(name):
                plan, property = self.asked(name)
                self.assertTrue(solvers.proof(plan, property, 60).is_broken)
                found = solvers.Refuter(plan, property, solvers.Deadline(60)).found()
                self.assertEqual(found.moves[-1].name, last)

    def test_cadical_refuses_what_is_no_invariant(self):
        plan, property = self.asked("since_attested")
        system = System(Moves(plan, property, is_whole=False), 1, 0)
        self.assertFalse(solvers.Invariant(system, []).is_inductive(solvers.Deadline(60)))
        clauses = solvers.Clauses(system.circuit)
        bit = 2 * system.circuit.latches[0]
        self.assertEqual((clauses.can_be([bit], 60), clauses.can_be([bit, bit ^ 1], 60)), (True, False))


class Meaning(unittest.TestCase):
    """What a property is, by docs/PROPERTIES.md."""

    def judged(self, source, text):
        return Property("", source).judged(items(text))

    def test_fail_names_its_line(self):
        self.assertEqual(self.judged(BRIGHT, "sense light 100\nout lamp 1\n"), 4)
        self.assertIsNone(self.judged(BRIGHT, "sense light 101\nout lamp 1\n"))

    def test_an_assumption_ends_the_question(self):
        source = "on reset b { assume 0; }\non out lamp(v) { fail; }\n"
        self.assertEqual(self.judged(source, "out lamp 0\nreset b asked\n"), 2)
        self.assertIsNone(self.judged(source, "reset b asked\nout lamp 0\n"))
        # what was broken at an item stays so, though the assumption fails there too
        self.assertEqual(self.judged("on out lamp(v) { fail; assume 0; }", "out lamp 0\n"), 1)

    def test_each_kind_of_item_reaches_its_handler(self):
        for kind, name, item in (
            ("sense", "light", "sense light 7"),
            ("raw", "bulb", "raw bulb 7"),
            ("read", "eye", "read eye 7"),
            ("out", "lamp", "out lamp 7"),
            ("take", "up", "take logic up 65536 7"),
        ):
            self.assertEqual(self.judged(f"on {kind} {name}(v) {{ if v == 7 {{ fail; }} }}", item), 1, item)
        for kind, name, item in (
            ("drain", "light", "drain light"),
            ("protect", "eye", "protect a eye"),
            ("attested", "eye", "attested eye 3"),
            ("reset", "b", "reset b asked"),
        ):
            self.assertEqual(self.judged(f"on {kind} {name} {{ fail; }}", item), 1, item)

    def test_the_words_of_a_property_are_no_words_of_a_module(self):
        language.parse("var fail; var assume; input take; on take(v) { fail = v; assume = v; }")
        for source in ("on out lamp(v) { emit v; }", "input x;", "on out lamp { }", "on reset b(v) { }"):
            with self.assertRaises(language.NotInGrammar, msg=source):
                language.parse_property(source)


@needs_program
class Searching(unittest.TestCase):
    """The search alone: its runs are moves, which the program judges elsewhere."""

    def found(self, deployment, property):
        head = Input((EXAMPLES / deployment).read_bytes()).head
        name = PROPERTIES / f"{property}.property"
        return Search(described(Runner([PROGRAM]), head), Property(name.name, name.read_text())).run(20)

    def test_a_late_event(self):
        found = self.found("lighting.txt", "last_reading")
        kinds = [f"{it.kind} {it.name}" for it in found.moves]
        self.assertEqual(kinds, ["sense light", "read eye", "sense light", "take up", "take down"])

    def test_a_sum_that_wraps(self):
        found = self.found("properties/pump.toml", "dose")
        self.assertGreater(found.steps[-1].items[-1].value, 40)

    def test_places_where_a_run_must_come_by(self):
        source = (
            "on reset b { assume 0; }\n"
            "on out lamp(v) { assume v < 9; if v { let x = 1; } if v > 1 { fail; } }\n"
        )
        self.assertEqual(
            [it.what for it in vacuity.places(source)],
            [
                "no legal run has an item `reset b`",
                "no legal run has an item `out lamp`",
                "line 2: this assumption fails whenever it is reached",
                "line 2: this test is never true in a legal run",
            ],
        )


@needs_holds
class Answers(Room):
    """The two commands, with the program."""

    def holds(self, deployment, property, *words):
        return sancus("holds", deployment, property, *words, cwd=self.room)

    def test_holds(self):
        ran = self.holds(LAMP, PROPERTIES / "bright.property")
        self.assertEqual((ran.status, ran.lines[0]), (0, "holds (proved)"))
        self.assertIn("and not `raw bulb`", ran.said)

    def test_fails_with_a_schedule_that_shows_it(self):
        ran = self.holds(LAMP, PROPERTIES / "last_reading.property")
        self.assertEqual((ran.status, ran.lines[0]), (12, "fails"))
        self.assertIn("last_reading.property:4: broken at item 43, `out lamp 1` (", ran.lines[1])
        trace = self.file("trace", sancus("run", self.room / "counterexample.txt").out)
        ran = sancus("watch", LAMP, PROPERTIES / "last_reading.property", trace)
        self.assertEqual((ran.status, ran.lines[0]), (12, "broken 43"))
        self.assertIn("out lamp 1", ran.said)
        self.assertIn("fail", ran.said)
        # it may be written again, and what somebody wrote may not
        self.assertEqual(self.holds(LAMP, PROPERTIES / "last_reading.property").status, 12)
        self.file("counterexample.txt", "mine\n")
        ran = self.holds(LAMP, PROPERTIES / "last_reading.property")
        self.assertEqual((ran.status, ran.out), (121, b""))
        # if its file can't be written, the answer comes all the same
        ran = self.holds(LAMP, PROPERTIES / "last_reading.property", "--schedule", "none/it.txt")
        self.assertEqual((ran.status, ran.lines[0], ran.lines[-1]), (121, "fails", "    take down 1"))
        self.says(ran, "none/it.txt can't be written: No such file or directory")

    def test_as_json(self):
        ran = self.holds(LAMP, PROPERTIES / "last_reading.property", "--json", "--schedule", "it.txt")
        made = json.loads(ran.out)
        self.assertEqual((made["kind"], made["item"], made["text"]), ("fails", 43, "out lamp 1"))
        self.assertEqual(made["moves"][0], {"kind": "sense", "name": "light", "value": 101})

    def test_a_run_that_stops_within_a_handler(self):
        busy = "var busy;\non take down(v) { busy = 1; }\non reset b { busy = 0; }\non out lamp(v) { busy = 0; }\n"
        name = self.file("busy.property", busy + "on sense light(v) { if busy { fail; } }\n")
        ran = self.holds(LAMP, name)
        self.assertEqual(ran.status, 12)
        self.assertIn("broken at item 42, `sense light 0`", ran.lines[1])

    def test_unknown(self):
        counts = self.file(
            "counts.property",
            "var left;\non read eye(v) { if v > 100 { left = left + 1; assume left < 1000; } }\n"
            "on out lamp(v) { if v == 1 { if left == 0 { fail; } left = left - 1; } }\n",
        )
        ran = self.holds(LAMP, counts, "--seconds", "1", "--moves", "30")
        self.assertEqual((ran.status, ran.lines[0]), (13, "unknown"))

    def test_what_no_legal_run_reaches(self):
        ran = self.holds(LAMP, self.file("it.property", "on out lamp(v) { if v > 1 { let x = v; } }\n"))
        self.assertEqual(ran.status, 0)
        self.assertIn("line 1: this test is never true in a legal run", ran.said)

    def test_what_is_hardly_meant(self):
        for source, said in (
            ("var bright;\non sense light(v) { bright = v > 100; }\n", "it has no `fail`, so nothing can break it"),
            ("on out lamp(v) { if v == 1 & !v { fail; } }\n", "it.property:1: `&` binds more than `==`"),
        ):
            self.assertIn(said, self.holds(LAMP, self.file("it.property", source)).said)

    def test_a_forged_ends_the_answer(self):
        text = b"trace\nforged lamp\nout lamp 1\nend\n"
        ran = sancus("watch", LAMP, PROPERTIES / "bright.property", text=text)
        self.assertEqual((ran.status, ran.lines), (0, ["kept 0", "forged 1", "end"]))
        self.assertIn("item 1 is the first `forged`", ran.said)

    def test_each_fault_in_words(self):
        rows = (
            ("on out lamp(v) { fail }\n", "P2 1 23", "expected `;`"),
            ("on out lamp(v) { emit v; }\n", "P2 1 18", "it has no `emit`"),
            ("on reset b(v) { }\n", "P2 1 11", "these items have no value"),
            ("on uot lamp(v) { }\n", "P2 1 4", "did you mean `out`?"),
            ("on emit lamp(v) { fail; }\n", "P2 1 4", "is seen as `on out MODULE(v)`"),
            ("on out lampp(v) { fail; }\n", "P3 1 8", "did you mean `lamp`?"),
            ("on out bulb(v) { fail; }\n", "P3 1 8", "drives an actuator: lamp; `bulb` is a device; did you mean `lamp`?"),
            ("on out eye(v) { fail; }\n", "P3 1 8", "`eye` drives no actuator"),
            ("on raw light(v) { fail; }\n", "P3 1 8", "`light` is a sensor"),
            ("on reset b { }\non reset b { }\n", "P4 2 10", "these items have two handlers"),
            ("on out lamp(v) { if w { fail; } }\n", "P5 2", "`w` isn't declared"),
            ("//" + 5000 * "x" + "\n", "P1 -", "more than 4,096"),
        )
        for source, fault, said in rows:
            with self.subTest(fault):
                ran = self.holds(LAMP, self.file("it.property", source))
                self.assertEqual((ran.status, ran.lines), (7, [f"fault property {fault}"]))
                self.assertIn(said, ran.said)

    def test_a_trace_that_is_none(self):
        ran = sancus("watch", LAMP, PROPERTIES / "bright.property", self.file("it.trace", "out\n"))
        self.assertEqual((ran.status, ran.lines), (3, ["fault trace E1 1"]))
        self.says(ran, "it.trace:1: out")

    def test_a_deployment_that_only_the_program_reads(self):
        """TOML 1.1 has an escape that 1.0 hasn't: the program answers, and a search says why there is none."""
        head = self.file("x.toml", HEAD.replace(b'name = "eye"', b'name = "\\x65ye"'))
        self.assertEqual(sancus("check", head).status, 0)
        made = sancus("holds", head, PROPERTIES / "last_reading.property")
        self.assertEqual((made.status, made.out), (122, b""))
        self.says(made, "no TOML 1.0")

    def test_a_deployment_that_is_none(self):
        ran = self.holds(self.file("it.toml", "node = 1\n"), PROPERTIES / "bright.property")
        self.assertEqual((ran.status, ran.lines), (1, ["fault deployment D4 top"]))
        ran = self.holds(PROPERTIES / "bright.property", LAMP)
        self.assertIn("this looks like a property, or a module's source", ran.said)


@needs_program
class OldPrograms(Room):
    @unittest.skipIf(KNOWS, "the program has `watch` and `holds`")
    def test_a_program_without_the_commands_is_named(self):
        ran = sancus("holds", LAMP, PROPERTIES / "bright.property", cwd=self.room)
        self.assertEqual((ran.status, ran.out), (125, b""))
        self.assertIn("has no command `holds`", ran.said)


if __name__ == "__main__":
    unittest.main()
