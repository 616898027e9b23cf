"""`drive`: honest runs given to `run` again, limits, and how long they take."""

import re
import unittest

from slow import LIGHTING, instructions, needs_program, needs_valgrind, taken

HEAD = LIGHTING.partition(b"%%\n")[0]
# The lighting with a module that sends to itself without end.
CIRCLE = (
    HEAD.replace(
        b'to = "lamp.show" } ]',
        b"""to = "lamp.show" },
               { name = "go", from = "eye.level", to = "loop.a" },
               { name = "again", from = "loop.b", to = "loop.a" } ]""",
    )
    + b"""[[module]]
name = "loop"
node = "a"
provider = 7
text = 0x8000
data = 0x3000
source = "input a; output b; on a(v) { send b(v); }"
"""
)


def driven(head, readings):
    ran = taken("drive", text=head + b"%%\n" + readings)
    return ran.status, [it for it in ran.lines if not it.startswith("image ")]


def samples(count):
    """The readings that `gen` carries."""
    return b"".join(b"light %d\n" % (37 * i % 200) for i in range(count))


def seconds(*words, text=b""):
    """The least of five runs."""
    return min(taken(*words, text=text).seconds for _ in range(5))


@needs_program
class Drive(unittest.TestCase):
    def parts(self, lines):
        """The lines of the schedule, and the items, of what is written up to its last lines."""
        said = [it[2:] for it in lines if it.startswith("> ")]
        return said, [it for it in lines if not re.match("> |steps |end$|fault (reading|drive) ", it)]

    def is_run(self, head, lines):
        """The lines, given to `run`, give the same items."""
        said, items = self.parts(lines)
        again = taken("run", text=head + b"%%\n" + "".join(it + "\n" for it in said).encode())
        self.assertEqual(again.status, 0)
        self.assertEqual(again.lines[again.lines.index("trace") + 1 : -1], items)
        return len(said), len(items)

    def test_no_reading(self):
        status, lines = driven(HEAD, b"")
        self.assertEqual((status, self.is_run(HEAD, lines)), (0, (26, 33)))
        self.assertEqual(lines[:4], ["> load eye", "protect a eye", "> ask eye", "ask eye 0"])

    def test_a_reading(self):
        status, lines = driven(HEAD, b"light 120\n")
        self.assertEqual((status, self.is_run(HEAD, lines)), (0, (34, 43)))
        self.assertEqual(lines[-4:-2] + lines[-1:], ["out lamp 1", "done lamp 1 0", "end"])

    def test_readings_that_break_a_rule(self):
        whole = driven(HEAD, b"")[1][:-2]
        self.assertEqual(driven(HEAD, b"bulb 1\n"), (3, [*whole, "fault reading Q4 1"]))
        self.assertEqual(driven(HEAD, b"light 32768\n"), (3, [*whole, "fault reading Q5 1"]))

    def test_a_circle(self):
        status, lines = driven(CIRCLE, b"light 1\n")
        self.assertEqual((status, lines[-1]), (9, "fault drive long"))
        self.assertEqual(self.is_run(CIRCLE, lines)[0], 65536)
        self.assertLess(seconds("drive", text=CIRCLE + b"%%\nlight 1\n"), 2)

    def test_the_sources_explain_it(self):
        _, lines = driven(HEAD, samples(20))
        items = self.parts(lines)[1]
        trace = "".join(it + "\n" for it in ["trace", *items, "end"]).encode()
        said = taken("explain", text=HEAD + b"%%\n" + trace)
        self.assertEqual((said.status, said.lines[-2:]), (0, [f"legal {len(items)}", "end"]))

    def test_as_many_as_gen(self):
        """The counts are those of `gen`, which carries the same readings."""
        for count in (1, 500, 8000):
            status, lines = driven(HEAD, samples(count))
            said, items = self.parts(lines)
            outs = [it for it in items if it.startswith("out ")]
            lit = [it for it in outs if it.endswith(" 1")]
            counts = [f"lines {len(said)}", f"items {len(items)}", f"outputs {len(outs)}", f"lit {len(lit)}"]
            self.assertEqual((status, counts), (0, taken("gen", f"{count}").lines[-6:-2]))

    @needs_valgrind
    def test_takes_what_gen_takes(self):
        """Within a tenth. By the clock it takes more, as it writes what a reading shows before it reads the next."""
        drive, gen = instructions("drive", text=HEAD + b"%%\n" + samples(8000)), instructions("gen", "8000")
        self.assertLess(drive, 1.1 * gen)

    def test_time_grows_with_readings_alone(self):
        few, many = (seconds("drive", text=HEAD + b"%%\n" + samples(count)) for count in (2000, 8000))
        print(f"2,000 readings: {few:.2f} s, 8,000: {many:.2f} s")
        self.assertLess(many, 4.8 * few)


if __name__ == "__main__":
    unittest.main()
