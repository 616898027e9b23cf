"""How many lines of a schedule queries of `snap` perform again, and how long many of them take, of which no clause says
anything. The count wants valgrind."""

import unittest

from slow import instructions, needs_program, needs_valgrind, taken

EVERY = 8192  # after so many lines a checkpoint comes

# Two lines, and then lines that each take 200 steps: an operation on a register, and a jump back to it. What else a query does takes less than one.
FIRST = ["put n 0x4000 1553fe3f", "set n pc 0x4000"]
STEPS = "run n 200"


def asked(schedule, queries):
    return ("\n".join(["%%", *schedule, "%%", *queries]) + "\n").encode()


def asked_for(*places):
    """The processor's instructions of the whole program, where queries ask for these lines of a schedule of three checkpoints."""
    return instructions("snap", text=asked(FIRST + [STEPS] * (3 * EVERY - len(FIRST)), [f"regs n {at}" for at in places]))


@needs_program
class Snap(unittest.TestCase):
    @needs_valgrind
    def test_a_query_performs_fewer_lines_again_than_stand_between_checkpoints(self):
        some = asked_for(1000)
        line = (asked_for(3000) - some) / 2000
        for at in (EVERY - 1, EVERY, EVERY + 1, 3 * EVERY - 1, 3 * EVERY):
            again = round((asked_for(at) - some) / line) + 1000
            if at >= EVERY:  # then the first lines, which take no steps, aren't among them
                again -= len(FIRST)
            self.assertEqual(again, at % EVERY, f"line {at}")

    @needs_valgrind
    def test_queries_of_one_piece_perform_a_line_once(self):
        some = asked_for(1000)
        line = (asked_for(3000) - some) / 2000
        together = asked_for(3000, 2000, 1000, 2 * EVERY + 500, 2 * EVERY + 400)
        self.assertAlmostEqual((together - some) / line + 1000, 3000 + 500, delta=100)

    def test_many_queries_take_less_than_a_second(self):
        ran = taken("snap", text=asked(["reset n"] * 20000, ["items 20000"] * 64))
        self.assertEqual((ran.status, ran.out), (0, b"item 20000 reset n asked\n" * 64 + b"end\n"))
        self.assertLess(ran.seconds, 1)


if __name__ == "__main__":
    unittest.main()
