"""`explain` over as many lines behind `trace` as it takes, and one more, with time and room."""

import resource
import unittest

from slow import needs_program, taken

MOST = 4_000_000  # lines behind `trace`
ROOM = 128 * 1024  # KiB


def explained(items):
    """`explain` of a trace of so many refusals and `end`."""
    return taken("explain", text=b"%%\ntrace\n" + b"skip n\n" * items + b"end\n")


@needs_program
class Explain(unittest.TestCase):
    def test_the_last_line_that_is_taken_and_the_first_that_is_not(self):
        ran = explained(MOST - 1)
        self.assertEqual((ran.out, ran.status), (b"legal 3999999\nend\n", 0))
        ran = explained(MOST)
        self.assertEqual((ran.out, ran.status), (b"fault trace E5 4000001\n", 3))
        self.assertLess(resource.getrusage(resource.RUSAGE_CHILDREN).ru_maxrss, ROOM)

    def test_the_time_of_an_item_does_not_grow(self):
        few = min(explained(MOST // 8).seconds for _ in range(3))
        self.assertLess(explained(MOST - 1).seconds, 8 * few * 1.5)


if __name__ == "__main__":
    unittest.main()
