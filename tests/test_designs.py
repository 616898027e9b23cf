"""What is left to the designer: three attacks that succeed in legal runs, and for each a design that resists it."""

import re
import unittest

from support import EXAMPLES, needs_program, sancus

# What is seen outside each application, worked out from its sources and its schedule.
SEEN = {
    "actuator_after_a_reset": "reset b write, raw bulb 9",
    "relay_on_another_node": "out guard 1, out lamp 1, reset b write, raw bulb 9",
    "count_after_a_reset": ", ".join([*["out motor 20"] * 3, "reset b asked", *["out motor 20"] * 3]),
    "count_on_another_node": ", ".join([*["out motor 20"] * 3, "reset b asked"]),
    "events_at_once": ", ".join(["out motor 20"] * 3),
    "number_and_age": ", ".join(["out motor 20"] * 2),
}


@needs_program
class Designs(unittest.TestCase):
    def run_of(self, name):
        ran = sancus("run", EXAMPLES / "attacks" / f"{name}.txt")
        self.assertEqual(ran.status, 0, ran.said)
        return ran

    def test_what_is_seen(self):
        for name, wanted in SEEN.items():
            seen = [it for it in self.run_of(name).lines if re.match("out |raw |reset ", it)]
            self.assertEqual(", ".join(seen), wanted, name)

    def test_each_run_is_legal(self):
        for name in SEEN:
            file = EXAMPLES / "attacks" / f"{name}.txt"
            explained = sancus("explain", file, "-", text=self.run_of(name).out)
            self.assertEqual(explained.status, 0)
            self.assertTrue(explained.lines[-2].startswith("legal "), name)

    def test_what_is_late_or_given_again(self):
        last = {name: [it for it in self.run_of(name).lines if it.startswith("done")] for name in SEEN}
        self.assertEqual(last["relay_on_another_node"][-1], "done guard 1 0", "the answer that was kept back")
        self.assertIn("done guard 6 0", last["relay_on_another_node"], "the answer that was given again")
        self.assertEqual(last["count_on_another_node"][-1], "done second 1 0")


if __name__ == "__main__":
    unittest.main()
