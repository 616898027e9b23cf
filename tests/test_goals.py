"""`sancus goal`: each goal is reached by its solution and by no honest run, or can't be reached."""

import unittest

from support import PROGRAM, TOP, Room, needs_program, program, sancus

from sancus.cli.goals import all_goals

GOALS = all_goals(TOP)
REACHABLE = [it for it in GOALS if it.is_reachable]
BRIGHT = next(it for it in GOALS if it.name == "light_by_night")
LATE = next(it for it in GOALS if it.name == "late_light")
has_holds = bool(PROGRAM) and program("holds", text="%%\n%%\n").status != 2


@needs_program
class Goals(Room):
    def test_solutions(self):
        self.assertGreaterEqual(len(REACHABLE), 8)
        for goal in REACHABLE:
            with self.subTest(goal.name):
                made = sancus("goal", goal.name, goal.folder / "solution.txt")
                self.assertEqual(made.status, 0, made.out.decode() + made.said)
                self.assertRegex(made.lines[0], r"^reached, \d+ lines$")
                self.says(made, goal.note.split("\n")[0])

    def test_honest_runs(self):
        """The readings delivered one after the other, as `drive` does, reach no goal but the first."""
        for goal in GOALS:
            with self.subTest(goal.name):
                lines = ["deploy all", *(f"flow {it}" for it in goal.readings)]
                made = sancus("goal", goal.name, self.file("honest.txt", "\n".join(lines) + "\n"))
                self.assertEqual(made.lines[0].startswith("reached"), goal.name == "first_light", made.lines)
                self.assertEqual(made.status, 0 if goal.name == "first_light" else 15)

    def judged(self, goal, *lines):
        made = sancus("goal", goal.name, self.file("mine.txt", "\n".join(lines) + "\n"))
        self.assertEqual(made.status, 15, made.said)
        (line,) = made.lines
        return line

    def test_what_is_not_allowed(self):
        mine = self.room / "mine.txt"
        for lines, said in (
            (["deploy all", "asm b 0x800 mov #1, &0x1000"], "2: `asm b 0x800 mov #1, &0x1000`"),
            (["deploy all", "reset b"], "2: `reset b`"),
            (["forge 0300"], "1: `forge 0300`"),
        ):
            wanted = f"not allowed: {mine}:{said}: this goal lets you touch what is on its way"
            self.assertEqual(self.judged(LATE, *lines).replace("line ", f"{mine}:"), wanted)
        self.assertEqual(
            self.judged(LATE, "deploy all", "sample eye 120", "sample eye 101"),
            f"not allowed: {mine}:3: `sense light 101`: the readings are `light 120`, `light 20`, in this order",
        )

    def test_what_is_missing(self):
        self.assertEqual(self.judged(LATE, "deploy all"), "not reached: no `out lamp` came")
        self.assertEqual(
            self.judged(LATE, "deploy all", "flow light 120"), "not reached: `out lamp 1` came, and broke nothing"
        )
        one = next(it for it in GOALS if it.name == "one_key_twice")
        self.assertEqual(self.judged(one, "load left"), "not reached: no `forged deployer` came")
        tag = sancus("tag", "event", BRIGHT.deployment, "down", "--value", "1").out.decode().strip()
        forged = self.judged(BRIGHT, "deploy all", f"{tag} as made", "give made b", "call lamp 2")
        self.assertEqual(forged, "not reached: `forged lamp` came, and what follows a `forged` isn't judged")

    def test_never(self):
        for goal in GOALS:
            if not goal.is_reachable:
                self.assertEqual(sancus("goal", goal.name, "--never").lines, ["right: it can't be reached"])
        made = sancus("goal", "late_light", "--never")
        self.assertEqual((made.status, made.lines), (15, ["not so: it can be reached"]))

    @unittest.skipUnless(has_holds, "the program has no command `holds`")
    def test_unreachable_ones_are_proved(self):
        for goal in GOALS:
            if goal.source:
                head = (goal.folder / "deployment.toml").read_text()
                status = program("holds", text=f"{head}%%\n{goal.source}%%\n").status
                self.assertEqual(status == 0, not goal.is_reachable, goal.name)

    def test_words(self):
        self.assertEqual([it.split()[1] for it in sancus("goal").lines], [it.name for it in GOALS])
        self.assertIn("readings: `light 120`, `light 20`", sancus("goal", "late_light").lines)
        self.assertIn("`take a 24 as late`", sancus("goal", "late_light", "--hint").out.decode())
        made = sancus("goal", "late_ligth")
        self.assertEqual(made.status, 122)
        self.says(made, "there is no goal late_ligth; did you mean `late_light`?")


if __name__ == "__main__":
    unittest.main()
