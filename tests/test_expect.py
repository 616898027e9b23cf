"""`sancus test`: expectations that are met, each that isn't once, and what is written of them."""

import importlib.util
import os
import subprocess
import sys
import unittest
from xml.etree import ElementTree

from support import EXAMPLES, LIGHTING, TOP, Room, needs_program, sancus

CASE = """#: deployment lighting.txt
#: never forged
#: legal
deploy all
sample eye 120
#> read eye 120
#> !out
carry eye logic
#> take logic up
carry logic lamp
#> out lamp 1
give event.logic.lamp b
#> -
"""


@needs_program
class Expectations(Room):
    def setUp(self):
        super().setUp()
        self.file("lighting.txt", LIGHTING)

    def tried(self, text, *words):
        self.file("test_it.sancus", text)
        return sancus("test", *words, "test_it.sancus", cwd=self.room)

    def fails(self, old, new, *said):
        ran = self.tried(CASE.replace(old, new))
        self.assertEqual(ran.status, 1)
        self.assertEqual([it.strip() for it in ran.lines[1:]], list(said))

    def test_met(self):
        ran = self.tried(CASE)
        self.assertEqual((ran.status, ran.lines), (0, ["ok test_it.sancus: 7 expectations"]))
        self.assertEqual(sancus("test", EXAMPLES).status, 0)

    def test_a_deployment_of_its_own(self):
        ran = self.tried(LIGHTING.partition(b"%%\n")[0].decode() + "%%\ndeploy all\n#> open lamp down to\n#: legal\n")
        self.assertEqual(ran.lines, ["ok test_it.sancus: 2 expectations"])

    def test_not_met(self):
        for old, new, said in (
            ("#> read eye 120", "#> read eye 121",
             "test_it.sancus:6: `sample eye 120` gives no `read eye 121` here, but sense light 120, read eye 120, done eye 1 1"),
            ("#> !out", "#> !done", "test_it.sancus:7: `sample eye 120` gives `done eye 1 1`"),
            ("#> out lamp 1", "#> -",
             "test_it.sancus:11: `carry logic lamp` gives packet 11 24, take lamp down 0 1, out lamp 1, done lamp 1 0, and nothing was expected"),
            ("#: never forged", "#: never out", "test_it.sancus:2: line 10, `carry logic lamp`, gives `out lamp 1`"),
            ("#: legal", "#: legel",
             "test_it.sancus:3: `legel` is no expectation: deployment, never, legal, keeps, holds; did you mean `legal`?"),
        ):  # fmt: skip
            self.fails(old, new, said)

    def test_properties(self):
        for name in ("bright", "last_reading"):
            self.file(f"{name}.property", (EXAMPLES / f"properties/{name}.property").read_text())
        self.file("none.property", "on out lamp(v) { emit 1; }\n")
        self.file("dark.property", "on out lamp(v) { if v { fail; } }\n")
        rules = ["keeps bright", "holds bright", "keeps dark", "holds last_reading", "holds none", "keeps no"]
        ran = self.tried(CASE + "".join(f"#: {it}.property\n" for it in rules))
        self.assertEqual(ran.status, 1)
        said = [it.strip() for it in ran.lines if it.startswith("  test_it")]
        self.assertRegex(said[0], "^test_it.sancus:16: item [0-9]+, `out lamp 1`, breaks dark.property$")
        self.assertEqual(said[1], "test_it.sancus:17: it isn't proved that no run breaks last_reading.property: "
                         "`sancus holds` looks for one")  # fmt: skip
        self.assertRegex(said[2], "^test_it.sancus:18: none.property: fault property P[0-9] ")
        self.assertEqual(said[3:], ["test_it.sancus:19: no.property can't be read: No such file or directory"])

    def test_illegal(self):
        forged = (EXAMPLES / "forged.txt").read_text()
        ran = self.tried(forged + "#: legal\n")
        self.assertEqual(ran.status, 1)
        self.assertIn("forged: ", ran.lines[1])

    def test_what_cant_be_done(self):
        self.fails("carry eye logic", "carry eye lamp",
                   "test_it.sancus:8: carry eye lamp: no connection leads from eye to lamp; eye sends to: logic")  # fmt: skip
        self.fails("#: deployment lighting.txt", "",
                   "test_it.sancus:1: it has no deployment, and no line `#: deployment FILE`")  # fmt: skip
        (self.room / "docs").mkdir()
        self.says(sancus("test", "docs", cwd=self.room), "there is no test_*.sancus in docs")
        ran = sancus("test", "none", cwd=self.room)
        self.assertEqual((ran.status, ran.lines[1]), (1, "  none:1: none can't be read: No such file or directory"))

    def test_items_are_written_anew(self):
        ran = self.tried(CASE.replace("#> read eye 120\n#> !out", "#> read eye 5"), "--update")
        self.assertEqual(ran.status, 0)
        made = (self.room / "test_it.sancus").read_text()
        self.assertIn("sample eye 120\n#> sense light 120\n#> read eye 120\n#> done eye 1 1\ncarry eye logic\n", made)
        self.assertTrue(made.endswith("give event.logic.lamp b\n#> -\n"))
        self.assertEqual(self.tried(made).status, 0)

    def test_results_for_a_server(self):
        self.tried(CASE.replace("#> out lamp 1", "#> out lamp 2"), "--junit", "results.xml")
        suite = ElementTree.parse(self.room / "results.xml").getroot()
        self.assertEqual((suite.tag, suite.get("tests"), suite.get("failures")), ("testsuite", "1", "1"))
        self.assertTrue(suite.find("testcase/failure").get("message").startswith("test_it.sancus:11: "))

    @unittest.skipUnless(importlib.util.find_spec("pytest"), "pytest isn't installed")
    def test_pytest_collects_them(self):
        self.file("test_it.sancus", CASE)
        self.file("test_wrong.sancus", CASE.replace("#> out lamp 1", "#> out lamp 2"))
        words = [sys.executable, "-m", "pytest", "-q", "-p", "sancus.pytest_plugin", "-p", "no:cacheprovider"]
        env = {**os.environ, "PYTHONPATH": str(TOP / "src")}
        ran = subprocess.run(words, cwd=self.room, env=env, capture_output=True, text=True)
        self.assertIn("1 failed, 1 passed", ran.stdout)
        self.assertIn("test_wrong.sancus:11: `carry logic lamp` gives no `out lamp 2` here", ran.stdout)


if __name__ == "__main__":
    unittest.main()
