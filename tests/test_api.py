"""The API: what docs/API.md shows, and what it doesn't."""

import doctest
import os
import re
import sys
import unittest
from importlib import import_module
from unittest.mock import patch

from support import PROGRAM, TOP, needs_program

import sancus
from sancus.items import KINDS, Forged
from sancus.model.items import ITEMS

FENCE = re.compile(r"(?m)^```.*$")


@needs_program
class Api(unittest.TestCase):
    def setUp(self):
        named = patch.dict(os.environ, SANCUS_PROGRAM=PROGRAM)
        named.start()
        self.addCleanup(named.stop)
        self.addCleanup(os.chdir, os.getcwd())
        os.chdir(TOP)

    def test_the_document(self):
        text = FENCE.sub("", (TOP / "docs" / "API.md").read_text())
        examples = doctest.DocTestParser().get_doctest(text, {}, "API.md", "docs/API.md", 0)
        said = []
        result = doctest.DocTestRunner().run(examples, out=said.append)
        self.maxDiff = None
        self.assertEqual("".join(said), "")
        self.assertGreater(result.attempted, 20)

    def test_each_kind_of_item(self):
        self.assertEqual(set(KINDS), set(ITEMS))

    def test_a_run_that_breaks_off(self):
        run = sancus.load("examples/lighting.txt").run(["load eye", "load eyes"])
        self.assertEqual(run.texts, ["protect a eye"])
        self.assertEqual((run.fault.of, run.fault.rule, run.fault.place), ("schedule", "S4", "2"))
        self.assertIn("expected: a module: eye logic lamp; did you mean `eye`?", run.fault.words)

    def test_lines_for_people_become_a_run(self):
        run = sancus.load("examples/lighting.txt").run("deploy all\nsample eye 7\n")
        self.assertEqual([it.value for it in run.of("read")], [7])

    def test_a_notebook_gets_a_page_of_its_own(self):
        page = sancus.load("examples/lighting.txt").run()._repr_html_()
        self.assertTrue(page.startswith('<iframe sandbox="allow-scripts"'))
        self.assertIn("&lt;!doctype html&gt;", page)

    def test_what_an_extra_installs_is_named(self):
        run = sancus.load("examples/lighting.txt").run()
        with patch.dict(sys.modules, pandas=None, hypothesis=None):
            sys.modules.pop("sancus.strategies", None)
            with self.assertRaisesRegex(ImportError, "pip install pandas"):
                run.frame()
            with self.assertRaisesRegex(ImportError, "pip install hypothesis"):
                import_module("sancus.strategies")

    def test_a_forged_tag(self):
        run = sancus.load("examples/forged.txt").run()
        self.assertIsInstance(run.forged, Forged)
        self.assertEqual(run.forged.number, run.explain().forged)

    def test_a_fault_of_a_reading(self):
        with self.assertRaises(sancus.Fault) as raised:
            sancus.load("examples/lighting.txt").drive([("lights", 3)])
        self.assertEqual((raised.exception.of, raised.exception.rule), ("reading", "Q4"))

    def test_a_line_that_is_refused_leaves_nothing(self):
        with sancus.load("examples/lighting.txt").schedule() as made:
            made.deploy()
            before = made.lines
            for text, words in (
                ("put a 70000 00", "S5: a field isn't a number, or is out of range"),
                ("take a", "S7: it has too many words or too few"),
                ("carry eye logic", "eye sent nothing at its last call"),
            ):
                with self.assertRaises(sancus.Refused) as raised:
                    made.line(text)
                self.assertIn(words, raised.exception.words[0])
            self.assertEqual(made.lines, before)
            made.sample("eye", 120)
            self.assertEqual(made.run().of("read")[0].value, 120)

    def test_what_is_taken_back_can_be_done_again(self):
        with sancus.load("examples/lighting.txt").schedule() as made:
            made.deploy()
            made.sample("eye", 120)
            carried = made.carry("eye", "logic")
            made.undo()
            self.assertEqual(made.carry("eye", "logic"), carried)

    def test_no_program(self):
        with patch.dict(os.environ, SANCUS_PROGRAM="/nothing"), self.assertRaises(sancus.NoProgram) as raised:
            sancus.loads("%%\n")
        self.assertEqual(raised.exception.words, ["/nothing is no program that can be started"])


if __name__ == "__main__":
    unittest.main()
