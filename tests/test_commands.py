"""The command line: words, options, help, near misses, and the statuses of what is no command."""

import re
import subprocess
import unittest

from support import LIGHTING, SANCUS, TOP, Room, sancus, one_by_one

from sancus import __version__
from sancus.cli import manual
from sancus.cli.commands import BY_NAME, COMMANDS
from sancus.model.schedule import FORMS


class Help(unittest.TestCase):
    def test_each_word_has_help_with_an_example(self):
        for word, ran in zip(COMMANDS, one_by_one(lambda it: sancus(it.name, "--help"), COMMANDS)):
            with self.subTest(word.name):
                self.assertEqual((ran.status, ran.said), (0, ""))
                self.assertTrue(ran.lines[0].startswith(f"usage: sancus {word.name}"))
                self.assertTrue(ran.lines[-1].startswith("example: "))
                self.assertIn("sancus", word.example)

    def test_help_of_all(self):
        for words in (["--help"], ["-h"], ["help"]):
            ran = sancus(*words)
            self.assertEqual((ran.status, ran.said), (0, ""))
            for word in COMMANDS:
                self.assertIn(f"  {word.name} ", ran.out.decode())

    def test_help_of_a_word(self):
        self.assertEqual(sancus("help", "run").out, sancus("run", "--help").out)
        self.assertIn("did you mean `drive`", sancus("help", "drvie").said)

    def test_version(self):
        for words in (["--version"], ["version"], ["-V"]):
            ran = sancus(*words, program="/bin/cat")
            self.assertEqual(ran.status, 0)
            self.assertEqual([it.split(":")[0] for it in ran.lines], [f"sancus {__version__}", "build", "program", "kit", "commit"])

    def test_man_page_and_completion_are_current(self):
        self.assertEqual(
            (TOP / "share" / "man" / "man1" / "sancus.1").read_text(),
            manual.man_page(),
            "sancus help --man > share/man/man1/sancus.1",
        )
        self.assertEqual(
            (TOP / "share" / "bash-completion" / "sancus").read_text(),
            manual.completion(),
            "sancus help --completion > share/bash-completion/sancus",
        )
        self.assertEqual(sancus("help", "--man").out.decode(), manual.man_page())
        self.assertEqual(sancus("help", "--completion").out.decode(), manual.completion())

    def test_completion_completes(self):
        script = f"""source {TOP}/share/bash-completion/sancus
        COMP_WORDS=(sancus dr); COMP_CWORD=1; _sancus; echo "${{COMPREPLY[@]}}"
        COMP_WORDS=(sancus drive --sch); COMP_CWORD=2; _sancus; echo "${{COMPREPLY[@]}}"
        COMP_WORDS=(sancus help ex); COMP_CWORD=2; _sancus; echo "${{COMPREPLY[@]}}"
        COMP_WORDS=(sancus hex image x --format ""); COMP_CWORD=5; _sancus; echo "${{COMPREPLY[@]}}" """
        ran = subprocess.run(["bash", "-c", script], capture_output=True, text=True)
        self.assertEqual(ran.stdout.split("\n")[:4], ["drive", "--schedule", "explain", "ti hex"], ran.stderr)


class NoCommand(Room):
    def test_near_misses(self):
        for word, meant in (("rnu", "run"), ("chekc", "check"), ("explian", "explain"), ("scedule", "schedule")):
            ran = sancus(word)
            self.assertEqual((ran.status, ran.out), (2, b"fault usage\n"))
            self.says(ran, f"did you mean `{meant}`?")
        self.says(sancus(str(TOP / "README.md")), "a command comes first: `sancus run ")
        self.says(sancus("drive", "--scedule"), "there is no option --scedule: did you mean `--schedule`?")
        self.assertNotIn("did you mean", sancus("drive", "--bogus").said)
        self.says(sancus("--program", "/bin/cat"), "a command is missing")
        self.says(sancus("--program", "/bin/cat", "--nope"), "there is no option --nope")
        self.says(sancus("build", "3"), "too many arguments: 3")
        self.says(sancus("hex", "convert", "x", "--format", "elf"), "--format takes ti or hex, and not `elf`")

    def test_words_that_are_no_command(self):
        for words in (
            "",
            "gen 0",
            "gen 8001",
            "gen",
            "asm 0x10000",
            "asm 1x",
            "dis",
            "check a b",
            "gen 1 2",
            "nothing",
            "run --nothing",
        ):
            with self.subTest(words):
                ran = sancus(*words.split(), program="/bin/cat")
                self.assertEqual((ran.status, ran.out), (2, b"fault usage\n"))
                self.assertTrue(ran.said)

    def test_words_of_the_front_end_that_are_no_command(self):
        for words in ("vars x", "steps", "why", "hex put", "hex other x", "view"):
            with self.subTest(words):
                ran = sancus(*words.split(), program="/bin/cat")
                self.assertEqual((ran.status, ran.out), (2, b""))
                self.says(ran, "usage: sancus")

    def test_numbers_as_the_program_takes_them(self):
        fake = self.fake()
        for words in ("gen 1", "gen 0x1F40", "asm 65535", "dis 0x0", "asm 00000000000000065535"):
            with self.subTest(words):
                ran = sancus(*words.split(), text=b"", program=fake)
                self.assertEqual(ran.out.decode().split("\n")[0], f"ran {words}")

    def test_lines_for_people_in_help_and_man_page(self):
        rows, out = BY_NAME["schedule"].table, sancus("help", "schedule").lines
        page = sancus("help", "--man").lines
        for name, says in rows:
            self.assertTrue([it for it in out if it.startswith(f"  {name}") and it.endswith(says)], says)
            at = page.index(says.replace("-", "\\-"))
            self.assertEqual(page[at - 1][:3] == ".B ", bool(name))
        for form in FORMS:
            self.assertTrue(form in ("packets", "boots") or [it for it, _ in rows if it.startswith(form)], form)

    def test_quiet(self):
        fake, bad = self.fake("fault deployment D2 -", 1), self.file("bad.txt", "load eye\n")
        self.assertIn("D2", sancus("run", bad, program=fake).said)
        for words in (["run", bad, "--quiet"], ["-q", "run", bad], ["run", "-q", bad]):
            self.assertEqual(sancus(*words, program=fake).said, "")
        # (why there is no answer is said all the same)
        self.assertIn("can't be read", sancus("run", "-q", self.room / "none", program=fake).said)

    def test_dash_and_two_dashes(self):
        fake = self.fake()
        self.assertEqual(sancus("run", "-", text=b"in\n", program=fake).out, b"ran run\nin\nend\n")
        self.file("-odd.txt", LIGHTING)
        ran = subprocess.run([SANCUS, "--program", fake, "run", "--", "-odd.txt"], cwd=self.room, capture_output=True)
        self.assertEqual(ran.stdout, b"ran run\n" + LIGHTING + b"end\n")
        self.assertEqual(sancus("--", "run", text=b"in\n", program=fake).out, b"ran run\nin\nend\n")

    def test_options_stand_anywhere(self):
        fake = self.fake()
        for words in (["--program", fake, "run"], ["run", "--program", fake], ["run", f"--program={fake}"]):
            self.assertEqual(sancus(*words, text=b"in\n", program="/bin/false").out, b"ran run\nin\nend\n")
        self.says(sancus("run", "--program"), "--program takes FILE")

    def test_every_word_has_what_it_does(self):
        for word in BY_NAME.values():
            self.assertTrue(word.does and not word.does.endswith("."))


class Statuses(unittest.TestCase):
    """The exit statuses are listed where each reader looks: at `top`, in FORMATS, and in the man page."""

    def listed(self, path, begin, end):
        text = (TOP / path).read_text()
        text = text[text.index(begin) :]
        return set(re.findall(r"^(?:/// )?\| (\d+) \|", text[: text.index(end)], re.MULTILINE))

    def test_lists_agree(self):
        program = self.listed("crates/sx_top/src/command.rt", "/// | Status |", "pub fn top")
        self.assertEqual(self.listed("docs/FORMATS.md", "## Faults and statuses", "**If a write"), program)
        front_end = self.listed("docs/FORMATS.md", "Statuses of the front end itself", "### Which build")
        self.assertEqual({number for number, _ in manual.STATUSES}, program | front_end)


if __name__ == "__main__":
    unittest.main()
