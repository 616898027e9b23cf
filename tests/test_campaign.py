"""`sancus campaign`: a bug is found and shrunk, each seed has its row once, and bad input loses none."""

import os
import re
import resource
import signal
import sqlite3
import subprocess
import sys
import time
import unittest
from contextlib import closing
from unittest.mock import patch

from support import EXAMPLES, PROGRAM, SANCUS, Room, needs_program, program, sancus

from sancus import load
from sancus.batch import answers
from sancus.campaign import Layout, Reading, Worker, code_of, plan_of, run_chunk
from sancus.cli.campaign import jobs_of
from sancus.cli.commands import BY_NAME, parse
from sancus.cli.progress import line
from sancus.runner import Runner

PUMP = EXAMPLES / "campaign" / "pump.toml"
ONCE = f"{EXAMPLES / 'campaign' / 'once.py'}:once"
TWICE = "a dose is given twice"
# Its generators: one that fails at some seeds, one that draws no acts, and one whose run takes minutes.
GENERATORS = """
def fails(layout, random):
    if random.random() < 0.02:
        raise ValueError("no luck")
    return []


def numbers(layout, random):
    return [3]


def unknown(layout, random):
    from sancus.campaign import Carry
    return [Carry("pull")]


def endless(layout, random):
    return ["put a 0x600 ff3f", "set a pc 0x600", *["run a 65535"] * 65000]


def mixed(layout, random):
    # (one in ten wants too much memory, and some break a rule)
    if random.random() < 0.1:
        return [f"forge {'00' * 384}"] * 20000
    return ["reset a"] * random.randrange(4) + ["jump a"] * random.randrange(2)
"""
# A program that may have little memory.
SMALL = """#!/bin/sh
ulimit -v 6000
exec {program} "$@"
"""


def rows_of(path):
    with closing(sqlite3.connect(path)) as file:
        return file.execute("select * from runs order by seed").fetchall()


def doses(text):
    """The doses of a schedule's run, as the program prints them."""
    return [it for it in program("run", text=text).lines if it.startswith("out valve ")]


@needs_program
class Campaigns(Room):
    def setUp(self):
        super().setUp()
        self.generators = self.file("generators.py", GENERATORS)
        self.rows = self.room / "campaign.sqlite"

    def campaign(self, *words):
        return sancus("campaign", PUMP, *words, cwd=self.room)

    def test_a_bug_is_found_and_made_small(self):
        ran = self.campaign("--seeds", "0..200", "--check", ONCE)
        self.assertEqual(ran.status, 1)
        wrong = [it for it in rows_of(self.rows) if it[1]]
        self.assertEqual({it[1] for it in wrong}, {TWICE})
        self.assertIn(f"  {TWICE}: seed {wrong[0][0]} first", ran.lines[-1])
        shrunk = self.campaign("--check", ONCE, "--shrink", str(wrong[0][0]))
        self.assertEqual(shrunk.status, 0)
        found = doses(shrunk.out)
        self.assertGreater(len(found), len(set(found)))
        acts = re.findall(rb"(?m)^# (?:reading|reset) ", shrunk.out.partition(b"\n%%\n")[2])
        self.assertLessEqual(len(acts), 7)
        self.says(shrunk, f"{TWICE}: ", f"became {len(acts)}")

    def test_a_property_finds_the_same(self):
        self.campaign("--seeds", "0..200", "--check", ONCE)
        ran = self.campaign("--seeds", "0..200", "--holds", PUMP.parent / "once.property", "--to", "other.sqlite")
        self.assertEqual(ran.status, 1)
        found = {it[0] for it in rows_of(self.room / "other.sqlite") if it[1] == "breaks once.property"}
        self.assertLessEqual(found, {it[0] for it in rows_of(self.rows) if it[1]})
        self.assertTrue(found)

    def test_hostile_acts(self):
        self.campaign("--hostile", "--seeds", "0..60")
        self.assertEqual([it[1] for it in rows_of(self.rows)], [""] * 60)

    def test_it_goes_on_after_a_kill(self):
        call = [SANCUS, "campaign", PUMP, "--seeds", "0..600", "--jobs", "2", "--to"]
        env = {**os.environ, "SANCUS_PROGRAM": PROGRAM}
        begun = subprocess.Popen([*call, self.rows], env=env, stdout=subprocess.DEVNULL, stderr=subprocess.DEVNULL)
        while begun.poll() is None and not (self.rows.exists() and len(self.seeds())):
            time.sleep(0.02)
        begun.send_signal(signal.SIGKILL)
        begun.wait()
        self.assertLess(len(self.seeds()), 600)
        self.assertEqual(self.campaign("--seeds", "0..600").status, 0)
        self.campaign("--seeds", "0..600", "--to", "whole.sqlite")
        self.assertEqual(rows_of(self.rows), rows_of(self.room / "whole.sqlite"))
        self.assertEqual(self.seeds(), list(range(600)))

    def seeds(self):
        try:
            return [it[0] for it in rows_of(self.rows)]
        except sqlite3.OperationalError:
            return []

    def test_readings_whose_events_are_delivered_are_an_honest_run(self):
        with patch.dict(os.environ, SANCUS_PROGRAM=PROGRAM):
            app = load(EXAMPLES / "parking" / "parking.toml")
        words = [it.split() for it in (EXAMPLES / "parking" / "day.readings").read_text().splitlines()]
        readings = [(it[0], int(it[1])) for it in words if it[0] not in ("%%", "#")]
        layout = Layout(app.deployment)
        drivers = {device: module for module, device in layout.sensors.items()}
        ran = app.run(layout.lines(Reading(drivers[device], value) for device, value in readings))
        honest = app.drive(readings)
        for kind in ("sense", "read", "take", "out"):
            self.assertEqual(ran.of(kind), honest.of(kind))
        self.assertGreater(len(honest.of("take")), len(readings))

    def test_parts_are_merged(self):
        self.campaign("--seeds", "0..90", "--to", "whole.sqlite")
        for seeds, name in (("0..50", "a.sqlite"), ("40..90", "b.sqlite")):
            self.campaign("--seeds", seeds, "--to", name)
        ran = self.campaign("--merge", "a.sqlite", "b.sqlite")
        self.assertEqual(ran.lines, self.campaign("--show", "--to", "whole.sqlite").lines)
        self.assertEqual(rows_of(self.rows), rows_of(self.room / "whole.sqlite"))
        self.campaign("--hostile", "--seeds", "0..1", "--to", "c.sqlite")
        ran = self.campaign("--merge", "c.sqlite")
        self.assertEqual(ran.status, 122)
        self.says(ran, "another campaign: the generator differs")
        ran = sancus("campaign", EXAMPLES / "lighting.txt", "--show", cwd=self.room)
        self.says(ran, "another campaign: the deployment differs")

    def test_no_process_is_idle(self):
        given = parse(BY_NAME["campaign"], [str(PUMP), "--jobs", "5000"])
        self.assertEqual([jobs_of(given, seeds) for seeds in (3, 1000, 2_000_000)], [2, 6, 5000])

    def test_progress(self):
        self.assertEqual(line(4250, 10000, 12, 10.0), "4,250 of 10,000 runs, 425 a second, 14 s left, 12 wrong")

    def test_a_run_that_takes_too_long(self):
        ran = self.campaign("--generate", f"{self.generators}:endless", "--seconds", "1", "--seeds", "5..6")
        self.assertEqual(ran.status, 1)
        self.assertEqual(rows_of(self.rows), [(5, "took longer than 1 s", 65002, 0, "", 0, "")])

    def test_bad_input_ends_it_with_words(self):
        for words, said in [
            (["--generate", "generators.py:fails"], "generators.py: fails fails: line 4: ValueError: no luck"),
            (["--generate", "generators.py:numbers"], "a generator returns a list of acts, and not [3]"),
            (["--generate", "generators.py:unknown"], "an act names 'pull', which the deployment doesn't have"),
            (["--generate", "generators.py:lost"], "generators.py has no function lost"),
            (["--check", "once.py:once"], "once.py can't be read: No such file or directory"),
            (["--check", "once"], "once isn't FILE:FUNCTION"),
            (["--show", "--to", "no.sqlite"], "there is no file no.sqlite"),
            (["--holds", self.file("bad.property", "on out pump(v) { fail; }")], "fault property"),
        ]:
            ran = self.campaign("--seeds", "0..250", *words)
            self.assertEqual((ran.status, ran.out), (122, b""), words)
            self.rows.unlink(missing_ok=True)
            self.says(ran, said)
        ran = self.campaign("--to", "none/it.sqlite")
        self.assertEqual((ran.status, ran.out), (121, b""))
        self.says(ran, "none/it.sqlite can't be opened: unable to open database file")
        for words in (["--seeds", "5..2"], ["--network", "--hostile"], ["more.toml"]):
            self.assertEqual(self.campaign(*words).status, 2)

    def test_rows_before_a_fault_stay(self):
        self.campaign("--generate", "generators.py:fails", "--seeds", "0..250", "--jobs", "1")
        kept = self.seeds()
        self.assertTrue(kept)
        ran = self.campaign("--seeds", "0..250")
        self.assertEqual(ran.status, 122)
        self.says(ran, "campaign.sqlite has another campaign: the generator differs")
        self.assertEqual(self.seeds(), kept)

    def test_a_full_disk(self):
        # (-B, as Python keeps a module of which it could write but a part)
        whole = [sys.executable, "-I", "-S", "-B", SANCUS, "campaign", PUMP, "--seeds", "0..900", "--to", self.rows]
        full = lambda: resource.setrlimit(resource.RLIMIT_FSIZE, (1 << 15, 1 << 15))  # noqa: E731
        env = {**os.environ, "SANCUS_PROGRAM": PROGRAM}
        ran = subprocess.run(whole, env=env, capture_output=True, text=True, preexec_fn=full)
        self.assertEqual((ran.returncode, ran.stdout), (5, ""))
        self.assertRegex(ran.stderr, "campaign.sqlite: .*(full|error).*; the rows that it has stay")
        kept = rows_of(self.rows)
        self.assertTrue(kept)
        self.assertEqual(self.campaign("--seeds", "0..900").status, 0)
        self.assertLessEqual({*kept}, {*rows_of(self.rows)})
        self.assertEqual(self.seeds(), list(range(900)))


class Counted(Runner):
    """A program that counts how often it is started."""

    starts = 0

    def spawned(self, words, given, written):
        Counted.starts += 1
        return super().spawned(words, given, written)


@needs_program
class Together(Room):
    """Schedules that one process runs have the rows that they have alone."""

    def setUp(self):
        super().setUp()
        self.generators = self.file("generators.py", GENERATORS)
        with patch.dict(os.environ, SANCUS_PROGRAM=PROGRAM):
            self.app = load(PUMP)
        self.app.program = Counted([PROGRAM], processor_seconds=1)

    def starts(self, schedules):
        """How many processes give the answers, which are those of one each."""
        alone = [self.app.program.answer(["run"], self.app.input(it)) for it in schedules]
        Counted.starts = 0
        self.assertEqual(list(answers(self.app, schedules)), alone)
        return Counted.starts

    def test_drawn_schedules(self):
        for kind in ("network", "hostile"):
            worker = Worker(plan_of(self.app, kind, code_of(ONCE)))
            schedules = [worker.schedule(worker.acts(seed)) for seed in range(50, 80)]
            self.assertLessEqual(self.starts(schedules), 2)
            rows = [row for seed in range(50, 80) for row in worker.rows([seed])]
            self.assertEqual(list(worker.rows(range(50, 80))), rows)

    def test_schedules_of_which_some_break_rules(self):
        begun = b"# common\nreset a\n"
        rest = [b"", b"reset b\n", b"reset b\njump a\nreset a\n", b"reset x\n", b"end\n", b"\n# word\nforge 00\n"]
        self.assertLessEqual(self.starts([begun + it for it in rest]), 2)
        self.assertLessEqual(self.starts(rest), 2)
        # (a mark, a line that is too long, and a rule that the common lines break)
        for odd in (b"%%\n", b"#" * 5000 + b"\n", b"%%\r\nreset a\n"):
            self.assertGreater(self.starts([begun + it for it in (*rest, odd)]), len(rest) + 1)
        self.assertGreater(self.starts([b"jump a\n" + it for it in rest]), len(rest))

    def test_one_that_takes_too_long(self):
        slow = b"put a 0x600 ff3f\nset a pc 0x600\n" + b"run a 65535\n" * 65000
        alone = list(answers(self.app, [b"reset b\n", b"reset a\n"]))
        found = list(answers(self.app, [b"reset b\n", slow, b"reset a\n"]))
        self.assertEqual([it.status for it in found], [0, -signal.SIGXCPU, 0])
        self.assertEqual([found[0], found[2]], alone)

    def test_what_ends_a_campaign_comes_after_the_rows_before_it(self):
        small = self.file("small", SMALL.format(program=PROGRAM))
        small.chmod(0o755)
        self.app.program = Runner([str(small)])
        plan = plan_of(self.app, code_of(f"{self.generators}:mixed"))
        chunk = run_chunk(plan, 0, 250)
        at = len(chunk.rows)
        self.assertRegex(chunk.words[0], f"^seed {at}: the program ended with status 6: packet [0-9]+ 384$")
        worker = Worker(plan)
        self.assertEqual(chunk.rows, [row for seed in range(at) for row in worker.rows([seed])])
        self.assertEqual({it.outcome for it in chunk.rows}, {"", "broke off: fault schedule S3"})


if __name__ == "__main__":
    unittest.main()
