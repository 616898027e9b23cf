"""Campaigns on a cluster of Dask of which a worker is killed, and strategies of Hypothesis, where these are installed."""

import importlib.util
import os
import re
import signal
import sqlite3
import subprocess
import sys
import time
import unittest
from contextlib import closing
from unittest.mock import patch

from slow import EXAMPLES, PROGRAM, SANCUS, TOP, Room, needs_program

CAMPAIGN = EXAMPLES / "campaign"
SEEDS = 2500
CALL = [
    sys.executable, SANCUS, "campaign", CAMPAIGN / "pump.toml", "--seeds", f"0..{SEEDS}",
    "--check", f"{CAMPAIGN / 'once.py'}:once",
]  # fmt: skip


def has(name):
    return unittest.skipUnless(importlib.util.find_spec(name), f"{name} isn't installed")


def rows_of(path):
    try:
        with closing(sqlite3.connect(path)) as file:
            return file.execute("select * from runs order by seed").fetchall()
    except sqlite3.OperationalError:
        return []


@needs_program
class Campaigns(Room):
    def setUp(self):
        super().setUp()
        named = patch.dict(os.environ, SANCUS_PROGRAM=PROGRAM, PYTHONPATH=str(TOP / "src"))
        named.start()
        self.addCleanup(named.stop)

    @has("distributed")
    def test_a_cluster_of_which_a_worker_is_killed(self):
        from distributed import Client, LocalCluster

        rows = self.room / "cluster.sqlite"
        with LocalCluster(
            n_workers=3, threads_per_worker=1, processes=True, host="127.0.0.1", dashboard_address=None
        ) as cluster:
            ran = subprocess.Popen([*CALL, "--dask", cluster.scheduler_address, "--to", rows], stdout=subprocess.PIPE)
            while ran.poll() is None and not rows_of(rows):
                time.sleep(0.05)
            self.assertLess(len(rows_of(rows)), SEEDS)
            with Client(cluster) as client:
                os.kill(next(iter(client.run(os.getpid).values())), signal.SIGKILL)
            out, _ = ran.communicate(timeout=600)
        whole = self.room / "whole.sqlite"
        alone = subprocess.run([*CALL, "--to", whole], stdout=subprocess.PIPE)
        self.assertEqual((ran.returncode, out), (alone.returncode, alone.stdout))
        self.assertEqual([it[0] for it in rows_of(rows)], list(range(SEEDS)))
        self.assertEqual(rows_of(rows), rows_of(whole))

    @has("hypothesis")
    def test_what_the_document_has_of_hypothesis(self):
        from hypothesis import settings

        # (on a busy machine runs take their time)
        settings.register_profile("patient", database=None, deadline=None)
        settings.load_profile("patient")
        text = (TOP / "docs" / "API.md").read_text()
        example = next(it for it in re.findall(r"(?ms)^```python\n(.*?)^```", text) if "strategies.network" in it)
        with patch.dict(sys.modules), self.assertRaises(AssertionError) as raised:
            os.chdir(TOP)
            names = {}
            exec(example, names)
            names["test_no_dose_is_given_twice"]()
        # (Hypothesis notes the simplest example that it found)
        acts = re.findall(r"Reading\(|Reset\(", "\n".join(raised.exception.__notes__))
        self.assertIn(len(acts), (3, 4))

    @has("hypothesis")
    def test_acts_of_an_attacker(self):
        import sancus
        from hypothesis import given, settings
        from sancus import strategies
        from sancus.campaign import Layout

        app = sancus.load(CAMPAIGN / "pump.toml")
        layout = Layout(app.deployment)

        @settings(max_examples=200, deadline=None, database=None)
        @given(strategies.acts(app))
        def test(acts):
            run = app.run(layout.lines(acts))
            self.assertTrue(run.explain())
            self.assertFalse(run.forged)

        test()


if __name__ == "__main__":
    unittest.main()
