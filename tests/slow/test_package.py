"""The wheels and the source distribution that tools/wheels.py makes, each installed into an environment of its own, without a connection."""

import importlib.util
import os
import shutil
import subprocess
import sys
import tempfile
import unittest
from pathlib import Path

from slow import EXAMPLES, SANCUS, TOOLS

CAN_MAKE = all(importlib.util.find_spec(it) for it in ("pip", "setuptools", "wheel"))
READINGS = EXAMPLES / "readings.txt"


def made(folder):
    folder.mkdir()
    subprocess.run([sys.executable, TOOLS / "wheels.py", folder], check=True)
    return sorted(folder.glob("*.whl"))


@unittest.skipUnless(CAN_MAKE, "a wheel is made by pip, setuptools and wheel, of which one isn't installed")
class Wheels(unittest.TestCase):
    @classmethod
    def setUpClass(cls):
        folder = tempfile.TemporaryDirectory()
        cls.addClassCleanup(folder.cleanup)
        cls.room = Path(folder.name)
        cls.anywhere, cls.native = made(cls.room / "wheels")

    def installed(self, file, *options):
        """The command of a wheel, or of what one is made of, in a new environment."""
        where = self.room / file.stem
        subprocess.run([sys.executable, "-m", "venv", *options, where], check=True)
        pip = [where / "bin" / "python", "-m", "pip", "--disable-pip-version-check"]
        subprocess.run([*pip, "install", "--quiet", "--no-index", "--no-build-isolation", file], check=True)
        return where / "bin" / "sancus"

    def call(self, command, *words, path=""):
        env = {**os.environ, "PATH": path, "XDG_CACHE_HOME": str(self.room / "cache")}
        env.pop("SANCUS_PROGRAM", None)
        ran = subprocess.run([command, *words], cwd=self.room, env=env, capture_output=True, text=True)
        return ran.returncode, ran.stdout, ran.stderr

    def test_names_say_where_they_run(self):
        tags = [it.stem.split("-", 2)[2] for it in (self.anywhere, self.native)]
        self.assertEqual(tags, ["py3-none-any", "py3-none-manylinux_2_34_x86_64"])

    def test_the_same_bytes_again(self):
        again = made(self.room / "again")
        self.assertEqual([it.read_bytes() for it in again], [it.read_bytes() for it in (self.anywhere, self.native)])

    def test_the_native_program(self):
        command = self.installed(self.native)
        here = subprocess.run([SANCUS, "drive", READINGS], capture_output=True, text=True)
        self.assertEqual(self.call(command, "drive", READINGS), (0, here.stdout, here.stderr))
        self.assertIn("build: the released build, sancus_run", self.call(command, "version")[1])
        status, _, said = self.call(command, "build")
        self.assertEqual(status, 125)
        self.assertIn("`sancus build` is for a clone", said)

    def test_a_source_distribution(self):
        (source,) = (self.room / "wheels").glob("*.tar.gz")
        # (setuptools and wheel, which make a wheel of it, are those that are here)
        command = self.installed(source, "--system-site-packages")
        here = subprocess.run([SANCUS, "drive", READINGS], capture_output=True, text=True)
        self.assertEqual(self.call(command, "drive", READINGS), (0, here.stdout, here.stderr))

    def test_webassembly_alone(self):
        command = self.installed(self.anywhere)
        status, _, said = self.call(command, "drive", READINGS)
        self.assertEqual(status, 125)
        self.assertIn("with node (18 or newer) or wasmtime on the path", said)
        node = shutil.which("node")
        if node:
            here = subprocess.run([SANCUS, "drive", READINGS], capture_output=True, text=True)
            status, out, said = self.call(command, "drive", READINGS, path=str(Path(node).parent))
            self.assertEqual((status, out), (0, here.stdout))
            self.assertIn("node runs sancus.wasm", said)


if __name__ == "__main__":
    unittest.main()
