#!/usr/bin/env python3
"""Makes the package's two wheels, one with the released program for Linux on x86-64 and one with its WebAssembly for any system, and its source
distribution, of which pip makes the one or the other.

    tools/wheels.py FOLDER      writes them there; the same sources give the same bytes of a wheel

It needs pip, setuptools and wheel, and no connection.
"""

import os
import shutil
import subprocess
import sys
import tempfile
from pathlib import Path

TOP = Path(__file__).resolve().parent.parent
FILES = ("pyproject.toml", "setup.py", "MANIFEST.in", "README.md")
FOLDERS = ("src", "release", "tools/wasm")
PIP = (sys.executable, "-m", "pip", "--disable-pip-version-check", "wheel", "--quiet", "--no-deps", "--no-index", "--no-build-isolation")
SOURCE = (sys.executable, "-W", "ignore", "-c", "import sys; from setuptools import build_meta; build_meta.build_sdist(sys.argv[1])")
# A wheel is a zip file, which has no time before this one.
FIRST_TIME = "315532800"


def copied(to):
    """The sources in a folder of their own, in which nothing of an earlier build is left."""
    for name in FILES:
        shutil.copy(TOP / name, to)
    for name in FOLDERS:
        shutil.copytree(TOP / name, to / name, ignore=shutil.ignore_patterns("__pycache__", "*.egg-info"))


def make_wheel(folder, which):
    with tempfile.TemporaryDirectory() as name:
        copied(Path(name))
        env = {**os.environ, "SANCUS_WHEEL": which, "SOURCE_DATE_EPOCH": FIRST_TIME}
        subprocess.run([*PIP, "--wheel-dir", str(folder), name], check=True, env=env)


def make_source(folder):
    with tempfile.TemporaryDirectory() as name:
        copied(Path(name))
        subprocess.run([*SOURCE, str(folder)], check=True, cwd=name, stdout=subprocess.DEVNULL)


def main():
    if len(sys.argv) != 2:
        sys.exit(__doc__)
    folder = Path(sys.argv[1]).resolve()
    for which in ("native", "any"):
        make_wheel(folder, which)
    make_source(folder)


if __name__ == "__main__":
    main()
