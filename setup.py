"""What a wheel holds beside the package: the released program, in `sancus/_program`.

A wheel for Linux on x86-64 has the native build and its WebAssembly; SANCUS_WHEEL=any makes one of the WebAssembly alone, which `node` or `wasmtime`
runs on any system.
"""

import os
import platform
import shutil
from pathlib import Path

from setuptools import setup
from setuptools.command.build_py import build_py

try:
    from setuptools.command.bdist_wheel import bdist_wheel
except ImportError:
    from wheel.bdist_wheel import bdist_wheel

TOP = Path(__file__).resolve().parent
# The C library that the native build needs, as release/RELEASE has it.
LIBRARY = (2, 34)
NATIVE = "release/sancus_run"
ANYWHERE = ("release/sancus.wasm", "release/RELEASE", "tools/wasm/run.mjs", "tools/wasm/host.js")


def runs_here():
    """Whether the native build runs on this system."""
    name, version = platform.libc_ver()
    is_new = name == "glibc" and tuple(int(it) for it in version.split(".")[:2]) >= LIBRARY
    return is_new and (platform.system(), platform.machine()) == ("Linux", "x86_64")


WANTED = os.environ.get("SANCUS_WHEEL") or ("native" if runs_here() else "any")
TAG = "any" if WANTED == "any" else "manylinux_{}_{}_x86_64".format(*LIBRARY)


class WithProgram(build_py):
    """Copies the program into the package, but for an editable one, which has it in release/."""

    def run(self):
        super().run()
        if self.editable_mode:
            return
        folder = Path(self.build_lib, "sancus", "_program")
        shutil.rmtree(folder, ignore_errors=True)
        folder.mkdir(parents=True)
        for name in (*ANYWHERE, *([] if TAG == "any" else [NATIVE])):
            shutil.copy(TOP / name, folder)


class Tagged(bdist_wheel):
    """Tags the wheel by what it holds: any Python 3 runs it."""

    def get_tag(self):
        return "py3", "none", TAG


setup(cmdclass={"build_py": WithProgram, "bdist_wheel": Tagged})
