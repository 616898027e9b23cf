#!/usr/bin/env python3
"""Refuses memory to the program from its n-th allocation on, for each n in turn.

Each run must end with status 6, and what it wrote must be a prefix of what it writes with memory enough. Beside it, the
n-th allocation alone is refused: the run then ends with status 6, or as if nothing had been refused, where a vector
that is filled from an iterator asked for room by the iterator's hint, and then again for one element.

    tools/refuse_memory.py [PROGRAM]      the proved program; needs a C compiler, and isn't a part of the gate
"""

import os
import subprocess
import sys
import tempfile
from pathlib import Path

TOP = Path(__file__).resolve().parent.parent

SHIM = r"""
#define _GNU_SOURCE
#include <dlfcn.h>
#include <errno.h>
#include <stdlib.h>

static long calls;

static int is_refused(void) {
  const char *from = getenv("REFUSE_FROM"), *only = getenv("REFUSE_ONLY");
  calls++;
  if ((from && calls >= atol(from)) || (only && calls == atol(only))) {
    errno = ENOMEM;
    return 1;
  }
  return 0;
}

void *malloc(size_t size) {
  static void *(*real)(size_t);
  if (!real) real = dlsym(RTLD_NEXT, "malloc");
  return is_refused() ? NULL : real(size);
}

void *realloc(void *old, size_t size) {
  static void *(*real)(void *, size_t);
  if (!real) real = dlsym(RTLD_NEXT, "realloc");
  return is_refused() ? NULL : real(old, size);
}

int posix_memalign(void **to, size_t alignment, size_t size) {
  static int (*real)(void **, size_t, size_t);
  if (!real) real = dlsym(RTLD_NEXT, "posix_memalign");
  return is_refused() ? ENOMEM : real(to, alignment, size);
}

__attribute__((destructor)) static void tell(void) {
  const char *to = getenv("REFUSE_COUNT");
  if (to) {
    extern int dprintf(int, const char *, ...);
    dprintf(2, "%ld", calls);
  }
}
"""

LIGHTING = (TOP / "examples/lighting.txt").read_bytes()
# A schedule after the deployment, and a query of each kind.
QUERIES = b"load logic\nreset a\n%%\nitems 2\nitems 1\nbytes a 0x6000 2 2\nregs a 1\nitems 3\n"

LISTED = b"here: mov #9, &0x1000\nxor.b #1, &0x306\njmp here\n"

CASES = [
    (["run"], LIGHTING),
    (["drive"], LIGHTING.partition(b"%%\n")[0] + b"%%\nlight 120\n"),
    (["check"], LIGHTING),
    (["describe"], LIGHTING),
    (["snap"], LIGHTING.partition(b"%%\n")[0] + b"%%\n" + QUERIES),
    (["lines"], LIGHTING),
    (["batch"], LIGHTING + b"%%\nsense light 120\ncall eye 3 0x300 0x400\n%%\nfly\nreset a\n"),
    (["gen", "4"], b""),
    (["asm", "0x4000"], LISTED),
    (["dis", "0x4000"], b"26453040000000a0\n"),
]


def main():
    program = sys.argv[1] if len(sys.argv) > 1 else str(TOP / "crates/sancus_run/out/sancus_run")
    wrong = 0
    with tempfile.TemporaryDirectory() as room:
        shim = Path(room) / "shim.so"
        subprocess.run(["cc", "-shared", "-fPIC", "-O1", "-x", "c", "-", "-o", shim, "-ldl"],
                       input=SHIM.encode(), check=True)

        def run(words, text, **refuse):
            env = {"LD_PRELOAD": str(shim), **{name: str(value) for name, value in refuse.items()}}
            return subprocess.run([program, *words], input=text, capture_output=True, env={**os.environ, **env})

        for words, text in CASES:
            whole = run(words, text, REFUSE_COUNT=1)
            calls, again = int(whole.stderr), 0
            for n in range(1, calls + 1):
                ended = run(words, text, REFUSE_FROM=n)
                once = run(words, text, REFUSE_ONLY=n)
                is_whole = (once.returncode, once.stdout) == (whole.returncode, whole.stdout)
                again += is_whole
                is_right = ended.returncode == 6 and whole.stdout.startswith(ended.stdout)
                is_right = is_right and (is_whole or once.returncode == 6 and whole.stdout.startswith(once.stdout))
                if not is_right:
                    wrong += 1
                    print(f"WRONG: {' '.join(words)}, allocation {n}: status {ended.returncode}, once {once.returncode}")
            print(f"{' '.join(words)}: {calls} allocations; status 6 where memory ends at any of them; "
                  f"{again} are asked again where they alone are refused")
    sys.exit(1 if wrong else 0)


main()
