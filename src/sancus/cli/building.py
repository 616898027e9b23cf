"""Proves and builds the program by the kit's command rt, and tells how far that is."""

from __future__ import annotations

import os
import shutil
import subprocess
import time
from pathlib import Path
from typing import Dict, List, Tuple

from sancus.builds import Builds, sum_of_file
from sancus.cli.say import Voice
from sancus.model.numbers import number, within
from sancus.records import dataclass
from sancus.status import NO_ANSWER, Ended

# How often it is looked how far the build is, and how often that is said at least, in seconds.
LOOK_EVERY, SAY_EVERY = 5.0, 60.0
# How much memory a library's proof takes, in KiB.
ROOM_OF_ONE = 3_000_000


def below(crates: str, name: str) -> List[str]:
    """The libraries below a crate, by the lines of crates.txt."""
    uses: Dict[str, List[str]] = {}
    for line in crates.split("\n"):
        crate, _, words = line.partition(":")
        uses[crate.strip()] = words.split()
    found: List[str] = []
    left = uses.get(name, [])
    while left:
        it, left = left[0], left[1:]
        if it in uses and it not in found:
            found.append(it)
            left = left + uses[it]
    return found


def jobs_that_fit() -> int:
    """One job for each processor, as far as memory goes."""
    room = 1
    try:
        for line in Path("/proc/meminfo").read_text().split("\n"):
            if line.startswith("MemAvailable:"):
                room = int(line.split()[1]) // ROOM_OF_ONE
    except (OSError, ValueError):
        pass
    return max(1, min(len(os.sched_getaffinity(0)) if hasattr(os, "sched_getaffinity") else os.cpu_count() or 1, room))


@dataclass
class Progress:
    """How far a build is. rt removes the library of a crate before it proves the crate anew, and writes its stamp
    once it is proved."""

    top: Path
    names: List[str]
    voice: Voice
    begun: float
    shown: Tuple[int, str] = (-1, "")
    last: float = 0.0

    def look(self) -> None:
        proved, work = 0, ""
        for name in self.names:
            library = self.top / "crates" / name / "out" / "rlib"
            if (library / "stamp").exists():
                proved += 1
            elif library.is_dir():
                work += f" {name}"
        now = time.monotonic()
        if (proved, work) != self.shown or now - self.last >= SAY_EVERY:
            self.shown, self.last = (proved, work), now
            at_work = f"; at work:{work}" if work else ""
            self.voice.say(
                f"{proved} of {len(self.names)} crates below the program are proved, after "
                f"{now - self.begun:.0f} seconds{at_work}"
            )


def waited(command: List[str], folder: Path, text: bytes, progress: Progress) -> int:
    """Runs a command of rt, with what it says on standard error, and looks meanwhile how far it is."""
    process = subprocess.Popen(command, cwd=folder, stdin=subprocess.PIPE, stdout=2)
    assert process.stdin
    try:
        process.stdin.write(text)
        process.stdin.close()
    except BrokenPipeError:
        pass
    every = float(os.environ.get("SANCUS_LOOK", LOOK_EVERY))
    while True:
        try:
            return process.wait(every)
        except subprocess.TimeoutExpired:
            progress.look()


def write_stamp(builds: Builds) -> None:
    """Writes beside the program what it is and of which sources, in the form of tools/release.sh."""
    lines = [f"sha256 {sum_of_file(builds.built)}", *builds.sources.lines()]
    Path(builds.stamp).write_text("".join(f"{it}\n" for it in lines), errors="surrogateescape")


def build(builds: Builds, voice: Voice, jobs_word: str) -> int:
    """Proves libraries side by side, and the program after them."""
    if jobs_word and not within(jobs_word, 1, 1024):
        raise Ended(2, f"{jobs_word} is no number of jobs: 1 to 1,024")
    if not shutil.which("rt"):
        raise Ended(NO_ANSWER, "the command rt of the Rattle kit isn't on the path, and nothing is built without it")
    jobs = (number(jobs_word) or 1) if jobs_word else jobs_that_fit()
    begun = time.monotonic()
    voice.say(
        "proving the crates of the program and building it: from nothing up to an hour on four processors,",
        f"less if earlier proofs are kept; {jobs} at a time",
    )
    crates = Path(builds.top, "crates.txt").read_text()
    progress = Progress(Path(builds.top), below(crates, "sancus_run"), voice, begun)
    status = 0
    if jobs > 1:
        status = waited(["rt", "all", "check", "--jobs", str(jobs)], Path(builds.top, "crates"), b"", progress)
    if status == 0:
        # The program is run once, on an empty schedule.
        status = waited(["rt", "run", "--", "run"], Path(builds.crate), b"%%\n", progress)
    took = f"{time.monotonic() - begun:.0f} seconds"
    if status or not os.access(builds.built, os.X_OK):
        raise Ended(NO_ANSWER, f"not built, after {took}; the messages are above")
    write_stamp(builds)
    voice.say(f"proved and built in {took}: ./sancus starts this build until a source changes")
    return 0
