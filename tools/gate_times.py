#!/usr/bin/env python3
"""Tells when each crate's proof, its tests and its wrong bodies began and ended in a run of `rt ci`, and what they took.

    tools/gate_times.py run [--times FILE] [--every SECONDS] [-- WORDS..]       starts `rt ci WORDS` here and follows it
    tools/gate_times.py watch PROCESS [--times FILE] [--every SECONDS]          follows an `rt ci` that runs already
    tools/gate_times.py table FILE                                              prints the table of a file of times

It looks at the processes below rt every few seconds (/proc, so on Linux), and proves nothing itself. What ends between
two looks is counted up to the last one, so shorter times are a little too small. The file of times is written anew at
each look: a run that is ended early leaves what was seen.
"""

import argparse
import json
import os
import subprocess
import sys
import threading
import time
from pathlib import Path

TICKS = os.sysconf("SC_CLK_TCK")
PARTS = ("proof", "tests", "wrong bodies")
# The words with which rt calls the prover.
PROVERS = ("build", "check")


def read(path):
    """The bytes of a file of /proc, empty where its process has ended."""
    try:
        return Path(path).read_bytes()
    except OSError:
        return b""


def stat_of(process):
    """(parent, seconds of processor, seconds at which it was started) of a process, or None where it has ended."""
    fields = read(f"/proc/{process}/stat").rpartition(b")")[2].split()
    if len(fields) < 20 or fields[0] in (b"Z", b"X"):
        return None
    # user and system time, with those of children that were waited for
    used = sum(int(it) for it in fields[11:15]) / TICKS
    return int(fields[1]), used, int(fields[19]) / TICKS


def now():
    """Seconds by the clock of stat_of: since the machine was started."""
    return float(read("/proc/uptime").split()[0])


def below(root):
    """The processes below one, with their processor time and start."""
    found = {int(it): stat_of(it) for it in os.listdir("/proc") if it.isdigit()}
    children = {}
    for process, stat in found.items():
        if stat:
            children.setdefault(stat[0], []).append(process)
    left, seen = [root], {}
    while left:
        for child in children.get(left.pop(), []):
            seen[child] = found[child]
            left.append(child)
    return seen


def work_of(process):
    """(crate, part, whether it tries an edit) of a process of the prover, or None for any other process."""
    words = [it.decode(errors="replace") for it in read(f"/proc/{process}/cmdline").split(b"\0")]
    named = words.index("--crate-name") if "--crate-name" in words else 0
    if not named or words[named - 1] not in PROVERS:
        return None
    crate = words[named + 1]
    try:
        folder = os.readlink(f"/proc/{process}/cwd")
    except OSError:
        return None
    if "--test" in words:
        return crate, "tests", False
    # A wrong body is tried in a copy of the crate's files, in a folder with another name.
    if os.path.basename(folder) == crate:
        return crate, "proof", False
    kept = words[words.index("--incremental") + 1] if "--incremental" in words else ""
    return crate, "wrong bodies", os.path.basename(kept) != "seed"


class Times:
    """What was seen: for each crate and part, when it began and ended, processor time, and how many edits were tried."""

    def __init__(self, root, file):
        self.root, self.file = root, file
        self.begun = stat_of(root)[2]
        self.seen = {}

    def look(self):
        moment = now() - self.begun
        for process, (_, used, started) in below(self.root).items():
            key = f"{process} {started}"
            if key not in self.seen:
                work = work_of(process)
                if not work:
                    continue
                crate, part, is_edit = work
                self.seen[key] = {"crate": crate, "part": part, "edit": is_edit, "begun": started - self.begun}
            self.seen[key] |= {"ended": moment, "used": used}

    def write(self, status=None):
        whole = {"seconds": now() - self.begun, "status": status}
        text = json.dumps(whole | {"seen": list(self.seen.values())}, indent=0)
        part = f"{self.file}.part"
        Path(part).write_text(text + "\n")
        os.replace(part, self.file)

    def follow(self, is_running, every):
        while is_running():
            self.look()
            self.write()
            time.sleep(every)


def clock(seconds):
    minutes = int(seconds) // 60
    return f"{minutes // 60}:{minutes % 60:02}"


def span(rows):
    """When these began and ended, and their minutes of processor, as a cell of the table."""
    if not rows:
        return "-"
    begun, ended = min(it["begun"] for it in rows), max(it["ended"] for it in rows)
    tried = sum(it["edit"] for it in rows)
    used = f"{sum(it['used'] for it in rows) / 60:.1f}"
    return f"{clock(begun)} to {clock(ended)}, {used}" + (f", {tried} tried" if tried else "")


def table(times):
    """The lines of the table, crates in the order in which their proofs began."""
    crates = {}
    for row in times["seen"]:
        crates.setdefault(row["crate"], []).append(row)
    lines = ["| | proof | tests | wrong bodies |", "|---|---|---|---|"]
    for crate, rows in sorted(crates.items(), key=lambda item: min(it["begun"] for it in item[1])):
        cells = [span([it for it in rows if it["part"] == part]) for part in PARTS]
        lines.append(f"| {crate} | " + " | ".join(cells) + " |")
    used = {part: sum(it["used"] for it in times["seen"] if it["part"] == part) / 60 for part in PARTS}
    lines.append("")
    lines.append(
        f"Times are hours and minutes since the start, then minutes of a processor. In all {times['seconds'] / 60:.0f} minutes, "
        f"and {sum(used.values()):.0f} of a processor: "
        + ", ".join(f"{part} {it:.0f}" for part, it in used.items())
        + "."
    )
    return lines


def echo(stream):
    """Hands on what rt writes, and puts the time since the start before its own lines."""
    begun = time.time()
    for line in stream:
        own = f"[{clock(time.time() - begun)}] " if line.startswith("rt: ") else ""
        sys.stderr.write(own + line)
        sys.stderr.flush()


def run(given):
    child = subprocess.Popen(
        ["rt", "ci", *given.words], stdout=subprocess.PIPE, stderr=subprocess.STDOUT, text=True, errors="replace"
    )
    told = threading.Thread(target=echo, args=(child.stdout,), daemon=True)
    told.start()
    times = Times(child.pid, given.times)
    times.follow(lambda: child.poll() is None, given.every)
    times.write(child.returncode)
    told.join(10)
    print("\n".join(table(json.loads(Path(given.times).read_text()))))
    return child.returncode


def watch(given):
    if not stat_of(given.process):
        sys.exit(f"gate_times: there is no process {given.process}")
    started = stat_of(given.process)[2]
    times = Times(given.process, given.times)
    times.follow(lambda: (stat_of(given.process) or (0, 0, 0))[2] == started, given.every)
    times.write()
    print("\n".join(table(json.loads(Path(given.times).read_text()))))
    return 0


def show(given):
    print("\n".join(table(json.loads(Path(given.file).read_text()))))
    return 0


def words():
    parser = argparse.ArgumentParser(description=__doc__, formatter_class=argparse.RawDescriptionHelpFormatter)
    verbs = parser.add_subparsers(required=True)
    for name, call, help_text in (("run", run, "starts rt ci"), ("watch", watch, "follows one that runs")):
        verb = verbs.add_parser(name, help=help_text)
        verb.add_argument("--times", default="gate-times.json", help="the file of times")
        verb.add_argument("--every", type=float, default=2, help="seconds between two looks")
        verb.set_defaults(call=call)
        if name == "watch":
            verb.add_argument("process", type=int, help="the number of the process rt ci")
        else:
            verb.add_argument("words", nargs="*", help="words for rt ci; one such as --anew comes after --")
    verb = verbs.add_parser("table", help="prints the table of a file of times")
    verb.add_argument("file")
    verb.set_defaults(call=show)
    return parser.parse_args()


if __name__ == "__main__":
    given = words()
    sys.exit(given.call(given))
