#!/usr/bin/env python3
"""Runs what the documents show, and compares.

    python3 tests/slow/test_documents.py [FILE..]     the documents and the examples, if none is named

Each document is tried in a folder of its own, with ./sancus, the examples and the tools as in the repository. The words
after the three backquotes say what a fenced block is:

    console              a line `$ COMMAND` is run by bash; what it writes on standard output is the lines up to the
                         next one. A line `...` means any number of lines, and a line that ends in `..` for any
                         line that begins so
    console needs=NAME   the same, if the command NAME is installed; else it is passed over
    LANGUAGE file=NAME   the block is written to this file
    LANGUAGE add=NAME    it is appended to this file
    text beside=NAME     three columns, that begin where those of the first row do: a line of this schedule, an item of
                         its run, a remark. Lines and items have this order in the schedule and in what is written

    LANGUAGE in=NAME     the block is in this file, whatever the spaces

What else a block holds isn't looked at. Each link to a file of the repository, or to a heading of one, must lead there, and
each path in a crate between backquotes must be that of a file or a folder, as of `spec_run/specs/Run.antt`, which
may be written without its ending.

Of an example the run must end well, and show each item that its first lines name between backquotes; it is one of `drive`,
for the readings of an example whose first line names `./sancus drive`.
"""

import itertools
import re
import shutil
import subprocess
import sys
import tempfile
import unittest
from concurrent.futures import ThreadPoolExecutor
from pathlib import Path

from slow import EXAMPLES, TOP, needs_program

from sancus.model.items import ITEMS

# The front end's own statuses if it gets no answer from the program, and bash's if there is no such command.
NO_ANSWER = (121, 122, 125, 126, 127)


def blocks(text):
    """The fenced blocks of a document: number of the first line, words after the backquotes, lines."""
    found, start, info, lines = [], 0, "", []
    for number, line in enumerate(text.splitlines(), 1):
        if line.startswith("```") and not start:
            start, info, lines = number, line[3:], []
        elif line.startswith("```"):
            found.append((start, info.split(), lines))
            start = 0
        elif start:
            lines.append(line)
    if start:
        raise SystemExit(f"the block that begins at line {start} has no end")
    return found


def option(words, name):
    """The value of a word `name=VALUE`, or none."""
    return next((word.partition("=")[2] for word in words if word.startswith(name + "=")), None)


def commands(lines):
    """The commands of a console block, each with the lines that it must write."""
    found = []
    for line in lines:
        if line.startswith("$ "):
            found.append((line[2:], []))
        elif found and found[-1][0].endswith("\\"):
            found[-1] = (found[-1][0] + "\n" + line, [])
        elif found:
            found[-1][1].append(line)
    return found


def line_fits(wanted, line):
    return line.startswith(wanted[:-2]) if wanted.endswith("..") else line == wanted


def fits(wanted, lines):
    """Whether these lines are those that are wanted, `...` being any number of lines."""
    if not wanted:
        return not lines
    if wanted[0] == "...":
        return any(fits(wanted[1:], lines[start:]) for start in range(len(lines) + 1))
    return bool(lines) and line_fits(wanted[0], lines[0]) and fits(wanted[1:], lines[1:])


def anchors(text):
    """The names that GitHub gives the headings, a number after one that came before."""
    found = []
    for heading in re.findall(r"^#+ (.*)$", text, re.MULTILINE):
        name = re.sub(r"[^\w\- ]", "", heading.lower()).replace(" ", "-")
        before = sum(1 for other in found if re.fullmatch(re.escape(name) + r"(-\d+)?", other))
        found.append(f"{name}-{before}" if before else name)
    return found


def bad_links(document):
    """The links of a document that lead nowhere."""
    text = re.sub(r"^```.*?^```", "", document.read_text(), flags=re.MULTILINE | re.DOTALL)
    found = []
    for link in re.findall(r"\]\(([^)]+)\)", text):
        name, _, anchor = link.partition("#")
        file = document.parent / name if name else document
        if "://" in link:
            continue
        if not file.exists() or (anchor and anchor not in anchors(file.read_text())):
            found.append(link)
    return found


def is_there(path):
    """Whether a path in a crate is a file, also without its ending, or a folder."""
    whole = TOP / "crates" / path.removeprefix("crates/")
    return whole.exists() or any(Path(f"{whole}{ending}").exists() for ending in (".antt", ".rt"))


def bad_paths(document):
    """The paths in crates that a document names and that aren't there."""
    text = re.sub(r"^```.*?^```", "", document.read_text(), flags=re.MULTILINE | re.DOTALL)
    crates = "|".join(it.name for it in (TOP / "crates").iterdir() if it.is_dir())
    paths = re.findall(rf"`((?:crates/)?(?:{crates})/(?:src|specs|proofs|must-fail)(?:/[\w.+-]+)*/?)", text)
    return [path for path in paths if not is_there(path.rstrip("/"))]


def bash(command, room):
    return subprocess.run(["bash", "-c", command], cwd=room, capture_output=True, text=True, stdin=subprocess.DEVNULL)


def try_command(command, wanted, room):
    """What is wrong with a command, or none."""
    ran = bash(command, room)
    lines = ran.stdout.splitlines()
    if ran.returncode in NO_ANSWER:
        return f"status {ran.returncode}: {ran.stderr}"
    if not fits(wanted, lines):
        return "it writes\n    " + "\n    ".join(lines)
    return None


def stand_in_order(wanted, lines):
    """The first of these that isn't found in the lines after the one before it, or none."""
    at = 0
    for one in wanted:
        while at < len(lines) and lines[at] != one:
            at += 1
        if at == len(lines):
            return one
        at += 1
    return None


def try_beside(schedule, lines, room):
    """What is wrong with a table of a schedule's lines and its items, or none."""
    second, third = (match.start() for match in list(re.finditer(r"(?<=  )[^ ]", lines[0]))[:2])
    rows = [(line[:second].strip(), line[second:third].strip()) for line in lines]
    rows = [row for row in rows if row != ("...", "...")]
    said = (room / schedule).read_text().splitlines()
    missing = stand_in_order([row[0] for row in rows if row[0]], said)
    if missing:
        return f"{schedule} has no line '{missing}' there"
    ran = bash(f"./sancus run {schedule}", room)
    missing = stand_in_order([row[1] for row in rows if row[1]], ran.stdout.splitlines())
    return f"the run writes no item '{missing}' there" if missing else None


def try_quoted(file, lines):
    """What is wrong with lines that a file is said to have, or none."""
    if not file.exists():
        return f"there is no {file.name}"
    said = " ".join(file.read_text().split())
    return None if " ".join(" ".join(lines).split()) in said else f"{file.name} has no such lines"


def try_console(words, lines, room, say):
    needed = option(words, "needs")
    if needed and not shutil.which(needed):
        say(f"passed over: {needed} isn't installed")
        return 0
    failed = 0
    for command, wanted in commands(lines):
        wrong = try_command(command, wanted, room)
        first = command.splitlines()[0]
        say(f"FAILED: {command}\n  {wrong}" if wrong else f"ok: {first}")
        failed += bool(wrong)
    return failed


def try_block(words, lines, room, say):
    """Does what a block is for, and counts what failed."""
    if words[:1] == ["console"]:
        return try_console(words, lines, room, say)
    for name, how in (("file", "w"), ("add", "a")):
        file = option(words, name)
        if file:
            with open(room / file, how) as it:
                it.write("\n".join(lines) + "\n")
    file, schedule = option(words, "in"), option(words, "beside")
    wrong = try_quoted(room / file, lines) if file else None
    if schedule:
        wrong = try_beside(schedule, lines, room)
    if wrong or file or schedule:
        say(f"FAILED: {wrong}" if wrong else f"ok: {words[-1]}")
    return bool(wrong)


def command_of(example):
    """The command that an example is for."""
    return "drive" if "`./sancus drive`" in example.read_text().partition("\n")[0] else "run"


def named_items(text):
    """The items that the first lines of an example name."""
    lines = itertools.takewhile(lambda line: line.startswith("# "), text.splitlines())
    names = re.findall(r"`([^`]+)`", " ".join(line[2:] for line in lines))
    return [name for name in names if name.split()[0] in ITEMS]


def try_example(file, room):
    """What is wrong with an example, or none."""
    ran = bash(f"./sancus {command_of(file)} {file}", room)
    lines = ran.stdout.splitlines()
    if ran.returncode != 0:
        return f"status {ran.returncode}: {lines[-1:]} {ran.stderr}"
    missing = [name for name in named_items(file.read_text()) if not any(line.startswith(name) for line in lines)]
    return f"no item {missing} is written" if missing else None


def make_room(room):
    """A folder in which the document's commands find what they name."""
    for name in "sancus release examples tools tests docs bench crates crates.txt wrong-bodies wrong-systems".split():
        (room / name).symlink_to(TOP / name)


def try_document(document):
    """What trying a document says, and how many of its commands failed."""
    said = []
    if document.suffix == ".md":
        said += [f"{document.name}: FAILED: the link {link} leads nowhere" for link in bad_links(document)]
        said += [f"{document.name}: FAILED: there is no {path}" for path in bad_paths(document)]
    failed = len(said)
    with tempfile.TemporaryDirectory() as folder:
        room = Path(folder)
        make_room(room)
        if document.suffix == ".txt":
            wrong = try_example(document.resolve(), room)
            return [f"{document.name}: " + (f"FAILED: {wrong}" if wrong else "ok")], bool(wrong)
        for start, words, lines in blocks(document.read_text()):
            block = []
            failed += try_block(words, lines, room, block.append)
            said += [f"{document.name}:{start}: {what}" for what in block]
    return said, failed


def every_document():
    attacks = sorted((EXAMPLES / "attacks").glob("*.txt"))
    parking = EXAMPLES / "parking" / "README.md"
    return [TOP / "README.md", TOP / "crates" / "README.md", parking, *sorted((TOP / "docs").glob("*.md")), *sorted(EXAMPLES.glob("*.txt")), *attacks]


def tried(documents):
    """The lines about each document, and how many of its commands failed."""
    with ThreadPoolExecutor() as pool:
        yield from zip(documents, pool.map(try_document, documents))


@needs_program
class Documents(unittest.TestCase):
    def test_all(self):
        for document, (said, failed) in tried(every_document()):
            with self.subTest(document=document.name):
                self.assertEqual(failed, 0, "\n".join(it for it in said if "FAILED" in it))

    def test_the_first_commands(self):
        """The README begins with a run, which is tried, and with the tests and the gate, which take longer and need only be there."""
        run, tests, gate = (line.partition("#")[0] for line in blocks((TOP / "README.md").read_text())[0][2])
        self.assertEqual(bash(run, TOP).returncode, 0)
        self.assertEqual(bash(f"{tests} -k no_such_test 2>&1 | grep -c ImportError", TOP).stdout, "0\n")
        self.assertEqual(bash(f"test -x {gate}", TOP).returncode, 0)

    def test_the_lines_to_believe(self):
        last = bash("python3 tools/believed.py | tail -n 1", TOP).stdout.strip()
        self.assertIn(f"`{last}`", (TOP / "README.md").read_text())


def main(names):
    failed = 0
    for _, (said, wrong) in tried([Path(it) for it in names]):
        print("\n".join(said), flush=True)
        failed += wrong
    print(f"{failed} failed")
    sys.exit(failed > 0)


if __name__ == "__main__":
    if sys.argv[1:] and not sys.argv[1].startswith("-"):
        main(sys.argv[1:])
    unittest.main()
