"""Which build of the program is started: by sums, never by the times of files, which change with each copy and can be
set back.

1. The proved build of this checkout, crates/sancus_run/out/sancus_run, if the stamp beside it names the sources
   that are here and the build itself.
2. The released one, release/sancus_run, if its note, release/RELEASE, does, and it starts here.
3. release/sancus.wasm, which is made from that one, where it doesn't start, by a host on the path that runs it.
4. `rt try`: a build without its proof, made anew at each call.

An installed package has no sources: it starts the released build that it holds, or that one's WebAssembly.
tools/release.sh writes stamp and note, and defines the sum of the sources. What was chosen is kept (`kept`).
"""

from __future__ import annotations

import os

from sancus.kept import Build, Choosing, kept_choice
from sancus.records import dataclass
from sancus.status import NO_ANSWER, Ended

TYPE_CHECKING = False
if TYPE_CHECKING:
    from collections.abc import Iterator

SOURCES = (".rt", ".antt")
FIRST = ("crates.txt", "HANDLES")
# What runs sancus.wasm, each with the script that comes before that file.
HOSTS = (("node", "run.mjs"), ("wasmtime", ""))
# The package, and the folder in it that holds the program where it is installed.
PACKAGE = os.path.dirname(os.path.realpath(__file__))
INSTALLED = os.path.join(PACKAGE, "_program")


def machine() -> tuple[str, str]:
    """The system and the processor."""
    seen = os.uname()
    return seen.sysname, seen.machine


def found(command: str) -> str | None:
    """A command's path."""
    if os.path.isabs(command) and os.path.isfile(command) and os.access(command, os.X_OK):
        return command
    # (imported here, as hardly any call needs it; so below)
    from shutil import which

    return which(command)


def home() -> str:
    """The checkout of which this package is, or the folder in it that holds the program."""
    return INSTALLED if os.path.isdir(INSTALLED) else os.path.dirname(os.path.dirname(PACKAGE))


def sum_of(data: bytes) -> str:
    from hashlib import sha256

    return sha256(data).hexdigest()


def sum_of_file(path: str) -> str:
    try:
        with open(path, "rb") as file:
            return sum_of(file.read())
    except OSError:
        return ""


def text_of_file(path: str) -> str:
    try:
        with open(path, encoding="utf-8", errors="surrogateescape") as file:
            return file.read()
    except OSError:
        return ""


def answers(command: list[str]) -> bool:
    """Whether a build answers here."""
    import subprocess

    try:
        ran = subprocess.run([*command, "check"], input=b"%%\n", stdout=subprocess.PIPE, stderr=subprocess.DEVNULL)
    except OSError:
        return False
    return ran.stdout == b"end\n"


def that_exists(path: str) -> str:
    """The path, or the first folder above it that exists: it looks otherwise as soon as what is missing comes."""
    while not os.path.exists(path):
        path = os.path.dirname(path)
    return path


@dataclass
class Sources:
    """The sources below a folder, and their sum."""

    top: str

    def entries(self, folders: list[str]) -> Iterator[os.DirEntry[str]]:
        """The sources. The folders grow by all that are gone through."""
        folders.append(os.path.join(self.top, "crates"))
        for folder in folders:
            try:
                with os.scandir(folder) as found:
                    for it in found:
                        if it.name.endswith(SOURCES) and it.is_file(follow_symlinks=False):
                            yield it
                        elif it.name != "out" and it.is_dir(follow_symlinks=False):
                            folders.append(it.path)
            except OSError:
                continue

    def names(self) -> list[str]:
        """The sources by name, in the order of the sum."""
        cut = len(self.top) + 1
        return [*FIRST, *sorted((it.path[cut:] for it in self.entries([])), key=os.fsencode)]

    def lines(self) -> list[str]:
        """A line for each source, its sum and its name, of which the sum of the sources is made."""
        return [f"{sum_of_file(os.path.join(self.top, name))}  {name}" for name in self.names()]

    def sum(self) -> str:
        return sum_of("".join(f"{it}\n" for it in self.lines()).encode(errors="surrogateescape"))

    def places(self) -> list[str]:
        """All that their sum depends on: the sources, and the folders in which there may be others."""
        folders: list[str] = []
        files = [it.path for it in self.entries(folders)]
        return [*(os.path.join(self.top, it) for it in FIRST), *folders, *files]


def cache() -> str:
    """Where an installed package keeps what it found out."""
    return os.path.join(os.environ.get("XDG_CACHE_HOME") or os.path.expanduser("~/.cache"), "sancus")


@dataclass
class Builds:
    """The builds of one checkout, or of an installed package."""

    top: str
    program: str | None = None

    def __post_init__(self) -> None:
        self.top = os.fspath(self.top)
        self.crate = os.path.join(self.top, "crates", "sancus_run")
        self.built, self.stamp = (os.path.join(self.crate, "out", it) for it in ("sancus_run", "sancus_run.proved"))
        self.is_installed = self.top == INSTALLED
        release = self.top if self.is_installed else os.path.join(self.top, "release")
        self.released, self.wasm, self.note = (os.path.join(release, it) for it in ("sancus_run", "sancus.wasm", "RELEASE"))
        self.scripts = self.top if self.is_installed else os.path.join(self.top, "tools", "wasm")
        self.kept = os.path.join(cache() if self.is_installed else os.path.join(self.top, "out"), "choice.kept")
        self.sources = Sources(self.top)

    def choose(self) -> Build:
        """The build that is started."""
        if self.program:
            return Build(self.named_command(self.program), "named")
        return kept_choice(self.top, self.kept) or self.chosen()

    def chosen(self) -> Build:
        """The build that is started, by sums."""
        choosing = Choosing(self.top, self.places())
        reasons = []
        for choice in (self.installed,) if self.is_installed else (self.proved, self.by_release):
            build, why = choice()
            if build:
                choosing.keep(self.kept, build)
                return build
            reasons += why
        if self.is_installed:
            raise Ended(NO_ANSWER, *reasons)
        return self.tried(reasons)

    def places(self) -> list[bytes]:
        """All that the choice depends on."""
        builds = [self.released, self.wasm, self.note, *([] if self.is_installed else [self.built, self.stamp])]
        sources = [] if self.is_installed else self.sources.places()
        return [os.fsencode(that_exists(it)) for it in (*builds, *sources)]

    def named_command(self, program: str) -> list[str]:
        words = [program]
        if not os.path.exists(program):
            from shlex import split

            words = split(program)
        path = found(words[0]) if words else None
        if not path:
            raise Ended(NO_ANSWER, f"{program} is no program that can be started")
        return [os.path.abspath(path), *words[1:]]

    def proved(self) -> tuple[Build | None, list[str]]:
        if not os.access(self.built, os.X_OK):
            return None, []
        lines = text_of_file(self.stamp).split("\n")
        if lines[0] != f"sha256 {sum_of_file(self.built)}":
            return None, ["crates/sancus_run/out has a build, and no stamp says of which sources it is"]
        of = "\n".join(lines[1:])
        if sum_of(of.encode(errors="surrogateescape")) == self.sources.sum():
            return Build([self.built], "proved"), []
        first = self.first_that_differs(lines[1:])
        return None, [f"the proved build is of other sources: {first} differs"]

    def first_that_differs(self, lines: list[str]) -> str:
        """The first source that isn't as in these lines of sums and names."""
        then, now = ({it[66:]: it[:64] for it in rows if it} for rows in (lines, self.sources.lines()))
        return next((it for it in sorted({*then, *now}) if then.get(it) != now.get(it)), "their order")

    def notes_of_release(self) -> dict[str, str]:
        """The words of the release's note; none if it isn't as it was written, which its last line tells."""
        text = text_of_file(self.note)
        body, _, last = text.rstrip("\n").rpartition("\n")
        sum_ = sum_of((body + "\n").encode(errors="surrogateescape"))
        if not body or last != f"note {sum_}":
            return {}
        return dict(it.split(" ", 1) for it in body.split("\n") if " " in it)

    def installed(self) -> tuple[Build | None, list[str]]:
        """The released build that an installed package holds, or its WebAssembly alone."""
        noted = self.notes_of_release()
        if not noted:
            return None, ["the installed package is damaged: its note isn't as it was written"]
        if not os.path.isfile(self.released):
            return self.by_host(noted, "this package holds the program as WebAssembly")
        if noted["sha256"] != sum_of_file(self.released):
            return None, ["the installed package is damaged: its program isn't the one that its note names"]
        why = self.why_not_native(noted)
        return self.by_host(noted, why) if why else (Build([self.released], "released"), [])

    def by_release(self) -> tuple[Build | None, list[str]]:
        if not os.path.isfile(self.note) or not os.path.isfile(self.released):
            return None, []
        noted = self.notes_of_release()
        if noted.get("sha256") != sum_of_file(self.released):
            return None, [
                "release/sancus_run isn't the build that release/RELEASE names: `git checkout release` brings it back"
            ]
        if noted.get("sources") != self.sources.sum():
            first = self.changed_since_release()
            return None, ["the released build is of other sources" + (f": {first} differs" if first else "")]
        why = self.why_not_native(noted)
        return self.by_host(noted, why) if why else (Build([self.released], "released"), [])

    def why_not_native(self, noted: dict[str, str]) -> str:
        """Why the released build can't run here; nothing if it can."""
        system, processor = machine()
        if (system, processor) != ("Linux", "x86_64"):
            return f"the released build is for Linux on x86-64, and this is {system} on {processor}"
        if not os.access(self.released, os.X_OK):
            name = self.shown(self.released)
            return f"{name} has no right to be executed (`chmod +x {name}` gives it)"
        if not answers([self.released]):
            return f"the released build doesn't start here: it needs {noted.get('needs', 'another system')}"
        return ""

    def by_host(self, noted: dict[str, str], why: str) -> tuple[Build | None, list[str]]:
        """The released build as WebAssembly, by the first host that runs it."""
        if noted.get("wasm-of") != noted["sha256"] or noted.get("wasm-sha256") != sum_of_file(self.wasm):
            return None, [why, f"and {self.shown(self.wasm)} isn't the one that is made from it"]
        for name, script in HOSTS:
            path = found(name)
            command = [path or name, *([os.path.join(self.scripts, script)] if script else []), self.wasm]
            if path and answers(command):
                told = f"{why}; {name} runs {self.shown(self.wasm)}, which is made from it, and isn't proved itself"
                return Build(command, "hosted", [told]), []
        hosts = "node (18 or newer) or wasmtime"
        return None, [why, f"{self.shown(self.wasm)} would run in its place with {hosts} on the path"]

    def shown(self, path: str) -> str:
        """A file as people know it: in a checkout by its path from there."""
        return os.path.basename(path) if self.is_installed else os.path.relpath(path, self.top)

    def changed_since_release(self) -> str:
        """The first source that isn't as it was when the note was committed, as far as git tells."""
        where = ["crates.txt", "HANDLES", "crates/*.rt", "crates/*.antt"]
        commit = self.git("log", "-1", "--format=%H", "--", "release/RELEASE")
        if not commit:
            return ""
        changed = self.git("diff", "--name-only", commit, "--", *where).split("\n")
        changed += self.git("ls-files", "--others", "--exclude-standard", "--", *where[2:]).split("\n")
        return next((it for it in changed if it), "")

    def git(self, *words: str) -> str:
        import subprocess

        try:
            ran = subprocess.run(["git", "-C", self.top, *words], capture_output=True, text=True)
        except OSError:
            return ""
        return ran.stdout.strip() if ran.returncode == 0 else ""

    def tried(self, reasons: list[str]) -> Build:
        """A build without its proof."""
        if not found("rt"):
            told = reasons or ["there is no build of the program here"]
            raise Ended(
                NO_ANSWER,
                *told,
                "and the command `rt` of the Rattle kit, which makes a build, isn't on the path",
            )
        notes = [
            *reasons,
            "this build isn't proved: it is made anew at each call, in some three minutes, is some three hundred times",
            "slower, and shows its output at the end. `./sancus build` makes the proved one",
        ]
        return Build(["rt", "try"], "tried", notes)
