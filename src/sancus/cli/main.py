"""What each command does."""

from __future__ import annotations

import os
from typing import Callable, Dict, List, Optional, Sequence, Tuple

from sancus import __version__
from sancus.builds import Builds
from sancus.cli import commands
from sancus.cli.commands import BY_NAME, COMMANDS, EVERYWHERE, Command, Given, Usage
from sancus.cli.context import Context
from sancus.cli.output import print_lines, write
from sancus.cli.program import Program
from sancus.cli.say import Voice
from sancus.kept import Build
from sancus.model.shown import quoted
from sancus.model.toml import NoToml
from sancus.status import BAD_TEXT, INTERRUPTED, NO_ANSWER, USAGE, Ended

OUT_OF_MEMORY = 6


def schedule(context: Context, given: Given) -> int:
    from sancus.cli.people import answer

    return answer(context, given)


def marks(context: Context, given: Given) -> int:
    from sancus.cli.people import print_marked

    return print_marked(context, given)


def view(context: Context, given: Given) -> int:
    from sancus.cli.view import answer

    return answer(context, given)


def files_of(given: Given) -> List[str]:
    return [*given.texts("INPUT"), *given.texts("SCHEDULE")]


def variables(context: Context, given: Given) -> int:
    from sancus.cli.variables import answer

    return answer(context, given)


def steps(context: Context, given: Given) -> int:
    from sancus.cli.inspecting import inspected
    from sancus.model import stepping

    seen = inspected(files_of(given), given.has("drive"), context)
    print_lines(*stepping.told(seen, seen.line(given.text("LINE"))))
    return 0


def why(context: Context, given: Given) -> int:
    from sancus.cli.why import answer

    return answer(context, given)


def new(context: Context, given: Given) -> int:
    from sancus.cli.starting import answer

    return answer(context, given)


def place(context: Context, given: Given) -> int:
    from sancus.cli.placing import answer

    return answer(context, given)


def test(context: Context, given: Given) -> int:
    from sancus.cli.testing import answer

    return answer(context, given)


def campaign(context: Context, given: Given) -> int:
    from sancus.cli.campaign import answer

    return answer(context, given)


def watch(context: Context, given: Given) -> int:
    from sancus.cli.holds import watch

    return watch(context, given)


def holds(context: Context, given: Given) -> int:
    from sancus.cli.holds import holds

    return holds(context, given)


def fmt(context: Context, given: Given) -> int:
    from sancus.cli.formatting import answer

    return answer(context, given)


def live(context: Context, given: Given) -> int:
    from sancus.cli.live import answer

    return answer(context, given)


def lsp(context: Context, _given: Given) -> int:
    from sancus.cli.serving import answer

    return answer(context)


def hex_files(context: Context, given: Given) -> int:
    from sancus.cli.hexfiles import answer

    return answer(context, given)


def tag(context: Context, given: Given) -> int:
    from sancus.cli.tagging import answer

    return answer(context, given)


def goal(context: Context, given: Given) -> int:
    from sancus.cli.goals import answer

    return answer(context, given)


def build(context: Context, given: Given) -> int:
    if context.builds.is_installed:
        raise Ended(NO_ANSWER, "an installed package has no sources: `sancus build` is for a clone")
    from sancus.cli.building import build

    return build(context.builds, context.voice, given.text("jobs"))


def program_command(context: Context, given: Given) -> int:
    from sancus.cli.running import answer

    return answer(context, given)


def help_(_context: Context, given: Given) -> int:
    from sancus.cli import manual

    if given.has("man"):
        write(manual.man_page().encode())
    elif given.has("completion"):
        write(manual.completion().encode())
    elif given.text("COMMAND"):
        print_lines(*commands.help_of(known_command(given.text("COMMAND"))))
    else:
        print_lines(*commands.help_all())
    return 0


KINDS = {
    "proved": "the proved build, crates/sancus_run/out/sancus_run",
    "released": "the released build, release/sancus_run",
    "hosted": "the released build as WebAssembly, release/sancus.wasm",
    "named": "the program that is named",
    "tried": "none: each call makes one without its proof",
}


def said_by(*command: str) -> str:
    """The first line that a command prints, or nothing."""
    import subprocess

    try:
        ran = subprocess.run(command, capture_output=True, text=True, errors="replace")
    except OSError:
        return ""
    return ran.stdout.strip().partition("\n")[0] if ran.returncode == 0 else ""


def commit_of(top: str) -> str:
    return said_by("git", "-C", top, "describe", "--always", "--dirty", "--abbrev=12") or "unknown"


def kit_of(context: Context, chosen: Optional[Build]) -> str:
    """The kit of a build: of the released one as its note names it, else the one that is here."""
    noted = context.builds.notes_of_release().get("kit", "")
    if chosen and chosen.kind in ("released", "hosted"):
        return noted
    if chosen and chosen.kind in ("proved", "tried"):
        return said_by("rt", "version") or "unknown"
    return "unknown"


def version(context: Context, _given: Given) -> int:
    try:
        chosen: Optional[Build] = context.builds.choose()
    except Ended:
        chosen = None
    builds = context.builds
    kind = KINDS[chosen.kind] if chosen else "there is none here"
    sources = f"sources: {builds.notes_of_release().get('sources', 'unknown')}"
    print_lines(
        f"sancus {__version__}: Sancus applications, verified",
        f"build: {kind.replace('release/', '') if builds.is_installed else kind}",
        *([f"program: {' '.join(chosen.command)}"] if chosen else []),
        f"kit: {kit_of(context, chosen)}",
        sources if builds.is_installed else f"commit: {commit_of(context.top)}",
    )
    return 0


ANSWERS: Dict[str, Callable[[Context, Given], int]] = {
    "schedule": schedule,
    "marks": marks,
    "view": view,
    "vars": variables,
    "steps": steps,
    "why": why,
    "watch": watch,
    "holds": holds,
    "new": new,
    "place": place,
    "test": test,
    "fmt": fmt,
    "live": live,
    "lsp": lsp,
    "campaign": campaign,
    "hex": hex_files,
    "tag": tag,
    "goal": goal,
    "build": build,
    "version": version,
    "help": help_,
}


def known_command(name: str) -> Command:
    if name not in BY_NAME and os.path.exists(name):
        raise Usage(f"{name} is a file, and a command comes first: `sancus run {quoted(name)}`")
    if name not in BY_NAME:
        raise Usage(f"there is no command `{name}`{commands.did_you_mean(name, list(BY_NAME))}")
    return BY_NAME[name]


def before_the_command(call: Sequence[str]) -> Tuple[List[str], List[str]]:
    """The options before the command, and the rest."""
    options, left = [], list(call)
    while left and left[0].startswith("-") and left[0] != "-":
        it = left.pop(0)
        options.append(it)
        if it == "--program" and left:
            options.append(left.pop(0))
    return options, left


def taken_apart(call: Sequence[str]) -> Given:
    """The command of a call, with its arguments and options."""
    options, left = before_the_command(call)
    if "--version" in options or "-V" in options:
        return Given(BY_NAME["version"])
    if "--help" in options or "-h" in options:
        return Given(BY_NAME["help"])
    if not left:
        known = [name for it in EVERYWHERE for name in (it.name, it.short) if name] + ["--version", "-V"]
        named = [it for at, it in enumerate(options) if at == 0 or options[at - 1] != "--program"]
        unknown = next((it for it in named if it.partition("=")[0] not in known), None)
        if unknown:
            raise Usage(f"there is no option {unknown}{commands.did_you_mean(unknown, known)}")
        raise Usage("a command is missing")
    return commands.parse(known_command(left[0]), [*options, *left[1:]])


def tell_usage(error: Usage, voice: Voice) -> int:
    """Says what is wrong with the words. If they might be the program's, its own answer to them goes to standard
    output."""
    lines = [error.what]
    if error.command:
        lines.append(f"usage: {error.command.usage()}")
        lines.append(f"`sancus {error.command.name} --help` says more")
    else:
        lines.append(f"the commands are: {' '.join(it.name for it in COMMANDS)}")
        lines.append("`sancus help` says what each does")
    voice.must_say(*lines)
    if not error.command or error.command.is_programs:
        print_lines("fault usage")
    return USAGE


def waiting(given: Given) -> List[str]:
    """What is to be typed, if the command reads a terminal, which would else be silent."""
    files = [it for it in given.command.arguments if it.is_file]
    named = [it.name for it in files if "-" in given.texts(it.name)]
    first = files[0] if files and "absent or -" in files[0].says else None
    if not os.isatty(0) or not (named or first and not given.texts(first.name)):
        return []
    typed = given.command.typed if first and (named or [first.name])[0] == first.name else named[0]
    typed = {"ARGUMENT": "the file"}.get(typed, typed)
    return [f"type {typed}; Ctrl-D ends it, and Ctrl-C leaves"]


def answer(call: Sequence[str], top: str, voice: Voice) -> int:
    given = taken_apart(call)
    voice.is_quiet = given.has("quiet")
    if given.has("help"):
        print_lines(*commands.help_of(given.command))
        return 0
    builds = Builds(top, given.text("program") or os.environ.get("SANCUS_PROGRAM"))
    context = Context(top, voice, builds, Program(builds, voice))
    voice.say(*waiting(given))
    return ANSWERS.get(given.command.name, program_command)(context, given)


def run(call: Sequence[str], top: str) -> int:
    """Answers a call, and returns the status to end with. Whatever happens, it is said in a line."""
    voice = Voice()
    try:
        try:
            return answer(call, top, voice)
        except Usage as error:
            return tell_usage(error, voice)
    except Ended as error:
        voice.must_say(*error.lines)
        return error.status
    except NoToml as error:
        voice.must_say(f"the deployment is no TOML 1.0, so its sources aren't read: {error}")
        return BAD_TEXT
    except KeyboardInterrupt:
        return INTERRUPTED
    except MemoryError:
        voice.must_say("memory ran out in the front end")
        return OUT_OF_MEMORY
    except Exception as error:  # noqa: BLE001 (a person is told in a line, and may ask for more)
        if os.environ.get("SANCUS_TRACEBACK"):
            raise
        voice.must_say(
            f"a mistake of the front end itself: {type(error).__name__}: {error}; SANCUS_TRACEBACK=1 shows where"
        )
        return NO_ANSWER
