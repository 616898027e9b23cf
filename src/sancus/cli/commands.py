"""The commands: what each takes, does and is good for. Parser, help, man page and completion are made of this table."""

from __future__ import annotations

import argparse
import re
from typing import Dict, List, NoReturn, Optional, Sequence, Tuple

from sancus.records import dataclass, field
from sancus.status import USAGE

ONE, MAYBE, MANY = None, "?", "*"


@dataclass(frozen=True)
class Argument:
    """An argument: how many there may be, and what it is."""

    name: str
    count: Optional[str]
    says: str
    is_file: bool = True

    def shown(self) -> str:
        return {ONE: self.name, MAYBE: f"[{self.name}]", MANY: f"[{self.name} ..]"}[self.count]


@dataclass(frozen=True)
class Option:
    """An option, with the name of its value if it takes one."""

    name: str
    says: str
    value: str = ""
    short: str = ""
    choices: Tuple[str, ...] = ()

    def shown(self) -> str:
        both = f"{self.short}, {self.name}" if self.short else self.name
        return f"{both} {self.value}" if self.value else both


@dataclass(frozen=True)
class Command:
    """A command. Those of the program are the ones that it answers itself, byte for byte."""

    name: str
    does: str
    arguments: Tuple[Argument, ...] = ()
    options: Tuple[Option, ...] = ()
    example: str = ""
    more: str = ""
    is_programs: bool = False
    # what its lines mean, after `more`; and what follows them
    table: Tuple[Tuple[str, str], ...] = ()
    after: str = ""
    # what is typed at a terminal if no file is given
    typed: str = "the input"

    def usage(self) -> str:
        options = " [OPTION ..]" if self.options else ""
        return f"sancus {self.name}{options}{''.join(' ' + it.shown() for it in self.arguments)}"


QUIET = Option("--quiet", "prints nothing on standard error, unless there is no answer", short="-q")
PROGRAM = Option("--program", "starts this program, in place of the build that is found", "FILE")
HELP = Option("--help", "prints this", short="-h")
EVERYWHERE = (QUIET, PROGRAM, HELP)
JSON = Option("--json", "prints a JSON object a line (docs/FORMATS.md)")
NO_IMAGES = Option("--no-images", "leaves out the lines of images, nine tenths of the output")
IMAGES = Option("--images", "prints images whole on a terminal too, which else shows how they begin, and their length")

FORCE = Option("--force", "writes over files that are no earlier output of the command, too")

DEPLOYMENT = Argument(
    "DEPLOYMENT", MAYBE, "the deployment, or a whole input with its line %%; absent or -, standard input"
)
SCHEDULES = Argument(
    "SCHEDULE", MANY, "schedules, one after the other; then of DEPLOYMENT the lines before %% are taken alone"
)
FILE = Argument("FILE", MAYBE, "absent or -, standard input")
ADDRESS = Argument("ADDRESS", ONE, "a number from 0 to 65,535", False)
INPUT = Argument("INPUT", ONE, "a deployment, a line %% and a schedule")
LINE = Argument(
    "LINE", ONE, "a line of the schedule, counted from 1 after %%, or FILE:LINE as in an editor; 0 is power-on", False
)
LAST_LINE = Argument("LINE", MAYBE, f"{LINE.says}; absent, the last", False)
MORE = Argument(
    "SCHEDULE", MANY, "schedules or lines for people, one after the other, if INPUT is the deployment alone"
)
DRIVE = Option("--drive", "INPUT has readings, and LINE is one of the schedule that `drive` makes of them")

COMMANDS: Tuple[Command, ...] = (
    Command(
        "run",
        "compiles and runs a deployment under a schedule",
        (DEPLOYMENT, SCHEDULES),
        (NO_IMAGES, IMAGES, JSON),
        "sancus run examples/lighting.txt",
        "It prints the modules' images and the trace, an item a line. SCHEDULE may have lines for people (`sancus help "
        "schedule`). At a terminal each line is answered at once, and one that can't be done is explained and left out.",
        True,
        typed="a deployment, a line %%, and a schedule, each line of which is answered at once",
    ),
    Command(
        "drive",
        "makes the schedule of an honest run of readings, and runs it",
        (DEPLOYMENT, Argument("READINGS", MANY, "readings, a line `DEVICE VALUE` each")),
        (
            NO_IMAGES,
            IMAGES,
            Option("--schedule", "prints the lines of the schedule alone, as `run` takes them"),
            Option("--trace", "prints what `run` would print of that schedule"),
            JSON,
        ),
        "sancus drive examples/readings.txt",
        "It prints each line of the schedule after `> `, and the items that the line gave.",
        True,
        typed="a deployment, a line %%, and readings",
    ),
    Command(
        "check",
        "prints the modules' addresses, or which rule the deployment breaks",
        (Argument("DEPLOYMENT", MAYBE, "the deployment, with or without a line %%; absent or -, standard input"),),
        (JSON,),
        "sancus check examples/lighting.txt",
        "",
        True,
        typed="a deployment",
    ),
    Command(
        "explain",
        "judges a trace by the sources alone, and prints which item caused which",
        (
            DEPLOYMENT,
            Argument("TRACE", MAYBE, "what `run` or `drive` wrote, or a schedule, which is run first; -, standard input"),
        ),
        (Option("--words", "prints the items with their causes, in words"), JSON),
        "sancus run examples/lighting.txt | sancus explain examples/lighting.txt",
        "If DEPLOYMENT has no trace after a line %%, and TRACE is absent, the trace comes on standard input.",
        True,
        typed="a deployment, a line %%, and a trace",
    ),
    Command(
        "describe",
        "prints what a deployment was read as, a line for each thing in it",
        (Argument("DEPLOYMENT", MAYBE, "the deployment, with or without a line %%; absent or -, standard input"),),
        (),
        "sancus describe examples/lighting.txt",
        "",
        True,
        typed="a deployment",
    ),
    Command(
        "snap",
        "prints registers, memory or items after any line of a schedule",
        (DEPLOYMENT, Argument("SCHEDULE", MAYBE, "a schedule"), Argument("QUERIES", MAYBE, "queries, a line each")),
        (NO_IMAGES, IMAGES),
        "sancus snap --no-images examples/snap/dark_bulb.txt",
        "The queries follow a second line %%: `regs NODE L`, `bytes NODE AT LEN L` and `items L`. Of lines for people L "
        "is one of those.",
        True,
        typed="a deployment, a line %%, a schedule, a line %%, and queries",
    ),
    Command(
        "lines",
        "prints each line of a schedule before the items that it gave",
        (DEPLOYMENT, SCHEDULES),
        (),
        "sancus lines examples/forged.txt",
        "Each line comes after `> `. `sancus marks` takes lines for people too.",
        True,
        typed="a deployment, a line %%, and a schedule, each line of which is answered at once",
    ),
    Command(
        "batch",
        "prints what each of many schedules gives after common lines",
        (Argument("INPUT", MAYBE, "a deployment, and after lines %% common lines and schedules; absent or -, standard input"),),
        (),
        "printf '%%%%\\n%%%%\\nforge 00\\n%%%%\\nreset n\\n' | sancus batch",
        "Each schedule begins where the common lines end, and is answered by its items and `end`, or its fault.",
        True,
        typed="a deployment, a line %%, common lines, and each schedule after a line %%",
    ),
    Command(
        "gen",
        "runs a fixed application for some samples, and counts",
        (Argument("SAMPLES", ONE, "a number from 1 to 8,000", False),),
        (NO_IMAGES, IMAGES),
        "sancus gen --no-images 4",
        "",
        True,
    ),
    Command(
        "asm",
        "lists a text as code from an address on",
        (ADDRESS, FILE),
        (),
        "echo 'mov #9, &0x1000' | sancus asm 0x4000",
        "",
        True,
        typed="instructions, one a line",
    ),
    Command(
        "dis",
        "lists bytes in hexadecimal as code from an address on",
        (ADDRESS, FILE),
        (),
        "sancus run examples/lighting.txt | grep '^image logic' | sancus dis 0x6000",
        "A line `image MODULE BYTES`, as `run` prints it, is taken whole.",
        True,
        typed="bytes in hexadecimal",
    ),
    Command(
        "schedule",
        "turns lines for people (`deploy`, `flow`, `carry`) into a schedule",
        (DEPLOYMENT, Argument("LINES", MANY, "lines for people")),
        (Option("--lines", "prints the schedule alone, without the deployment"),),
        "printf 'deploy all\\nsample eye 120\\ncarry eye logic\\n' | sancus schedule examples/lighting.txt - | sancus "
        "run",
        "Lines for people, between plain lines of a schedule (docs/SCHEDULES.md says what each becomes):",
        table=(
            ("deploy all, deploy M ..", "load, ask, answer and keys of every module, or of these in this order"),
            ("sample M VALUE", "the sensor of M has this sample, and M reads it"),
            ("carry M N [WHICH]", "the next event for N of M's last call is taken, and N is called with it"),
            ("", "(WHICH is a connection, or the number of a piece from 0)"),
            ("flow SENSOR VALUE", "the driver of SENSOR reads this sample, and every event that follows is carried"),
            ("settle", "every event that is still in its window is carried, and those that follow"),
            ("call M ENTRY", "M is called, with the windows that are set"),
            ("give P NODE", "packet P, by number or name, is put into the in-window"),
            ("take NODE LENGTH", "a packet is made of what is in the out-window"),
            ("answer M P", "the deployer gets packet P as M's answer, at the present boot of M's node"),
            (".. as NAME", "after `take`, `forge` and `ask`: a name for the packet, for `give` and `answer`"),
            ("windows IN OUT", "other windows from here on (0x300 and 0x400 before)"),
        ),
        after="""Packets of deploy and carry have names: ask.M, answer.M, key.M.CONNECTION.from or .to, event.M.N.
The program runs as the lines are written, so packets, boots and pieces are those that it showed. A line
`#= FILE:LINE TEXT` comes before what was made of a line, and a fault of it is led back there.""",
        typed="a deployment, a line %%, and lines for people",
    ),
    Command(
        "marks",
        "runs a schedule and prints which items each of its lines gave",
        (DEPLOYMENT, SCHEDULES),
        (Option("--input", "prints the deployment first, with its keys, and a line %%"),),
        "sancus marks examples/forged.txt",
        "It prints what `lines` prints, of lines for people too.",
        typed="a deployment, a line %%, and a schedule",
    ),
    Command(
        "view",
        "writes one HTML page that holds a run and draws it",
        (
            Argument("INPUT", MAYBE, "a deployment, a line %% and a schedule, lines for people or readings"),
            Argument(
                "FILE",
                MANY,
                "schedules, lines for people or readings, if INPUT is the deployment alone; or, in place of a run, "
                "what `run` wrote and then what `explain` wrote of it",
            ),
        ),
        (
            Option("--drive", "draws the honest run of readings"),
            Option("--page", "writes the page there, by default beside the last file: day.html, or pump.day.html", "PAGE"),
            Option("--property", "marks the item that breaks this property (docs/PROPERTIES.md)", "FILE"),
            Option("--beside", "draws the runs of two FILEs side by side, and marks the first item in which they differ"),
            Option("--empty", "writes the page without a run, which opens files by itself"),
            FORCE,
        ),
        "sancus view examples/lighting.txt --page lighting.html",
        "The page opens in any browser, without a connection. It is written over an earlier page, and over no other file.",
    ),
    Command(
        "vars",
        "prints a module's variables, arrays and ends after a line",
        (INPUT, MORE, Argument("MODULE", ONE, "a module", False), LAST_LINE),
        (DRIVE, Option("--changes", "prints each change of a variable or an array element up to LINE, a line each")),
        "sancus vars examples/lighting.txt logic 45",
        "Of lines for people LINE is one of those; FILE:LINE may also be one of those that `sancus schedule` made what "
        "is given of, or a reading, after which its last event was carried.",
    ),
    Command(
        "steps",
        "prints the instructions that a line executed",
        (INPUT, MORE, LINE),
        (DRIVE,),
        "sancus steps examples/lighting.txt 39",
        "Of a line for people it prints each line that it became, after `> `, with its instructions.",
    ),
    Command(
        "why",
        "prints the chain of causes of an item, or why it is illegal or refused",
        (
            Argument("DEPLOYMENT", ONE, "the deployment"),
            Argument(
                "TRACE",
                MAYBE,
                "what `run` or `drive` wrote, or schedules, lines for people or readings, which are run; absent or -, "
                "standard input",
            ),
            Argument(
                "ITEM",
                MANY,
                "an item's number from 1 after `trace`, or the words that it begins with, as `out lamp`: the last such "
                "item; absent, the last `out` or the illegal item",
                False,
            ),
        ),
        (),
        "sancus run examples/lighting.txt | sancus why examples/lighting.txt out lamp",
        "A cause is the last event that triggered an item, and not all that its value depends on. Of a schedule it also "
        "prints by which line and instruction a node was reset, and why a line, an answer or a call was refused.",
    ),
    Command(
        "watch",
        "judges a trace by a property, and names the first item that breaks it",
        (
            Argument("DEPLOYMENT", ONE, "the deployment"),
            Argument("PROPERTY", ONE, "the property (docs/PROPERTIES.md)"),
            Argument("TRACE", MAYBE, "what `run` or `drive` wrote; absent or -, standard input"),
        ),
        (),
        "sancus run examples/lighting.txt | sancus watch examples/lighting.txt examples/properties/bright.property",
        "It prints `broken N`, or `kept N` up to the end or the first `forged`.",
        typed="a trace",
    ),
    Command(
        "holds",
        "proves that no attack breaks a property, or shows one that does",
        (
            Argument("DEPLOYMENT", ONE, "the deployment"),
            Argument("PROPERTY", ONE, "the property (docs/PROPERTIES.md)"),
        ),
        (
            Option("--schedule", "writes a run that breaks it there, by default counterexample.txt", "FILE"),
            Option("--moves", "looks at runs of fewer moves alone", "N"),
            Option("--seconds", "gives each engine so many seconds, by default 20", "N"),
            JSON,
        ),
        "sancus holds examples/lighting.txt examples/properties/bright.property",
        "Its first word is the answer:",
        table=(
            ("holds (proved)", "no legal run breaks it: the proved program says so"),
            ("holds (berkeley-abc)", "the same, by engines of others where they are installed"),
            ("fails", "a run breaks it, which the program ran and judged; its schedule is written"),
            ("unknown", "neither was found"),
            ("unconfirmed", "the sources allow a run that breaks it, and no schedule was found that shows one"),
        ),
    ),
    Command(
        "new",
        "writes a small application with a schedule and a test",
        (Argument("FOLDER", ONE, "where the files are written; none that is there is written over", False),),
        (),
        "sancus new lighting",
        "The files are app.toml, day.schedule and test_app.sancus. Its keys are drawn at random.",
    ),
    Command(
        "place",
        "fills in addresses that modules of a deployment lack",
        (
            Argument(
                "DEPLOYMENT", MAYBE, "a deployment whose [[module]] may lack `text` and `data`; absent or -, standard input"
            ),
        ),
        (),
        "sed '/^text/d; /^data/d' examples/lighting.txt | sancus place",
        "It prints the deployment, and on standard error what is where on each node, and what is free.",
        typed="a deployment",
    ),
    Command(
        "test",
        "runs schedules that say what they expect, and compares",
        (Argument("FILE", MANY, "files, or folders in which test_*.sancus are looked for; absent, this folder"),),
        (
            Option("--update", "writes the items of each line that has expectations in their place"),
            Option("--junit", "writes the results there too, as servers for tests read them", "XML"),
        ),
        "sancus test examples",
        "A file has lines of a schedule, for people too. Its expectations are comments, so `run` takes it as well:",
        table=(
            ("#: deployment FILE", "the deployment, if the file has none of its own; a path from the file's folder"),
            ("#> ITEM", "the line above gives an item that begins so, after those of the `#>` before"),
            ("#> !ITEM, #> -", "it gives no item that begins so; it gives nothing"),
            ("#: never ITEM", "no line gives an item that begins so"),
            ("#: legal", "the sources allow the whole run"),
            ("#: keeps PROPERTY", "the run doesn't break this property, up to its first `forged`"),
            ("#: holds PROPERTY", "the program proves that no run does"),
        ),
        after="With pytest, test_*.sancus are collected where the package is installed.",
    ),
    Command(
        "fmt",
        "lays out the sources of deployments, and properties",
        (Argument("FILE", MANY, "deployments, perhaps with lines after %%, and properties; -, standard input"),),
        (
            Option("--check", "writes nothing, prints the names of files that would change, and ends with status 1 then"),
            Option("--diff", "writes nothing, prints what would change, and ends with status 1 then"),
        ),
        "sancus fmt --check examples/lighting.txt",
        "It changes line breaks, indents and blanks of sources between three quotes, and prints the names of the files that "
        "it wrote; of standard input it prints the text. A file stays as it is unless its tokens and comments are the "
        "same, and the program compiles the same images of it.",
        typed="a deployment or a property",
    ),
    Command(
        "live",
        "runs an application line by line, with each event on its way in your hands",
        (
            Argument("DEPLOYMENT", ONE, "a deployment, perhaps with a line %% and lines"),
            Argument("LINES", MANY, "schedules, lines for people or a session that was saved, which are done first"),
        ),
        (),
        "printf 'sample eye 7\\ndeliver 1\\ntwice 2\\nlegal\\n' | sancus live examples/lighting.txt",
        "It reads lines of a schedule, lines for people (`sancus help schedule`), and besides",
        table=(
            ("net", "shows which events are on their way: what a module sends waits"),
            ("deliver N, twice N, drop N", "hands event N to its module, once or two times, or loses it"),
            ("undo [ACTS]", "takes back the last act, or so many"),
            ("vars MODULE, why [ITEM], legal", "looks into the run: a module's variables, causes, whether it is legal"),
            ("save FILE, quit", "writes the deployment and the lines so far; ends, as Ctrl-D does"),
        ),
        after="What can't be done is explained, and changes nothing; from a pipe it ends the session.",
    ),
    Command(
        "lsp",
        "serves editors: faults as you type, what a name means and where it is declared, completion and layout",
        (),
        (),
        "sancus lsp",
        "It speaks the Language Server Protocol on standard input and output, of deployments, schedules and properties; an "
        "editor starts it (docs/HOWTO.md).",
    ),
    Command(
        "campaign",
        "runs a deployment under many schedules, and counts what is wrong",
        (
            Argument("DEPLOYMENT", ONE, "the deployment"),
            Argument("FILE", MANY, "--merge: files of campaigns, whose rows are taken in"),
        ),
        (
            Option("--seeds", "runs these seeds, B not among them; by default 0..1000", "A..B"),
            Option("--network", "draws readings, a fate for each event that follows, and resets: the default"),
            Option("--hostile", "also draws single events, and events that are held back, replayed or changed"),
            Option("--generate", "has a function of a Python file draw the acts (docs/API.md)", "FILE:FUNCTION"),
            Option("--check", "has a function of a Python file say what is wrong with a run", "FILE:FUNCTION"),
            Option("--holds", "asks the program whether a run breaks this property", "FILE"),
            Option("--seconds", "ends each run after so many seconds of a processor, by default 10", "N"),
            Option("--jobs", "runs so many processes, by default one for each processor", "N"),
            Option("--dask", "has the workers of this scheduler of Dask run them", "ADDRESS"),
            Option("--to", "keeps a row for each seed there, by default campaign.sqlite", "FILE"),
            Option("--show", "prints the summary of the rows that are there, and runs nothing"),
            Option("--shrink", "prints the schedule of the fewest acts that does what this seed does", "SEED"),
            Option("--merge", "takes in the rows of each FILE"),
        ),
        "sancus campaign examples/lighting.txt --seeds 0..200 --to lighting.sqlite",
        "Each seed draws acts, of which a schedule is written and run once. A call that was ended goes on where it was if "
        "it is made again. It ends with status 1 if something is wrong.",
    ),
    Command(
        "hex",
        "turns programs of other tools into schedule lines, and images into files for them",
        (
            Argument("WHAT", ONE, "`put NODE FILE`, `image INPUT` or `convert FILE`", False),
            Argument("ARGUMENT", MANY, "what that takes"),
        ),
        (
            Option("--pc", "put: adds `set NODE pc ENTRY`"),
            Option("--input", "put: warns if bytes meet what this input has on the node", "INPUT"),
            Option("--format", "image, convert: `ti` for TI-TXT, `hex` for Intel HEX", "FORMAT", choices=("ti", "hex")),
            Option("--to", "image: writes the files there, by default here", "FOLDER"),
            FORCE,
        ),
        "sancus hex image examples/lighting.txt --to images",
        "Files are ELF, Intel HEX or TI-TXT. Encodings and keys are this project's own: images are for looking, and "
        "not to be flashed.",
    ),
    Command(
        "tag",
        "prints a packet, made with a deployment's own keys, as a line `forge`",
        (
            Argument("PACKET", ONE, "`event`, `set-key` or `answer`", False),
            Argument("DEPLOYMENT", ONE, "the deployment, whose `secret` and keys of nodes are used"),
            Argument(
                "NAME",
                MANY,
                "of an event the connection; of a set-key packet the connection, and `from` or `to`; of an answer the module",
                False,
            ),
        ),
        (
            Option("--epoch", "event, set-key: the connection's epoch", "N"),
            Option("--number", "event: its number in the epoch", "N"),
            Option("--value", "event: its value", "N"),
            Option("--boot", "set-key, answer: the boot of the module's node", "N"),
            Option("--challenge", "answer: the challenge of the deployer's ask", "N"),
        ),
        "sancus tag event examples/lighting.txt down --value 1",
        "A number that isn't given is 0. What accepts the packet, though nobody for whom the key is meant made it, gives "
        "the item `forged` first.",
    ),
    Command(
        "goal",
        "judges whether your lines make an application do what it must not",
        (
            Argument("NAME", MAYBE, "a goal of examples/goals; absent, all are listed", False),
            Argument("LINES", MAYBE, "your lines, as a schedule or for people; absent, the goal is described"),
        ),
        (
            Option("--hint", "prints a hint"),
            Option("--never", "you say that it can't be reached: prints whether that is so"),
        ),
        "sancus goal late_light mine.txt",
        "It prints `reached` and how many lines that took, `not allowed` and the first line that isn't, or `not reached` "
        "and what is missing; and ends with status 15 unless it is reached.",
    ),
    Command(
        "build",
        "proves and builds the program",
        (),
        (Option("--jobs", "proves so many libraries at a time", "N"),),
        "sancus build --jobs 2",
        "It needs the command rt of the Rattle kit, and takes up to an hour from nothing.",
    ),
    Command("version", "prints which program is started, of which sources, by which kit", (), (), "sancus version"),
    Command(
        "help",
        "prints what a command does",
        (Argument("COMMAND", MAYBE, "a command", False),),
        (Option("--man", "prints the man page"), Option("--completion", "prints completion for bash")),
        "sancus help run",
    ),
)
BY_NAME: Dict[str, Command] = {it.name: it for it in COMMANDS}


class Usage(Exception):
    """The words are no call: what is wrong with them, and the command that they begin with, if it is one."""

    def __init__(self, what: str, command: Optional[Command] = None) -> None:
        super().__init__(what)
        self.what, self.command = what, command
        self.status = USAGE


class Parser(argparse.ArgumentParser):
    """argparse without its own messages and ends."""

    def error(self, message: str) -> NoReturn:
        raise Usage(message)


def near(word: str, known: Sequence[str]) -> str:
    from difflib import get_close_matches

    # (the dashes of options make none of them alike)
    word, names = word.lstrip("-"), {it.lstrip("-"): it for it in known}
    found = get_close_matches(word, list(names), 1, 0.5)
    # (a transposed letter, as in `rnu`)
    found = found or [it for it in names if sorted(it) == sorted(word)]
    return names[found[0]] if found else ""


def did_you_mean(word: str, known: Sequence[str]) -> str:
    found = near(word, known)
    return f": did you mean `{found}`?" if found else ""


@dataclass
class Given:
    """The words of a call, taken apart: values of arguments and options by their names."""

    command: Command
    values: Dict[str, object] = field(default_factory=dict)

    def text(self, name: str) -> str:
        return str(self.values.get(name) or "")

    def texts(self, name: str) -> List[str]:
        found = self.values.get(name)
        return [str(it) for it in found] if isinstance(found, list) else [] if found is None else [str(found)]

    def has(self, name: str) -> bool:
        return bool(self.values.get(name))


def key_of(option: Option) -> str:
    return option.name[2:].replace("-", "_")


def parser_of(command: Command) -> Parser:
    made = Parser(prog=f"sancus {command.name}", add_help=False, allow_abbrev=False)
    for option in (*command.options, *EVERYWHERE):
        flags = [option.name, *([option.short] if option.short else [])]
        if option.value:
            made.add_argument(*flags, dest=key_of(option), metavar=option.value, choices=option.choices or None)
        else:
            made.add_argument(*flags, dest=key_of(option), action="store_true")
    for argument in command.arguments:
        made.add_argument(argument.name, nargs=argument.count)  # type: ignore[arg-type]
    return made


def options_first(words: Sequence[str], options: Sequence[Option]) -> List[str]:
    """The words with options before arguments, so that they may come anywhere; what comes after -- is no option."""
    by_name = {name: it for it in options for name in (it.name, it.short) if name}
    found: List[str] = []
    rest: List[str] = []
    left = list(words)
    while left:
        it = left.pop(0)
        if it == "--":
            rest += left
            break
        if it == "-" or not it.startswith("-"):
            rest.append(it)
            continue
        name = it.partition("=")[0]
        if name not in by_name:
            raise Usage(f"there is no option {name}{did_you_mean(name, list(by_name))}")
        found.append(it)
        if by_name[name].value and "=" not in it:
            if not left:
                raise Usage(f"{name} takes {by_name[name].value}")
            found.append(left.pop(0))
        choices, value = by_name[name].choices, found[-1].partition("=")[2] or found[-1]
        if choices and value not in choices:
            raise Usage(f"{name} takes {' or '.join(choices)}, and not `{value}`")
    return [*found, "--", *rest] if rest else found


def parse(command: Command, words: Sequence[str]) -> Given:
    """The words of a call after its command, taken apart."""
    try:
        made = parser_of(command)
        ordered = options_first(words, (*command.options, *EVERYWHERE))
        if "--help" in ordered or "-h" in ordered:
            return Given(command, {"help": True})
        return Given(command, vars(made.parse_args(ordered)))
    except Usage as error:
        what = error.what.replace("the following arguments are required", "missing")
        raise Usage(re.sub("unrecognized arguments: (-- )?", "too many arguments: ", what), command) from None


# --- Help -------------------------------------------------------------------------------------------------------------

HEAD = "Sancus applications, verified: a compiler, deployer and simulator of Sancus nodes in one proved program."


def rows(pairs: Sequence[Tuple[str, str]]) -> List[str]:
    width = max((len(name) for name, _ in pairs), default=0)
    return [f"  {name:<{width}}  {says}" for name, says in pairs]


def help_all() -> List[str]:
    programs = [(it.name, it.does) for it in COMMANDS if it.is_programs]
    others = [(it.name, it.does) for it in COMMANDS if not it.is_programs]
    return [
        HEAD,
        "",
        "usage: sancus COMMAND [ARGUMENT ..]",
        "",
        "The program's own commands:",
        *rows(programs),
        "",
        "The front end adds:",
        *rows(others),
        "",
        "With each command:",
        *rows([(it.shown(), it.says) for it in EVERYWHERE]),
        "",
        "example: sancus drive examples/readings.txt",
        "docs/TUTORIAL.md is the place to begin; docs/FORMATS.md has what is read and printed.",
    ]


def help_of(command: Command) -> List[str]:
    lines = [f"usage: {command.usage()}", "", f"It {command.does}."]
    lines += [command.more] if command.more else []
    lines += rows(command.table)
    lines += command.after.split("\n") if command.after else []
    if command.arguments:
        lines += ["", *rows([(it.name, it.says) for it in command.arguments])]
    lines += ["", *rows([(it.shown(), it.says) for it in (*command.options, *EVERYWHERE)])]
    return [*lines, "", f"example: {command.example}"]
