"""The man page and the completion for bash, made of the table of commands."""

from __future__ import annotations

from typing import List, Tuple

from sancus.cli.commands import EVERYWHERE, HEAD, COMMANDS, Command


def escaped(text: str) -> str:
    """A line for roff: no hyphen is broken, and none begins a request."""
    text = text.replace("\\", "\\e").replace("-", "\\-")
    return "\\&" + text if text.startswith((".", "'")) else text


def section(command: Command) -> List[str]:
    lines = [".TP", f".B {escaped(command.usage())}", escaped(f"It {command.does}.")]
    if command.more:
        lines += [".br", escaped(command.more)]
    if command.table:
        lines += [".RS", *table(command), ".RE", ".IP", escaped(" ".join(command.after.split("\n")))]
    for argument in command.arguments:
        lines += [".br", escaped(f"{argument.name}: {argument.says}.")]
    for option in command.options:
        lines += [".br", f"\\fB{escaped(option.shown())}\\fR: {escaped(option.says)}."]
    return [*lines, ".br", f"Example: \\fI{escaped(command.example)}\\fR"]


def table(command: Command) -> List[str]:
    """The lines of a command, each with what it means; a row without a line goes on with the one before."""
    rows = [(".TP", f".B {escaped(name)}", escaped(says)) if name else (escaped(says),) for name, says in command.table]
    return [it for row in rows for it in row]


STATUSES = [
    ("0", "the whole output is written"),
    ("1", "the deployment breaks a rule, test finds what isn't met, campaign what is wrong, or fmt what would change"),
    ("2", "the arguments are no command"),
    ("3", "a line of a schedule, of readings or of a trace breaks a rule"),
    ("4", "a read failed"),
    ("5", "a write failed"),
    ("6", "memory ran out"),
    ("7", "a property breaks a rule"),
    ("8", "an item of a trace is illegal"),
    ("9", "the honest run or the batch is too long"),
    ("10", "a text or bytes of asm or dis break a rule"),
    ("11", "a query breaks a rule"),
    ("12", "an item breaks the property, or a run does"),
    ("13", "nothing was shown of the property"),
    ("14", "the sources allow a run that breaks the property, and no schedule was found that shows one"),
    ("15", "lines don't reach their goal, or aren't allowed"),
    ("121", "a file can't be read or written"),
    ("122", "a text isn't what a command of the front end takes"),
    ("125", "there is no answer of the program: no build, or one that was ended"),
    ("130", "an interrupt came"),
]
VARIABLES = [
    ("SANCUS_PROGRAM", "a program to start, in place of the build that is found"),
    ("SANCUS_SECONDS", "how long a build that isn't proved may run"),
]


def pairs(rows: List[Tuple[str, str]]) -> List[str]:
    return [line for name, says in rows for line in (".TP", f".B {escaped(name)}", escaped(says))]


def man_page() -> str:
    lines = [
        '.\\" Made by `sancus help --man`.',
        ".TH SANCUS 1",
        ".SH NAME",
        "sancus \\- Sancus applications, verified",
        ".SH SYNOPSIS",
        ".B sancus",
        ".I COMMAND",
        "[ARGUMENT ..]",
        ".SH DESCRIPTION",
        escaped(HEAD),
        "The commands that the program itself answers print on standard output just what it prints, and end with its "
        "status. What is said on standard "
        "error is for people.",
        ".SH COMMANDS",
        *(line for command in COMMANDS for line in section(command)),
        ".SH OPTIONS",
        *(line for it in EVERYWHERE for line in (".TP", f".B {escaped(it.shown())}", escaped(it.says))),
        ".SH EXIT STATUS",
        *pairs(STATUSES),
        ".SH ENVIRONMENT",
        *pairs(VARIABLES),
        ".SH SEE ALSO",
        "docs/TUTORIAL.md, docs/FORMATS.md and docs/HOWTO.md of the repository",
    ]
    return "\n".join(lines) + "\n"


def options_of(command: Command) -> str:
    return " ".join(it.name for it in (*command.options, *EVERYWHERE))


def completion() -> str:
    """Commands first, then options after a dash, what an option takes, names of commands for `help`, and else files."""
    cases = "\n".join(f"    {command.name}) options='{options_of(command)}' ;;" for command in COMMANDS)
    taken = {option.name: " ".join(option.choices) for it in COMMANDS for option in it.options if option.choices}
    choices = "\n".join(f"    {name}) choices='{words}' ;;" for name, words in taken.items())
    names = " ".join(it.name for it in COMMANDS)
    return f"""# Completion for bash: source this file. Made by `sancus help --completion`.
_sancus() {{
  local word options choices='' current=${{COMP_WORDS[COMP_CWORD]}}
  local names='{names}'
  word=${{COMP_WORDS[1]}}
  if [[ $COMP_CWORD -eq 1 ]]; then
    mapfile -t COMPREPLY < <(compgen -W "$names --help --version --quiet" -- "$current")
    return
  fi
  case $word in
{cases}
    *) options='' ;;
  esac
  case ${{COMP_WORDS[COMP_CWORD - 1]}} in
{choices}
  esac
  if [[ $choices ]]; then
    mapfile -t COMPREPLY < <(compgen -W "$choices" -- "$current")
  elif [[ $current == -* ]]; then
    mapfile -t COMPREPLY < <(compgen -W "$options" -- "$current")
  elif [[ $word == help ]]; then
    mapfile -t COMPREPLY < <(compgen -W "$names" -- "$current")
  elif [[ $word == hex && $COMP_CWORD -eq 2 ]]; then
    mapfile -t COMPREPLY < <(compgen -W 'put image convert' -- "$current")
  else
    mapfile -t COMPREPLY < <(compgen -f -- "$current")
  fi
}}
complete -o filenames -F _sancus sancus ./sancus
"""
