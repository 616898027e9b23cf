#!/usr/bin/env python3
"""Makes the highlighting for Vim and for VS Code of one table, whose words are the front end's own.

    editors/make.py            writes the files below vim/ and vscode/ (but for vscode/extension.js)
    editors/make.py --check    says whether they are as they would be written
"""

import json
import sys
from dataclasses import dataclass
from pathlib import Path

HERE = Path(__file__).resolve().parent
sys.path.insert(0, str(HERE.parent / "src"))

from sancus import __version__  # noqa: E402
from sancus.model.acts import ACTS, QUERIES  # noqa: E402
from sancus.model.language import PROPERTY_WORDS, WATCHED, WORDS  # noqa: E402
from sancus.model.schedule import FORMS  # noqa: E402
from sancus.model.tables import OPTIONAL, TYPES  # noqa: E402


@dataclass(frozen=True)
class Rule:
    """What some words of a text are: the name of their group, a pattern, in which \\< and \\> are the ends of a word, what
    follows them, and what themes of VS Code and of Vim call them."""

    name: str
    pattern: str
    scope: str
    link: str
    follows: str = ""

    def textmate(self):
        pattern = self.pattern.replace(r"\<", r"\b").replace(r"\>", r"\b")
        return {"name": f"{self.scope}.sancus", "match": pattern + (f"(?={self.follows})" if self.follows else "")}

    def vim(self, is_contained=False):
        follows = r"\ze" + self.follows.replace("=", r"\=") if self.follows else ""
        pattern = r"\v" + self.pattern.replace(r"\<", "<").replace(r"\>", ">") + follows
        return f'syntax match sancus{self.name} {"contained " if is_contained else ""}"{pattern}"'


def words(of):
    return rf"\<({'|'.join(sorted(of))})\>"


def begins(of):
    return rf"^\s*({'|'.join(sorted(of))})\>"


NUMBER = Rule("Number", r"\<(0x[0-9A-Fa-f]+|[0-9]+)\>", "constant.numeric", "Number")
REMARK = Rule("Remark", r"//.*$", "comment.line.double-slash", "Comment")
OPERATOR = Rule("Operator", r"[-+|^*&~!<>=]", "keyword.operator", "Operator")
KEYS = {key for of in (TYPES, OPTIONAL) for table in of.values() for key in table}
DEPLOYMENT = [
    Rule("Table", r"^\s*\[\[?[a-z]+\]\]?", "entity.name.section", "Structure"),
    Rule("Key", words(KEYS), "variable.parameter", "Identifier", r"\s*="),
    NUMBER,
    Rule("Comment", r"#.*$", "comment.line.number-sign", "Comment"),
]
SOURCE = [Rule("Word", words(WORDS), "keyword.control", "Keyword"), NUMBER, OPERATOR, REMARK]
PROPERTY = [
    Rule("Kind", words(WATCHED), "support.type", "Type"),
    Rule("Word", words(PROPERTY_WORDS), "keyword.control", "Keyword"),
    NUMBER,
    OPERATOR,
    REMARK,
]
SCHEDULE = [
    NUMBER,
    Rule("Hex", r"\<[0-9A-Fa-f]{8,}\>", "constant.other.hex", "Constant"),
    Rule("Act", begins([*ACTS, *QUERIES]), "keyword.control.act", "Statement"),
    Rule("Ease", begins(FORMS), "support.function", "Function"),
    Rule("Note", r"^\s*#.*$", "comment.line.number-sign", "Comment"),
    Rule("Wanted", r"^#[>:].*$", "markup.quote", "Special"),
]

# --- Vim --------------------------------------------------------------------------------------------------------------

GUARD = """if exists("b:current_syntax")
  finish
endif
"""
ABOUT = {
    "sancus": "The input of ./sancus: a deployment in TOML with sources of the handler language, a line %%, and a schedule.",
    "sancus_schedule": "Lines of a schedule, and for people.",
    "sancus_property": "A property: handlers that stand at items of a trace.",
}
ENDINGS = {"sancus": ["sancus"], "sancus_schedule": ["schedule", "people", "readings"], "sancus_property": ["property"]}
HOW = "Copy this folder's syntax/ and ftdetect/ to ~/.vim, or add the folder to 'runtimepath'. editors/make.py made this file."
# A region's name, its ends, the rules inside, and what its ends are called.
REGIONS = [
    ("Source", 'matchgroup=sancusQuote start=/"""/ end=/"""/', SOURCE),
    ("Schedule", r"matchgroup=sancusMark start=/^%%\r\?$/ end=/\%$/", SCHEDULE),
]
STRING = r'syntax region sancusString start=/"/ skip=/\\./ end=/"/ oneline'


def distinct(rules):
    return list({it.name: it for it in rules}.values())


def highlights(rules, more=()):
    links = [(it.name, it.link) for it in distinct(rules)] + list(more)
    return [f"highlight default link sancus{name} {link}" for name, link in links]


def syntax(name, lines):
    return "\n".join([f'" {ABOUT[name]}', f'" {HOW}', GUARD, *lines, "", f'let b:current_syntax = "{name}"', ""])


def vim_of_deployments():
    inner = [it for it in distinct([*SOURCE, *SCHEDULE]) if it is not NUMBER]
    lines = [it.vim() for it in DEPLOYMENT]
    lines[-1:-1] = [STRING]
    for name, ends, rules in REGIONS:
        contains = ",".join(f"sancus{it.name}" for it in rules)
        lines.append(f"syntax region sancus{name} {ends} contains={contains}")
    lines += [it.vim(is_contained=True) for it in inner]
    more = [("String", "String"), ("Quote", "Delimiter"), ("Mark", "PreProc")]
    return syntax("sancus", [*lines, "", *highlights([*DEPLOYMENT, *inner], more)])


def vim_of(name, rules):
    return syntax(name, [*(it.vim() for it in rules), "", *highlights(rules)])


def detection():
    lines = ((f"*.{ending}", name) for name, endings in ENDINGS.items() for ending in endings)
    return "".join(f"autocmd BufNewFile,BufRead {pattern} setfiletype {name}\n" for pattern, name in lines)


# --- VS Code ----------------------------------------------------------------------------------------------------------


def patterns(rules):
    # (there the first rule that matches at a place counts, and in Vim the last)
    return [it.textmate() for it in reversed(rules)]


def grammar(scope, own, repository=None):
    made = {"scopeName": scope, "patterns": own}
    return {**made, "repository": {name: {"patterns": it} for name, it in repository.items()}} if repository else made


def grammars():
    source = {"name": "meta.embedded.handlers.sancus", "begin": '"""', "end": '"""', "patterns": [{"include": "#source"}]}
    lines = {"begin": r"^%%\s*$", "end": "(?!)", "patterns": [{"include": "#schedule"}]}
    string = {"name": "string.quoted.double.sancus", "begin": '"', "end": '"|$'}
    own = [lines, source, string, *patterns(DEPLOYMENT)]
    return {
        "sancus": grammar("source.sancus", own, {"source": patterns(SOURCE), "schedule": patterns(SCHEDULE)}),
        "sancus_schedule": grammar("source.sancus.schedule", patterns(SCHEDULE)),
        "sancus_property": grammar("source.sancus.property", patterns(PROPERTY)),
    }


def configuration(comment):
    pairs = [["{", "}"], ["[", "]"], ["(", ")"]]
    return {"comments": {"lineComment": comment}, "brackets": pairs, "autoClosingPairs": pairs}


TITLES = {"sancus": "Sancus", "sancus_schedule": "Sancus schedule", "sancus_property": "Sancus property"}
SERVER = {
    "type": "array",
    "items": {"type": "string"},
    "default": ["sancus", "lsp"],
    "description": "The command that starts the language server",
}


def language(name):
    comments = "slashes" if name == "sancus_property" else "number-sign"
    endings = [f".{it}" for it in ENDINGS[name]]
    return {"id": name, "aliases": [TITLES[name]], "extensions": endings, "configuration": f"./{comments}.json"}


def package():
    made = grammars()
    return {
        "name": "sancus",
        "displayName": "Sancus applications",
        "description": "Deployments, schedules and properties of Sancus applications, by `sancus lsp`",
        "version": __version__,
        "publisher": "sancus",
        "engines": {"vscode": "^1.75.0"},
        "main": "./extension.js",
        "activationEvents": [*(f"onLanguage:{name}" for name in made), "workspaceContains:**/*.property"],
        "dependencies": {"vscode-languageclient": "^8.1.0"},
        "contributes": {
            "languages": [language(name) for name in made],
            "grammars": [
                {"language": name, "scopeName": it["scopeName"], "path": f"./syntaxes/{name}.tmLanguage.json"}
                for name, it in made.items()
            ],
            "configuration": {"title": "Sancus", "properties": {"sancus.server": SERVER}},
        },
    }


# --- Files ------------------------------------------------------------------------------------------------------------


def as_json(made):
    return json.dumps(made, indent=2) + "\n"


def files():
    """Each file by its path, with its text."""
    return {
        "vim/ftdetect/sancus.vim": detection(),
        "vim/syntax/sancus.vim": vim_of_deployments(),
        "vim/syntax/sancus_schedule.vim": vim_of("sancus_schedule", SCHEDULE),
        "vim/syntax/sancus_property.vim": vim_of("sancus_property", PROPERTY),
        "vscode/package.json": as_json(package()),
        "vscode/number-sign.json": as_json(configuration("#")),
        "vscode/slashes.json": as_json(configuration("//")),
        **{f"vscode/syntaxes/{name}.tmLanguage.json": as_json(it) for name, it in grammars().items()},
    }


def is_current(name, text):
    path = HERE / name
    return path.is_file() and path.read_text() == text


if __name__ == "__main__":
    if sys.argv[1:] == ["--check"]:
        old = [name for name, text in files().items() if not is_current(name, text)]
        sys.exit(f"not as editors/make.py makes them: {' '.join(old)}" if old else 0)
    for name, text in files().items():
        (HERE / name).parent.mkdir(parents=True, exist_ok=True)
        (HERE / name).write_text(text)
