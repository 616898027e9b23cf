"""editors/: the files that its script makes are current. Of the extension for VS Code its manifest is one, its grammars find words as an engine of
TextMate's would, and it starts the server.
"""

import json
import re
import shutil
import subprocess
import sys
import unittest

from support import LIGHTING, TOP

EDITORS = TOP / "editors"
VSCODE = EDITORS / "vscode"
# An editor's two modules, of which the extension says what it asks.
EDITOR = """
const asked = [];
const modules = {
  vscode: {workspace: {getConfiguration: () => ({get: () => ["sancus", "lsp"]})}},
  "vscode-languageclient/node": {LanguageClient: class {
    constructor(...given) { asked.push(given); }
    start() { asked.push("start"); }
    stop() { asked.push("stop"); }
  }},
};
const {Module} = require("module"), load = Module._load;
Module._load = (name, ...rest) => modules[name] ?? load(name, ...rest);
const extension = require(process.argv[1]);
extension.activate();
extension.deactivate();
console.log(JSON.stringify(asked));
"""

# What each grammar calls the words at the first place where a pattern is found.
PROPERTY = "var lit; // one\non out lamp(v) { if lit { fail; } }\n"
SCOPES = {
    "sancus": (
        LIGHTING.decode(),
        {
            r"^\[\[module": "entity.name.section",
            "^secret": "variable.parameter",
            '"0001': "string.quoted.double",
            r"sample\(v": "keyword.control",
            "> limit": "keyword.operator",
            "100;": "constant.numeric",
            "load eye": "keyword.control.act",
            "0x300 0x400": "constant.numeric",
            "^# 1": "comment.line.number-sign",
        },
    ),
    "sancus_schedule": ("deploy all\n#> protect a eye\n", {"deploy": "support.function", "#> p": "markup.quote"}),
    "sancus_property": (PROPERTY, {"// one": "comment.line.double-slash", "out": "support.type", "fail": "keyword.control"}),
}


def expanded(patterns, grammar):
    """Patterns, with those that others name in their places."""
    for it in patterns:
        yield from expanded(grammar["repository"][it["include"][1:]]["patterns"], grammar) if "include" in it else [it]


def scopes(grammar, text):
    """The innermost scope of each character, line by line: at a place the first pattern counts, and the end of a region before others."""
    regions = [{"patterns": grammar["patterns"]}]
    for line in text.split("\n"):
        at, found = 0, [regions[-1].get("name", "")] * len(line)
        while at <= len(line):
            region = regions[-1]
            rules = [("end", region)] if "end" in region else []
            rules += [(kind, it) for it in expanded(region.get("patterns", []), grammar) for kind in ("match", "begin") if kind in it]
            matches = ((re.compile(it[kind]).search(line, at), kind, it) for kind, it in rules)
            first = min((it for it in matches if it[0]), key=lambda it: it[0].start(), default=None)
            if not first:
                break
            match, kind, it = first
            if kind == "begin":
                regions.append(it)
            elif kind == "end":
                regions.pop()
            found[match.start() : match.end()] = [it.get("name", "")] * len(match[0])
            at = match.end() + (kind == "match" and not match[0])
            outside = regions[-1].get("name", "")
            found[at:] = [outside] * (len(line) - at)
        yield found


class Editors(unittest.TestCase):
    def test_files_are_current(self):
        ran = subprocess.run([sys.executable, EDITORS / "make.py", "--check"], capture_output=True, text=True)
        self.assertEqual((ran.returncode, ran.stderr), (0, ""), "editors/make.py")

    def test_grammars(self):
        for name, (text, wanted) in SCOPES.items():
            found = list(scopes(self.read(f"syntaxes/{name}.tmLanguage.json"), text))
            lines = text.split("\n")
            for pattern, scope in wanted.items():
                at, match = next((at, it) for at, it in enumerate(re.search(pattern, line) for line in lines) if it)
                self.assertEqual(found[at][match.start()], f"{scope}.sancus", (name, pattern))

    def read(self, name):
        return json.loads((VSCODE / name).read_text())

    def test_manifest(self):
        """It has what VS Code's reference of manifests asks for, and names files that are there."""
        made = self.read("package.json")
        self.assertRegex(f"{made['publisher']}.{made['name']}", r"^[a-z0-9-]+\.[a-z0-9-]+$")
        self.assertRegex(made["version"], r"^\d+\.\d+\.\d+$")
        self.assertRegex(made["engines"]["vscode"], r"^\^1\.\d+\.0$")
        self.assertTrue((VSCODE / made["main"]).is_file())
        given = made["contributes"]
        known = {it["id"] for it in given["languages"]}
        self.assertLessEqual({it.partition(":")[2] for it in made["activationEvents"] if it.startswith("onLanguage:")}, known)
        for it in given["languages"]:
            self.assertTrue(it["aliases"] and all(ending.startswith(".") for ending in it["extensions"]))
            self.assertLessEqual({*self.read(it["configuration"])}, {"comments", "brackets", "autoClosingPairs", "surroundingPairs"})
        self.assertEqual({it["language"] for it in given["grammars"]}, known)
        for it in given["grammars"]:
            self.assertEqual(self.read(it["path"])["scopeName"], it["scopeName"])
        for name, it in given["configuration"]["properties"].items():
            self.assertTrue(name.startswith(f"{made['name']}.") and it["description"])
            self.assertEqual((it["type"], type(it["default"])), ("array", list))

    @unittest.skipUnless(shutil.which("node"), "there is no node")
    def test_the_extension(self):
        ran = subprocess.run(["node", "-e", EDITOR, VSCODE / "extension.js"], capture_output=True, text=True)
        self.assertEqual(ran.stderr, "")
        (_, _, server, options), *after = json.loads(ran.stdout)
        self.assertEqual((server, after), ({"command": "sancus", "args": ["lsp"]}, ["start", "stop"]))
        known = {it["id"] for it in self.read("package.json")["contributes"]["languages"]}
        self.assertEqual({it.get("language") for it in options["documentSelector"]} - {None}, known)


if __name__ == "__main__":
    unittest.main()
