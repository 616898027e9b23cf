"""`sancus lsp`, by a client that speaks its protocol over pipes."""

import json
import os
import subprocess
import unittest
from dataclasses import dataclass

from support import EXAMPLES, LIGHTING, PROGRAM, SANCUS, Room, needs_program

from sancus.lsp.text import Text

LIGHT = LIGHTING.decode()
HEAD, _, LINES = LIGHT.partition("%%\n")
PEOPLE = f"{HEAD}%%\ndeploy all\nsample eye 120\ncarry eye logic\n"
PROPERTY = "//: deployment lighting.txt\nvar lit;\non out lamp(v) { if lit { fail; } lit = v; }\n"


@dataclass(frozen=True)
class Said:
    """A diagnostic: its line and columns from 0, its severity and its words."""

    line: int
    begin: int
    end: int
    severity: int
    words: str


class Client:
    """What an editor is to the server."""

    def __init__(self):
        """Starts the server, and greets it."""
        environment = {**os.environ, "SANCUS_PROGRAM": PROGRAM}
        self.process = subprocess.Popen([SANCUS, "lsp"], stdin=subprocess.PIPE, stdout=subprocess.PIPE, env=environment)
        self.number = 0
        made = self.ask("initialize", processId=None, rootUri=None, capabilities={})
        assert made["capabilities"]["positionEncoding"] == "utf-16", made
        self.tell("initialized")

    def write(self, data):
        self.process.stdin.write(b"Content-Length: %d\r\n\r\n%s" % (len(data), data))
        self.process.stdin.flush()

    def tell(self, method, **params):
        self.write(json.dumps({"jsonrpc": "2.0", "method": method, "params": params}).encode())

    def read(self):
        length = 0
        while line := self.process.stdout.readline().strip():
            name, _, value = line.partition(b":")
            length = int(value) if name == b"Content-Length" else length
        return json.loads(self.process.stdout.read(length))

    def asked(self, method, **params):
        """The whole answer to a request."""
        self.number += 1
        self.write(json.dumps({"jsonrpc": "2.0", "id": self.number, "method": method, "params": params}).encode())
        while True:
            message = self.read()
            if message.get("id") == self.number:
                return message

    def ask(self, method, **params):
        return self.asked(method, **params)["result"]

    def diagnostics(self, uri):
        """What is said next of a text."""
        while True:
            params = self.read().get("params", {})
            if params.get("uri") == uri:
                return [said(it) for it in params["diagnostics"]]

    def close(self):
        self.process.stdin.close()
        self.process.stdout.close()
        return self.process.wait()


def said(it):
    start, end = it["range"]["start"], it["range"]["end"]
    return Said(start["line"], start["character"], end["character"], it["severity"], it["message"])


def place(text, part, shift=0):
    """The position of a part of a text, whose letters are all of one unit."""
    before = text[: text.index(part)]
    return {"line": before.count("\n"), "character": len(before) - before.rfind("\n") - 1 + shift}


class Positions(unittest.TestCase):
    def test_utf_16(self):
        """A letter of one unit with 2 bytes, and one of two units with 4, on lines that end in each way."""
        text = Text("ä𝄞x\r\n\ry𝄞\nz")
        self.assertEqual(text.position(6), {"line": 0, "character": 3})
        self.assertEqual(text.place({"line": 0, "character": 3}), 6)
        self.assertEqual(text.place({"line": 0, "character": 99}), 7)
        self.assertEqual(text.position(text.data.index(b"z")), {"line": 3, "character": 0})
        # (the program's lines end in a newline)
        self.assertEqual(text.span(2, 3, 4), text.range(11, 15))
        self.assertEqual(text.span(2, 3, 4)["end"], {"line": 2, "character": 3})


@needs_program
class Server(Room):
    @classmethod
    def setUpClass(cls):
        cls.client = Client()
        cls.addClassCleanup(cls.client.close)

    def open(self, text, name="lighting.txt"):
        """Opens a text, and returns what is said of it."""
        self.uri = (self.room / name).as_uri()
        return self.opened(self.uri, text)

    def opened(self, uri, text):
        self.client.tell("textDocument/didOpen", textDocument={"uri": uri, "languageId": "sancus", "version": 1, "text": text})
        return self.client.diagnostics(uri)

    def change(self, text):
        self.client.tell("textDocument/didChange", textDocument={"uri": self.uri, "version": 2}, contentChanges=[{"text": text}])
        return self.client.diagnostics(self.uri)

    def at(self, method, position):
        return self.client.ask(f"textDocument/{method}", textDocument={"uri": self.uri}, position=position)

    # --- What is wrong ---

    def test_faults_and_their_places(self):
        self.assertEqual(self.open(LIGHT), [])
        for old, new, part, length, words in (
            ("emit v; }", "emit v }", "emit v }", 1, "expected an operator, `;` or `[`, and found `}`"),
            ("v > limit", "v > limt", "limt", 4, "`limt` isn't declared; did you mean `limit`?"),
            ("load lamp", "load lmp", "lmp", 3, "did you mean `lamp`?"),
        ):
            changed = LIGHT.replace(old, new)
            found = self.change(changed)
            shift = part.index("}") if "}" in part else 0
            where = place(changed, part, shift)
            with self.subTest(words):
                self.assertEqual([(it.line, it.begin, it.end - it.begin) for it in found], [(where["line"], where["character"], length)])
                self.assertIn(words, found[0].words)

    def test_after_letters_of_two_units(self):
        text = LIGHT.replace("on show(v) { emit v; }", "on show(v) { emit v; } // ä𝄞\n/* 𝄞 */").replace("# 1.", "# 𝄞")
        (found,) = self.open(text)
        self.assertEqual((found.begin, found.end), (0, 1))
        (found,) = self.change(LIGHT.replace('name = "eye"', 'name = "𝄞" + "eye"'))
        self.assertEqual((found.line, found.begin), (place(LIGHT, 'name = "eye"')["line"], 12))

    def test_warnings(self):
        text = LIGHT.replace("v > limit", "v >= 0")
        (found,) = self.open(text)
        where = place(text, ">= 0")
        self.assertEqual(found, Said(where["line"], where["character"], where["character"] + 2, 2, "this always holds, since a value is from 0 to 65,535"))

    def test_lines_for_people(self):
        self.assertEqual(self.open(PEOPLE), [])
        (found,) = self.change(f"{PEOPLE}carry eye logic\n")
        self.assertEqual((found.line, found.begin, found.end, found.severity), (PEOPLE.count("\n"), 0, 15, 1))
        self.assertIn("what eye sent to logic at its last call was carried", found.words)
        (found,) = self.change(f"{PEOPLE}settle\nsettle\n")
        self.assertEqual(found, Said(PEOPLE.count("\n") + 1, 0, 6, 3, "nothing is on its way"))

    def test_a_schedule_of_another_file(self):
        self.file("app.toml", HEAD)
        self.assertEqual(self.open(LINES, "day.schedule"), [])
        (found,) = self.change(f"{LINES}load lmp\n")
        self.assertEqual((found.line, found.begin), (LINES.count("\n"), 5))
        # (a change of the deployment is one of what belongs to it)
        self.opened((self.room / "app.toml").as_uri(), "node =")
        (found,) = self.client.diagnostics(self.uri)
        self.assertEqual(found.words, "app.toml: fault deployment D3 -")

    def test_properties(self):
        self.file("lighting.txt", LIGHTING)
        self.assertEqual(self.open(PROPERTY, "lit.property"), [])
        (found,) = self.change(PROPERTY.replace("out lamp", "out lmp"))
        self.assertEqual((found.line, found.begin, found.end), (2, 7, 10))
        self.assertIn("did you mean `lamp`?", found.words)
        found = self.change("on out lmp(v) { send; }")
        self.assertEqual([it.severity for it in found], [3, 1])
        self.assertIn("it has no `send`: `fail;` breaks it", found[1].words)
        (found,) = self.change(PROPERTY.replace("fail; ", ""))
        self.assertEqual((found.line, found.severity, found.words), (0, 2, "it has no `fail`, so nothing can break it"))
        (found,) = self.change(PROPERTY.replace("if lit", "if v == 1 & !lit"))
        self.assertEqual((found.line, found.begin, found.end, found.severity), (2, 22, 24, 2))

    def test_toml_of_others(self):
        self.assertEqual(self.open('[project]\nname = "x"\n', "pyproject.toml"), [])
        self.assertEqual(len(self.change(f"{HEAD}x = 1\n")), 1)

    def test_a_run_that_is_long(self):
        lines = "asm a 0x800 jmp 0x800\nset a pc 0x800\n" + "run a 65535\n" * 60000
        (found,) = self.open(f"{LIGHT}{lines}")
        self.assertEqual(found.severity, 3)
        self.assertIn("this takes longer than 1 s", found.words)

    # --- What a name means ---

    def test_hover(self):
        self.open(LIGHT)
        for part, shift, words in (
            ("v > limit", 4, "`var limit = 100` of module logic"),
            ("v > limit", 0, "`v`: the value of `on level`"),
            ("send level", 5, "`output level` of module eye\n\nconnection up: to logic.level"),
            ("call eye 3", 0, "`call MODULE ENTRY IN OUT`"),
            ("call eye 3", 5, "module eye on node a, drives light\n\ntext 0x4000 to 0x4980"),
            ('"lamp.show"', 6, "`input show` of module lamp"),
            ('device = "bulb"', 11, "actuator bulb on node b at 0x1000, driven by lamp"),
        ):
            with self.subTest(part, shift=shift):
                found = self.at("hover", place(LIGHT, part, shift))
                self.assertTrue(found["contents"]["value"].startswith(words), found)
        self.assertIsNone(self.at("hover", {"line": 9999, "character": 0}))

    def test_definition(self):
        self.open(LIGHT)
        for part, shift, wanted in (
            ("v > limit", 4, place(LIGHT, "limit = 100")),
            ('"lamp.show"', 6, place(LIGHT, "show;")),
            ("load logic", 5, {**place(LIGHT, '[[module]]\nname = "logic"')}),
            ("take a 0x400", 5, place(LIGHT, "node = [")),
        ):
            with self.subTest(part):
                found = self.at("definition", place(LIGHT, part, shift))
                self.assertEqual((found["uri"], found["range"]["start"]), (self.uri, wanted))

    def test_lines_that_end_in_a_carriage_return(self):
        self.assertEqual(self.open(LIGHT.replace("\n", "\r\n")), [])
        found = self.at("definition", place(LIGHT, "v > limit", 4))
        self.assertEqual(found["range"]["start"], place(LIGHT, "limit = 100"))
        (found,) = self.change(LIGHT.replace("v > limit", "v > limt").replace("\n", "\r\n"))
        self.assertEqual((found.line, found.begin), (place(LIGHT, "v > limit")["line"], place(LIGHT, "v > limit", 4)["character"]))

    def test_definition_in_another_file(self):
        self.file("lighting.txt", LIGHTING)
        self.open(PROPERTY, "lit.property")
        found = self.at("definition", place(PROPERTY, "lamp(v)"))
        self.assertEqual(found["uri"], (self.room / "lighting.txt").as_uri())
        self.assertEqual(found["range"]["start"], place(LIGHT, '[[module]]\nname = "lamp"'))
        self.assertEqual(self.at("definition", place(PROPERTY, "lit {"))["range"]["start"], {"line": 1, "character": 4})

    # --- What can be written ---

    def completed(self, before, after=""):
        text = f"{before}{after}"
        self.change(text)
        return [it["label"] for it in self.at("completion", place(text + "\0", "\0" if not after else after))]

    def test_completion(self):
        self.open(LIGHT)
        self.assertEqual(self.completed(f"{PEOPLE}call "), ["eye", "logic", "lamp"])
        self.assertIn("carry", self.completed(PEOPLE))
        self.assertEqual(self.completed(f"{PEOPLE}sense "), ["light"])
        text = LIGHT.replace("{ send level(v); }", "{ send \1")
        self.assertEqual(self.completed(*text.split("\1")), ["level"])
        text = LIGHT.replace("v > limit", "v > \1")
        self.assertLessEqual({"limit", "v", "repeat"}, {*self.completed(*text.split("\1"))})
        text = LIGHT.replace('device = "light"', 'device = "\1"')
        self.assertEqual(self.completed(*text.split("\1")), ["light", "bulb"])
        # (a quote that isn't closed is no TOML)
        self.assertEqual(self.completed(*text.replace("\1\"", "\1").split("\1")), ["light", "bulb"])
        text = LIGHT.replace('to = "logic.level"', 'to = "\1"')
        self.assertIn("lamp.show", self.completed(*text.split("\1")))

    def test_completion_of_a_property(self):
        self.file("lighting.txt", LIGHTING)
        self.open(PROPERTY, "lit.property")
        self.assertIn("attested", self.completed(f"{PROPERTY}on "))
        self.assertEqual(self.completed(f"{PROPERTY}on sense "), ["light"])
        self.assertEqual(self.completed(f"{PROPERTY}on out "), ["lamp"])
        self.assertEqual(self.completed(f"{PROPERTY}on attested "), ["eye", "logic", "lamp"])
        self.assertLessEqual({"lit", "assume"}, {*self.completed(f"{PROPERTY}on reset b {{ ")})

    def test_symbols(self):
        self.open(LIGHT)
        found = self.client.ask("textDocument/documentSymbol", textDocument={"uri": self.uri})
        self.assertEqual([it["name"] for it in found], ["a", "b", "light", "bulb", "eye", "logic", "lamp", "up", "down"])

    # --- Layout ---

    def test_formatting(self):
        old = LIGHT.replace("{ send level(v); }", "{send level( v );}")
        self.open(old)
        (edit,) = self.client.ask("textDocument/formatting", textDocument={"uri": self.uri}, options={})
        line = place(old, "sample(v)")["line"]
        self.assertEqual(edit["range"], {"start": {"line": line, "character": 0}, "end": {"line": line + 1, "character": 0}})
        self.assertEqual(edit["newText"], "sample(v) { send level(v); }\n")
        self.change(old.replace("limit {", "limt {"))
        error = self.client.asked("textDocument/formatting", textDocument={"uri": self.uri}, options={})["error"]
        self.assertIn("fault deployment D8 module 1 2", error["message"])

    # --- The protocol ---

    def test_what_is_no_request(self):
        self.client.write(b"{")
        self.assertEqual(self.client.read()["error"]["code"], -32700)
        self.client.tell("textDocument/didOpen")
        self.assertEqual(self.client.asked("sancus/fly")["error"]["code"], -32601)
        self.assertIsNone(self.client.ask("textDocument/hover", textDocument={"uri": "file:///none"}, position={}))

    def test_the_end(self):
        client = Client()
        self.assertIsNone(client.ask("shutdown"))
        self.assertEqual(client.asked("textDocument/hover")["error"]["code"], -32600)
        client.tell("exit")
        self.assertEqual(client.close(), 0)

    def test_examples(self):
        """Nothing is wrong with the examples that the program accepts."""
        for path in sorted((EXAMPLES / "parking").iterdir()):
            if path.suffix != ".md":
                with self.subTest(path.name):
                    found = self.opened(path.as_uri(), path.read_text())
                    self.assertEqual([it.words for it in found if it.severity == 1], [])


if __name__ == "__main__":
    unittest.main()
