"""editors/vim: what Vim's highlighting calls some words of a deployment, a schedule and a property. And Neovim as a client of `sancus lsp`, with the
lines that docs/HOWTO.md has for it.
"""

import json
import os
import re
import shutil
import subprocess
import unittest

from slow import LIGHTING, PROGRAM, SANCUS, TOP, Room, needs_program

# The group that is wanted, and a pattern at whose start it is looked for.
WANTED = r"""sancusTable ^\[\[module
sancusKey ^secret
sancusString "000102
sancusWord ^sample(v)
sancusWord if v > limit
sancusOperator > limit
sancusMark ^%%$
sancusNote ^# 1\.
sancusAct ^load eye
sancusNumber 0x300 0x400$
"""
SCHEDULE = "deploy all\n#> protect a eye\nsense light 120\n"
WANTED_OF_SCHEDULE = """sancusEase ^deploy
sancusWanted ^#> protect
sancusAct ^sense
sancusNumber 120
"""
PROPERTY = "var lit; // one\non out lamp(v) { if lit { fail; } }\n"
WANTED_OF_PROPERTY = """sancusRemark // one
sancusKind out lamp
sancusWord fail;
"""
LOOK = r"""
set nocompatible
set runtimepath^={top}/editors/vim
filetype on
syntax enable
edit {room}/{name}
syntax sync fromstart
let lines = ['filetype ' . &filetype]
for wanted in readfile('{room}/wanted')
  let pattern = substitute(wanted, '^\S\+ ', '', '')
  call cursor(1, 1)
  call search(pattern, 'cW')
  call add(lines, synIDattr(synID(line('.'), col('.'), 1), 'name') . ' ' . pattern)
endfor
call writefile(lines, '{room}/found')
quitall!
"""


def highlights():
    vim = shutil.which("vim")
    return vim and b"+syntax" in subprocess.run([vim, "--version"], capture_output=True).stdout


@unittest.skipUnless(highlights(), "there is no vim with highlighting")
class Editor(Room):
    def test_groups(self):
        for name, filetype, text, wanted in (
            ("lighting.sancus", "sancus", LIGHTING, WANTED),
            ("day.schedule", "sancus_schedule", SCHEDULE, WANTED_OF_SCHEDULE),
            ("lit.property", "sancus_property", PROPERTY, WANTED_OF_PROPERTY),
        ):
            with self.subTest(name):
                self.file(name, text)
                self.file("wanted", wanted)
                look = self.file("look.vim", LOOK.format(top=TOP, room=self.room, name=name))
                subprocess.run(["vim", "-Nu", "NONE", "-i", "NONE", "-es", "-S", look], stdin=subprocess.DEVNULL)
                self.assertEqual((self.room / "found").read_text(), f"filetype {filetype}\n{wanted}")


# Opens a text, and writes down what the server says: of the text, of places in it, and of a text that is changed.
ASK = r"""
local found = {{}}
local function until_so(so)
  vim.wait(120000, so, 50)
end
local function ask(method, line, column, more)
  local where = {{ textDocument = vim.lsp.util.make_text_document_params(), position = {{ line = line - 1, character = column - 1 }} }}
  local answers = vim.lsp.buf_request_sync(0, method, vim.tbl_extend("force", where, more or {{}}), 120000)
  for _, it in pairs(answers or {{}}) do return it.result end
end
vim.cmd("edit {room}/wrong.sancus")
until_so(function() return #vim.diagnostic.get(0) > 0 end)
found.filetype = vim.bo.filetype
found.wrong = vim.diagnostic.get(0)
vim.api.nvim_buf_set_lines(0, 0, -1, false, vim.fn.readfile("{room}/right.sancus"))
until_so(function() return #vim.diagnostic.get(0) == 0 end)
found.right = vim.diagnostic.get(0)
found.hover = ask("textDocument/hover", {call}, 6)
found.definition = ask("textDocument/definition", {call}, 6)
found.completion = ask("textDocument/completion", {call}, 6)
local edits = ask("textDocument/formatting", 1, 1, {{ options = {{ tabSize = 2, insertSpaces = true }} }})
vim.lsp.util.apply_text_edits(edits, 0, "utf-16")
found.laid_out = vim.api.nvim_buf_get_lines(0, 0, -1, false)
vim.fn.writefile({{ vim.fn.json_encode(found) }}, "{room}/found")
vim.cmd("quitall!")
"""


@needs_program
@unittest.skipUnless(shutil.which("nvim"), "there is no nvim")
class Client(Room):
    def test_what_the_document_has_of_neovim(self):
        right = LIGHTING.decode().replace("v > limit", "v  >limit")
        lines = right.splitlines()
        call = lines.index("call logic 2 0x300 0x400") + 1
        self.file("right.sancus", right)
        wrong = self.file("wrong.sancus", right.replace(">limit", ">limt"))
        document = re.search(r"(?ms)^```lua\n(.*?)^```", (TOP / "docs" / "HOWTO.md").read_text())[1]
        init = self.file("init.lua", document.replace("CLONE", str(TOP)))
        ask = self.file("ask.lua", ASK.format(room=self.room, call=call))
        path = f"{TOP}{os.pathsep}{os.environ['PATH']}"
        env = {**os.environ, "PATH": path, "SANCUS_PROGRAM": PROGRAM, "HOME": str(self.room)}
        command = ["nvim", "--headless", "-n", "-i", "NONE", "-u", init, "-c", f"luafile {ask}"]
        subprocess.run(command, stdin=subprocess.DEVNULL, capture_output=True, env=env, timeout=600, check=True)
        found = json.loads((self.room / "found").read_text())
        self.assertEqual((found["filetype"], found["right"]), ("sancus", []))
        # (Neovim counts from 0)
        at = next(at for at, it in enumerate(wrong.read_text().splitlines()) if "limt" in it)
        (fault,) = found["wrong"]
        self.assertEqual((fault["lnum"], fault["col"]), (at, wrong.read_text().splitlines()[at].index("limt")))
        self.assertIn("`limt` isn't declared; did you mean `limit`?", fault["message"])
        self.assertIn("logic", json.dumps(found["hover"]))
        definition = found["definition"][0] if isinstance(found["definition"], list) else found["definition"]
        begins = definition["range"]["start"]["line"]
        self.assertEqual(lines[begins : begins + 2], ["[[module]]", 'name = "logic"'])
        items = found["completion"]["items"] if isinstance(found["completion"], dict) else found["completion"]
        self.assertEqual({it["label"] for it in items}, {"eye", "logic", "lamp"})
        laid_out = subprocess.run([SANCUS, "fmt", "-"], input=right, env=env, stdout=subprocess.PIPE, text=True, check=True)
        self.assertEqual(found["laid_out"], laid_out.stdout.splitlines())


if __name__ == "__main__":
    unittest.main()
