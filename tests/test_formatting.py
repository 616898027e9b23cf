"""`sancus fmt`: the layout, what stays as it is, and that no file is lost."""

import unittest

from support import EXAMPLES, HEAD, LIGHTING, Room, needs_program, sancus

from sancus.model import layout
from sancus.model.layout import CantLayOut, laid_out
from sancus.model.texts import Input

SOURCE = """sensor;   output level; // the level
var x=5;array last [ 4 ];


// comes here
sample( v ){ let s=(v+1)*2; // twice
 if v>~x&(v<3){send level(-v);}else{last[x]=v;
 repeat 3 { x=x-1; } } if !(v==1) { x = - -1 ; }
 else { }

 x = last[( x )]; }
"""
LAID_OUT = """sensor; output level;  // the level
var x = 5; array last[4];

// comes here
sample(v) {
    let s = (v + 1) * 2;  // twice
    if v > ~x & (v < 3) {
        send level(-v);
    } else {
        last[x] = v;
        repeat 3 { x = x - 1; }
    }
    if !(v == 1) { x = --1; } else {}

    x = last[(x)];
}
"""
PROPERTY = "var bright;on sense light( v ){bright=v>100;}\non out lamp(v) { if (v==1)&!bright { fail ; } }\n"
LAID_OUT_PROPERTY = """var bright;
on sense light(v) { bright = v > 100; }
on out lamp(v) { if (v == 1) & !bright { fail; } }
"""
CROWDED = HEAD.replace(b"{ send level(v); }", b"{send level( v );}")
# Another image at each call.
OTHER_IMAGES = "#!/bin/sh\necho image logic $$; echo trace; echo end\n"


class Layout(unittest.TestCase):
    def test_a_source(self):
        self.assertEqual(laid_out(SOURCE), LAID_OUT)
        self.assertEqual(laid_out(LAID_OUT), LAID_OUT)

    def test_a_property(self):
        self.assertEqual(laid_out(PROPERTY, is_property=True), LAID_OUT_PROPERTY)

    def test_what_has_no_room_is_opened(self):
        wide = f"on x(v) {{ y = {' + '.join(['v'] * 30)}; }}\n"
        self.assertEqual(laid_out(wide), f"on x(v) {{\n    y = {' + '.join(['v'] * 30)};\n}}\n")

    def test_what_is_no_source(self):
        with self.assertRaisesRegex(CantLayOut, "line 1, column 11: it isn't in the grammar"):
            laid_out("sample(v) ; { }")

    def test_lines_that_end_in_a_carriage_return(self):
        made = layout.deployment(CROWDED.replace(b"\n", b"\r\n"))
        self.assertEqual(made, HEAD.replace(b"\n", b"\r\n"))

    def test_examples_once_more(self):
        """What is laid out stays so."""
        for path in sorted(EXAMPLES.rglob("*.t*")):
            head = Input(path.read_bytes()).head
            if b'source = """' in head:
                made = layout.deployment(head)
                self.assertEqual(layout.deployment(made), made, path)


@needs_program
class Fmt(Room):
    def test_in_place(self):
        path = self.file("light.txt", LIGHTING.replace(HEAD, CROWDED))
        path.chmod(0o640)
        link = self.room / "link.txt"
        link.symlink_to(path)
        ran = sancus("fmt", link)
        self.assertEqual((ran.status, ran.lines, ran.said), (0, [str(link)], ""))
        self.assertEqual((path.read_bytes(), path.stat().st_mode & 0o777), (LIGHTING, 0o640))
        self.assertTrue(link.is_symlink())
        self.assertEqual(sorted(it.name for it in self.room.iterdir()), ["light.txt", "link.txt"])
        self.assertEqual((sancus("fmt", path).lines, sancus("fmt", "--check", path).status), ([], 0))

    def test_standard_input(self):
        self.assertEqual(sancus("fmt", "-", text=CROWDED).out, HEAD)
        self.assertEqual(sancus("fmt", "-", text=PROPERTY).out.decode(), LAID_OUT_PROPERTY)

    def test_nothing_is_written(self):
        path = self.file("light.toml", CROWDED)
        self.assertEqual((sancus("fmt", "--check", path).status, sancus("fmt", "--check", path).lines), (1, [str(path)]))
        ran = sancus("fmt", "--diff", path)
        self.assertEqual(ran.status, 1)
        self.assertIn("-sample(v) {send level( v );}", ran.lines)
        self.assertIn("+sample(v) { send level(v); }", ran.lines)
        self.assertEqual(path.read_bytes(), CROWDED)

    def test_what_the_program_refuses_stays(self):
        path = self.file("light.toml", CROWDED.replace(b"v > limit", b"v > limt"))
        ran = sancus("fmt", path, self.file("fine.property", PROPERTY))
        self.assertEqual((ran.status, ran.lines), (122, [str(self.room / "fine.property")]))
        self.says(ran, "light.toml stays as it is: fault deployment D8 module 1 2", "did you mean `limit`?")
        self.assertIn(b"limt", path.read_bytes())

    def test_other_images(self):
        path, other = self.file("light.toml", CROWDED), self.file("other", OTHER_IMAGES)
        other.chmod(0o755)
        ran = sancus("fmt", path, program=str(other))
        self.assertEqual((ran.status, ran.said), (122, f"sancus: {path} stays as it is: its images would change\n"))
        self.assertEqual(path.read_bytes(), CROWDED)

    def test_a_schedule(self):
        self.says(sancus("fmt", self.file("day.schedule", "load eye\n")), "it has lines of a schedule and no source")


if __name__ == "__main__":
    unittest.main()
