"""`sancus new` and `sancus place`: what they write is accepted by the program, and meets its own test."""

import re
import unittest

from support import HEAD, LIGHTING, Room, needs_program, program, sancus

PLACES = re.compile(rb"(?m)^(text|data) = .*\n")


@needs_program
class New(Room):
    def test_an_application_that_meets_its_test(self):
        self.says(sancus("new", "an app", cwd=self.room), "`sancus test 'an app'`", "`sancus run 'an app/app.toml' 'an")
        made = sancus("new", "app", cwd=self.room)
        self.assertEqual(made.lines, ["app/app.toml", "app/day.schedule", "app/test_app.sancus"])
        self.assertEqual(sancus("test", "app", cwd=self.room).status, 0)
        ran = sancus("run", "app/app.toml", "app/day.schedule", cwd=self.room)
        self.assertEqual([it for it in ran.lines if it.startswith("out ")], ["out lamp 1", "out lamp 0"])
        keys = re.findall(r'"([0-9a-f]{32})"', (self.room / "app" / "app.toml").read_text())
        self.assertEqual(len({*keys}), 3)

    def test_nothing_is_written_over(self):
        self.file("test_app.sancus", "mine")
        ran = sancus("new", ".", cwd=self.room)
        self.assertEqual((ran.status, ran.lines), (121, []))
        self.says(ran, "test_app.sancus is there already")
        self.assertFalse((self.room / "app.toml").exists())


@needs_program
class Place(Room):
    def test_places_are_free(self):
        made = sancus("place", text=PLACES.sub(b"", LIGHTING))
        self.assertEqual(program("check", text=made.out.partition(b"%%\n")[0] + b"%%\n").lines[-1], "end")
        self.assertTrue(made.out.endswith(LIGHTING.partition(b"%%\n")[2]))
        self.says(made, "a 0x1000 to 0x1217: the private section of eye\n", "b 0x4980 to 0xffdf: free, 46,688 bytes\n")

    def test_places_that_are_there_stay(self):
        self.assertEqual(sancus("place", text=HEAD).out, HEAD)

    def test_no_room(self):
        # (each of these devices leaves less room above it than a public section takes)
        devices = ", ".join(f'{{ name = "d{at}", node = "n", kind = "sensor", at = {0x600 + 0x7FE * at} }}' for at in range(32))
        module = '[[module]]\nname = "m"\nnode = "n"\nprovider = 7\ndata = 0x300\nsource = ""\n'
        ran = sancus("place", text=f"device = [ {devices} ]\n{module}")
        self.assertEqual((ran.status, ran.out), (122, b""))
        self.says(ran, "node n has no room for the public section of m, 2,048 bytes")

    def test_what_is_wrong_is_told(self):
        ran = sancus("place", text=HEAD.replace(b"0x1000", b"0x1001", 1))
        self.assertEqual((ran.status, ran.out), (122, b""))
        self.says(ran, "fault deployment D10 device 0")
        ran = sancus("place", text=b'module = [ { name = "m", node = "n", provider = 7, source = "" } ]\n')
        self.assertEqual((ran.status, ran.out), (122, b""))
        self.says(ran, "below [[module]]")


if __name__ == "__main__":
    unittest.main()
