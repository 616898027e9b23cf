"""`sancus hex` and examples/c_attacker. What needs clang for MSP430 is passed over if that isn't there."""

import os
import shutil
import struct
import subprocess
import unittest

from support import EXAMPLES, LIGHTING, PROGRAM, SANCUS, Room, needs_program, program

CLANG = (
    all(shutil.which(it) for it in ("clang", "ld.lld", "llvm-nm"))
    and "msp430" in subprocess.run(["clang", "--print-targets"], capture_output=True, text=True).stdout
)
INPUT = EXAMPLES / "lighting.txt"

TI_TXT = "@8000\n" + "31 40 00 0C B0 12 12 80 FF 3F 43 43 92 53 08 06\n" + "00 13\n" + "@FFFE\n00 80\nq\n"
INTEL_HEX = (
    ":108000003140000CB0121280FF3F434392530806E8\n:0280100000135B\n:02FFFE00008081\n:040000050000800077\n:00000001FF\n"
)


class Hex(Room):
    def setUp(self):
        super().setUp()
        (self.room / "a.txt").write_text(TI_TXT)
        (self.room / "a.hex").write_text(INTEL_HEX)

    def hex(self, *words):
        env = {**os.environ, "SANCUS_PROGRAM": PROGRAM or "/bin/false"}
        return subprocess.run([SANCUS, "hex", *words], cwd=self.room, capture_output=True, text=True, env=env)

    def test_one_format_as_another(self):
        self.assertEqual(self.hex("convert", "a.txt", "--format", "hex").stdout, INTEL_HEX)
        self.assertEqual(self.hex("convert", "a.hex", "--format", "ti").stdout, TI_TXT)

    def test_put(self):
        for file in ("a.txt", "a.hex"):
            ran = self.hex("put", "n", file, "--pc")
            lines = ["put n 0x8000 3140000cb0121280ff3f4343925308060013", "put n 0xfffe 0080", "set n pc 0x8000"]
            self.assertEqual(ran.stdout.splitlines(), [f"# {file}: 20 bytes", *lines])

    def test_pieces(self):
        (self.room / "b.txt").write_text("@0200\n" + "00 " * 1025 + "\nq\n")
        lines = self.hex("put", "n", "b.txt").stdout.splitlines()
        self.assertEqual([len(it.split()[3]) // 2 for it in lines[1:]], [1024, 1])
        self.assertEqual(lines[2].split()[2], "0x0600")

    def test_meetings(self):
        (self.room / "c.txt").write_text("@0000\n00\n@4900\n00 01\n@1000\n00\nq\n")
        told = self.hex("put", "a", "c.txt", "--input", str(INPUT)).stderr
        self.assertIn("meets the public section of eye, 0x4000 to 0x4980", told)
        self.assertIn("meets the device light", told)
        self.assertIn("meets address 0", told)
        self.assertEqual(self.hex("put", "b", "a.txt", "--input", str(INPUT)).stderr, "")
        self.assertIn("there is no node c", self.hex("put", "c", "a.txt", "--input", str(INPUT)).stderr)

    def test_what_is_no_file(self):
        for name, text, words in (
            ("d.hex", ":00000001FE\n", "line 1 is no record"),
            ("g.hex", "\n:0000zz01FF\n", "line 2 is no record"),
            ("d.txt", "00 01\nq\n", "line 1 has bytes before an address: a file is ELF, Intel HEX"),
            ("evil.c", "#include <x.h>\nint main() {}\n", "line 1 has no address: a file is ELF, Intel HEX"),
            ("h.txt", "@0200\n00 0x01\nq\n", "line 2 is no bytes in hexadecimal"),
            ("i.txt", "@xyz\n00\nq\n", "line 1: after `@` comes an address"),
            ("e.txt", "@FFFF\n00 01\nq\n", "pass the end of memory"),
            ("f.txt", "@0200\n00 01\n@0201\n00\nq\n", "two parts meet at 0x0201"),
        ):
            (self.room / name).write_text(text)
            ran = self.hex("put", "n", name)
            self.assertEqual((ran.returncode, ran.stdout), (122, ""))
            self.assertIn(words, ran.stderr)

    @needs_program
    def test_images(self):
        ran = self.hex("image", str(INPUT), "--to", "images")
        self.assertIn("images/node_a.txt: 0x4000 to 0x4980, 0x6000 to 0x6c00\n", ran.stdout)
        text = (self.room / "images" / "logic.txt").read_text()
        self.assertTrue(text.startswith("@6000\n82 41 94 20"))
        shutil.copy(self.room / "images" / "node_a.txt", self.room)
        lines = self.hex("put", "a", "node_a.txt").stdout.splitlines()
        shown = program("run", text=LIGHTING).out.decode()
        image = shown.partition("image eye ")[2].partition("\n")[0]
        self.assertEqual("".join(it.split()[3] for it in lines[1:4]), image)

    @needs_program
    def test_nothing_is_overwritten(self):
        folder = self.room / "images"
        for form in ("ti", "hex", "ti"):
            self.assertEqual(self.hex("image", str(INPUT), "--to", "images", "--format", form).returncode, 0)
        mine = folder / "logic.txt"
        for text in ("my notes\n", "@6000\n82 41\nq", TI_TXT.replace("@FFFE", "@fffe")):
            mine.write_text(text)
            eye = (folder / "eye.txt").stat().st_mtime_ns
            ran = self.hex("image", str(INPUT), "--to", "images")
            self.assertEqual((ran.returncode, ran.stdout, mine.read_text()), (121, "", text))
            self.assertIn("logic.txt is there, and is no file of `hex image`: --force writes over it", ran.stderr)
            self.assertEqual((folder / "eye.txt").stat().st_mtime_ns, eye)
        self.assertEqual(self.hex("image", str(INPUT), "--to", "images", "--force").returncode, 0)
        self.assertTrue(mine.read_text().startswith("@6000\n82 41 94 20"))
        shutil.copy(INPUT, self.room / "eye.txt")
        ran = self.hex("image", "eye.txt", "--force")
        self.assertEqual((ran.returncode, (self.room / "eye.txt").read_bytes()), (121, LIGHTING))
        self.assertIn("eye.txt is an input", ran.stderr)

    def test_elf_files_that_are_not_taken(self):
        def elf(kind, machine=105, sections=0):
            return b"\x7fELF\x01\x01" + bytes(10) + struct.pack("<HHIIIIIHHHHHH", kind, machine, 1, 0, 0, 52, 0, 52, 32, 0, 40, sections, 0)

        for data, said in (
            (elf(1), "this ELF isn't linked, so its parts have no addresses"),
            (elf(2, 62), "an ELF for machine 62, and not for 105, MSP430"),
            (elf(2, sections=1), "the ELF file is cut"),
            (elf(2)[:30], "the ELF file is cut"),
            (b"\x7fELF", "no little-endian ELF of 32 bits"),
        ):
            (self.room / "x.elf").write_bytes(data)
            ran = self.hex("put", "n", "x.elf")
            self.assertEqual((ran.returncode, ran.stdout), (122, ""))
            self.assertIn(f"x.elf: {said}" if said[0] == "t" else said, ran.stderr)

    def test_a_name_makes_no_line(self):
        name = "a\nreset n\n.txt"
        (self.room / name).write_text(TI_TXT)
        self.assertEqual(self.hex("put", "n", name).stdout.splitlines()[0], r"# a\x0areset n\x0a.txt: 20 bytes")

    @unittest.skipUnless(CLANG, "clang for MSP430 isn't here")
    def test_elf_and_intel_hex_agree(self):
        subprocess.run([EXAMPLES / "c_attacker" / "run.sh", self.room], check=True, capture_output=True)
        subprocess.run(["llvm-objcopy", "-O", "ihex", "attacker.elf", "attacker.hex"], cwd=self.room, check=True)
        one, other = (self.hex("put", "a", f"attacker.{it}").stdout.splitlines()[1:] for it in ("elf", "hex"))
        self.assertEqual(one, other)

    @unittest.skipUnless(CLANG and PROGRAM, "clang for MSP430 or the program isn't here")
    def test_a_c_program_attacks(self):
        for level in ("-O0", "-O2", "-Os"):
            with self.subTest(level):
                words = [EXAMPLES / "c_attacker" / "run.sh", self.room]
                subprocess.run(words, check=True, capture_output=True, env={**os.environ, "LEVEL": level})
                text = (self.room / "input.txt").read_bytes()
                items = program("run", text=text).lines
                shown = [
                    it for it in items if it.split()[0] in ("raw", "read", "take", "out", "reset", "drain", "skip")
                ]
                first = [
                    "read eye 120",
                    "raw port 257",
                    "take logic up 0 120",
                    "raw port 513",
                    "raw port 2001",
                    "raw port 772",
                ]
                first += [
                    "raw port 13333",
                    "drain knob",
                    "raw port 5",
                    "take lamp down 0 1",
                    "out lamp 1",
                    "read eye 50",
                ]
                self.assertEqual(shown[: len(first)], first)
                self.assertEqual(shown[-2:], ["raw port 7", "reset a read"])


if __name__ == "__main__":
    unittest.main()
