#!/usr/bin/env python3
"""Tests of lines.py and console.py: the notation of byte strings, and what each kind of line prints."""

import sys
import unittest
from pathlib import Path

sys.path.insert(0, str(Path(__file__).resolve().parent))

import console  # noqa: E402
import levels  # noqa: E402
import random_lines  # noqa: E402
from dice import Dice  # noqa: E402
from lines import decode, encode, lines_of, words_of  # noqa: E402


class Words(unittest.TestCase):
    def test_encode(self):
        self.assertEqual(encode(b""), b"\\e")
        self.assertEqual(encode(b"Vega"), b"Vega")
        self.assertEqual(encode("α Lyr".encode()), b"\\xce\\xb1\\x20Lyr")
        self.assertEqual(encode(b"\\\x7f\x00~!"), b"\\x5c\\x7f\\x00~!")

    def test_decode(self):
        self.assertEqual(decode(b"\\e"), b"")
        self.assertEqual(decode(b"\\x5cx41"), b"\\x41")
        self.assertEqual(decode(b"\\x41\\x42"), b"AB")
        for bad in (b"", b"\\", b"\\\\", b"\\x", b"\\x4", b"\\xC3", b"\\X41", b"\\n", b"a\\e",
                    b"\\ea", b"a b", b"\t", b"\xc3\xa9", b"\x7f", b"a\n"):
            self.assertIsNone(decode(bad), bad)

    def test_there_and_back(self):
        dice = Dice(3)
        for byte in range(256):
            self.assertEqual(decode(encode(bytes([byte]))), bytes([byte]))
        for length in range(200):
            text = dice.bytes(length)
            self.assertEqual(decode(encode(text)), text)

    def test_lines_and_words(self):
        self.assertEqual(lines_of(b""), [])
        self.assertEqual(lines_of(b"a\nb"), [b"a", b"b"])
        self.assertEqual(lines_of(b"a\n\nb\n"), [b"a", b"", b"b"])
        self.assertEqual(words_of(b"  a  b\tc "), [b"a", b"b\tc"])
        self.assertEqual(words_of(b"   "), [])


class Console(unittest.TestCase):
    def test_answers(self):
        for line, wanted in [
            (b"", b""), (b"# x", b""), (b"#", b""), (b" # x", b"error\n"), (b"  ", b"error\n"), (b"\r", b"error\n"),
            (b"value Do 2.2E17", b"value 2.2E+17\n"), (b"  value   Si  -0 ", b"value 0\n"), (b"value In -0", b"none\n"),
            (b"value St \\xce\\xb1\\x20Lyr", b"value \\xce\\xb1\\x20Lyr\n"), (b"value St \\x56ega", b"value Vega\n"),
            (b"value St \\e", b"none\n"), (b"value St \\x5c", b"value \\x5c\n"), (b"value Nil 0", b"error\n"),
            (b"value Do", b"error\n"),
            (b"value Do 1 2", b"error\n"), (b"value Bo True\r", b"error\n"), (b"value\tBo True", b"error\n"),
            (b"value St \\xC3", b"error\n"),
            (b"value St \xc3\xa9", b"error\n"), (b"\\x76alue Bo True", b"error\n"), (b"value \\x42o True", b"error\n"),
        ]:
            with self.subTest(line=line):
                self.assertEqual(console.run(line + b"\n"), wanted)
                self.assertEqual(console.run(line), wanted)

    def test_each_line_by_itself(self):
        for level in ("values", "packets"):
            script = random_lines.script(5, 2000, level)
            self.assertEqual(len(lines_of(script)), 2000)
            alone = b"".join(console.run(line, level) for line in lines_of(script))
            self.assertEqual(console.run(script, level), alone)


class Levels(unittest.TestCase):
    def test_only_the_calls_of_a_level_are_known(self):
        line = b"packet {1.1:R:7:1:100}"
        self.assertEqual(console.run(line, "values"), b"error\n")
        self.assertEqual(console.run(line, "packets"), b"request 1.1 7 read 100\n")
        self.assertEqual(console.run(b"value By 7", "packets"), b"value 7\n")
        made = b"catalogue 1 1000 1000 0\nenlist 1 9\nwithdraw 1 0"
        self.assertEqual(console.run(made, "transactions"), b"made\npartner 0\nerror\n")
        self.assertEqual(console.run(made, "catalogue"), b"made\npartner 0\nrefused 16\n")

    def test_names(self):
        self.assertEqual(levels.named("all"), "catalogue")
        self.assertTrue(levels.knows("catalogue", "transactions"))
        self.assertFalse(levels.knows("transactions", "catalogue"))
        self.assertEqual(levels.up_to("box"), ("values", "packets", "box"))
        self.assertEqual(levels.chosen(["7", "--level", "box", "9"]), ("box", ["7", "9"]))
        self.assertRaises(SystemExit, levels.named, "boxes")
        self.assertRaises(SystemExit, levels.chosen, ["--level"])


if __name__ == "__main__":
    unittest.main()
