#!/usr/bin/env python3
"""Tests of the sample and of the script that uses up the numbers: what they are made of, and how large they are."""

import sys
import unittest
from collections import Counter
from pathlib import Path

sys.path.insert(0, str(Path(__file__).resolve().parent))

import console  # noqa: E402
import exhausted  # noqa: E402
import levels  # noqa: E402
import lines  # noqa: E402
import vectors  # noqa: E402


def kinds_of(output):
    """How often each first word was printed, and each refusal."""
    words = (answer.split(b" ") for answer in lines.lines_of(output))
    return Counter(b" ".join(some[:2]) if some[0] == b"refused" else some[0] for some in words)


class Sample(unittest.TestCase):
    def test_each_level_has_the_lines_of_those_before_it(self):
        before = set()
        for level in levels.LEVELS:
            script = set(lines.lines_of(vectors.script(level)))
            self.assertLess(before, script)
            before = script

    def test_it_is_the_same_each_time_and_not_too_large(self):
        script = vectors.script("all")
        self.assertEqual(script, vectors.script("all"))
        self.assertLess(len(script), 2_000_000)
        self.assertFalse(script.endswith(b"\n"))

    def test_every_answer_comes_up(self):
        kinds = kinds_of(console.run(vectors.script("all"), "all"))
        wanted = [b"value", b"none", b"error", b"request", b"answer", b"made", b"reply", b"code", b"0", b"partner",
                  b"sent", b"nothing", b"again", b"failed", b"withdrawn", b"answered", b"opened", b"found"]
        wanted += [b"refused %d" % number for number in range(3, 17)] + [b"refused 1"]
        self.assertEqual(set(kinds), set(wanted))
        for kind in wanted:
            self.assertGreaterEqual(kinds[kind], 10, kind)

    def test_calls_of_later_levels_are_not_understood(self):
        box = kinds_of(console.run(vectors.script("box"), "packets"))
        self.assertNotIn(b"made", box)
        self.assertNotIn(b"reply", box)

    def test_only_the_last_level_withdraws(self):
        self.assertNotIn(b"withdraw", vectors.script("transactions"))
        kinds = kinds_of(console.run(vectors.script("transactions"), "transactions"))
        for kind in (b"sent", b"again", b"failed", b"answered", b"refused 13", b"refused 15"):
            self.assertGreaterEqual(kinds[kind], 10, kind)


class Exhausted(unittest.TestCase):
    def test_the_end_of_the_numbers(self):
        script = b"".join(line + b"\n" for line in exhausted.script_lines())
        kinds = kinds_of(console.run(script, "all"))
        self.assertEqual((kinds[b"withdrawn"], kinds[b"answered"], kinds[b"again"]), (65535, 1, 1))
        self.assertEqual((kinds[b"sent"], kinds[b"refused 17"], kinds[b"refused 15"]), (65537, 2, 1))
        self.assertEqual((kinds[b"refused 13"], kinds[b"refused 1"], kinds[b"error"]), (3, 1, 0))

    def test_the_end_of_the_numbers_without_withdrawing(self):
        script = b"".join(line + b"\n" for line in exhausted.script_lines("transactions"))
        kinds = kinds_of(console.run(script, "transactions"))
        self.assertEqual((kinds[b"answered"], kinds[b"sent"], kinds[b"refused 17"]), (65536, 65537, 2))
        self.assertEqual((kinds[b"refused 12"], kinds[b"error"]), (1, 0))


if __name__ == "__main__":
    unittest.main()
