#!/usr/bin/env python3
"""Tests of box.py and of the console's calls of a box: examples worked out by hand."""

import sys
import unittest
from pathlib import Path

sys.path.insert(0, str(Path(__file__).resolve().parent))

import console  # noqa: E402
from box import Box, Record  # noqa: E402
from memory import BUFFER, SLAB, Part, hand_out, new_buffer, new_slab  # noqa: E402
from refusals import Refused  # noqa: E402
from stores import HouseRecord, Item, Joined, Shelf  # noqa: E402


class Handling(unittest.TestCase):
    def setUp(self):
        shelf = Shelf(100, 199, [Item(100, "St", b"Vega"), Item(101, "Si", b"84.830"), Item(102, "By", b"7", True)])
        self.box = Box(Joined(HouseRecord(b"S1", b"M1"), shelf))
        self.slab, self.buffer = new_slab(), new_buffer()

    def reply(self, sender, packet):
        return hand_out(self.box.handle(sender, packet, self.slab, self.buffer), self.slab, self.buffer)

    def assert_refused(self, number, sender, packet, field=None):
        before = (list(self.box.records), bytes(self.slab), bytes(self.buffer))
        with self.assertRaises(Refused) as caught:
            self.box.handle(sender, packet, self.slab, self.buffer)
        self.assertEqual((caught.exception.number, caught.exception.field), (number, field))
        self.assertEqual(before, (list(self.box.records), bytes(self.slab), bytes(self.buffer)))

    def test_replies(self):
        self.assertEqual(self.reply(1, b"{1.1:R:7:1:100:101:4}"), b"{1.1:A:7:1:0:St:Vega:0:Si:84.83:1:Nil:0}")
        self.assertEqual(self.reply(1, b"{1.0:R:8:2:101:90.50:101:x:9999:1}"), b"{1.0:A:8:2:0:2:3}")
        self.assertEqual(self.reply(1, b"{1.1:R:9:1:101}"), b"{1.1:A:9:1:0:Si:90.5}")
        self.assertEqual(self.reply(1, b"{1.1:R:10:2:102:7:3:0:4:0}"), b"{1.1:A:10:2:2:2:1}")

    def test_groups_see_what_came_before(self):
        self.assertEqual(self.reply(1, b"{1.1:R:0:2:101:1:101:x:101:3}"), b"{1.1:A:0:2:0:2:0}")
        self.assertEqual(self.reply(1, b"{1.1:R:1:1:101}"), b"{1.1:A:1:1:0:Si:3}")

    def test_numbers(self):
        first = self.reply(1, b"{1.1:R:5:2:101:1}")
        self.assert_refused(11, 1, b"{1.1:R:4:2:101:2}")
        self.assertEqual(self.reply(2, b"{1.1:R:0:2:101:3}"), b"{1.1:A:0:2:0}")
        for repeat in (b"{1.1:R:5:2:101:1}", b"{1.0:R:5:1:100:101}"):
            self.assertEqual(self.reply(1, repeat), first)
        self.assertEqual(self.reply(2, b"{1.1:R:65535:1:101}"), b"{1.1:A:65535:1:0:Si:3}")
        self.assert_refused(11, 2, b"{1.1:R:65534:1:101}")

    def test_a_kept_reply_is_not_the_present_state(self):
        kept = self.reply(1, b"{1.1:R:5:1:101}")
        self.reply(2, b"{1.1:R:0:2:101:1}")
        self.assertEqual(self.reply(1, b"{1.1:R:5:1:101}"), kept)
        self.assertEqual(kept, b"{1.1:A:5:1:0:Si:84.83}")

    def test_a_short_reply_after_a_long_one(self):
        self.reply(1, b"{1.1:R:0:1:100:100:100}")
        self.assertEqual(self.reply(1, b"{1.1:R:1:2:100:x}"), b"{1.1:A:1:2:0}")
        self.assertEqual(self.reply(1, b"{1.1:R:1:2:100:x}"), b"{1.1:A:1:2:0}")
        self.assertEqual(bytes(self.slab[:33]), b"{1.1:A:1:2:0}St:Vega:0:St:Vega:0:")

    def test_places(self):
        self.assertEqual(self.box.handle(9, b"{1.1:R:0:1:101}", self.slab, self.buffer), Part(SLAB, 0, 22))
        self.assertEqual(self.box.handle(8, b"{1.1:R:3:1:101}", self.slab, self.buffer), Part(SLAB, 512, 22))
        self.assertEqual(self.box.handle(8, b"{1.1:R:0:3:2:3}", self.slab, self.buffer), Part(BUFFER, 0, 26))
        self.assertEqual(self.box.records, [Record(9, 0, 22), Record(8, 3, 22)])

    def test_seventeen_senders(self):
        for sender in range(16):
            self.assertEqual(self.reply(sender, b"{1.1:R:%d:1:101}" % sender), b"{1.1:A:%d:1:0:Si:84.83}" % sender)
        self.assert_refused(10, 16, b"{1.1:R:0:1:101}")
        self.assertEqual(self.reply(16, b"{1.1:R:0:3:2:3}"), b"{1.1:A:0:3:0:St:M1:0:By:0}")
        self.reply(15, b"{1.1:R:20:2:101:1}")
        self.assertEqual(self.reply(7, b"{1.1:R:7:1:101}"), b"{1.1:A:7:1:0:Si:84.83}")
        self.assert_refused(11, 15, b"{1.1:R:19:1:101}")

    def test_discovery_leaves_everything(self):
        self.reply(1, b"{1.1:R:5:1:101}")
        slab, records = bytes(self.slab), list(self.box.records)
        for sender in (1, 2):
            self.assertEqual(self.reply(sender, b"{1.1:R:5:3:2:3}"), b"{1.1:A:5:3:0:St:M1:0:By:0}")
        self.assertEqual((slab, records), (bytes(self.slab), self.box.records))
        self.assertEqual(bytes(self.buffer[26:]), bytes(512 - 26))

    def test_grounds(self):
        self.assert_refused(9, 1, b"{1.1:A:0:2:0}")
        self.assert_refused(9, 1, b"{1.1:A:0:3:0:St:M1:0:By:0}")
        self.assert_refused(8, 1, b"{1.1:R:0:1}", 4)
        self.assert_refused(3, 1, b"a" * 513)
        self.slab, self.buffer = bytearray(8191), new_buffer()
        self.assert_refused(2, 1, b"a" * 513)
        self.slab, self.buffer = bytearray(9000), bytearray(511)
        self.assert_refused(2, 1, b"{1.1:R:0:1:101}")
        self.assertRaises(Refused, hand_out, Part(SLAB, 512 * 15, 513), new_slab(), new_buffer())
        self.assertRaises(Refused, hand_out, Part(BUFFER, 0, 513), new_slab(), new_buffer())


class Console(unittest.TestCase):
    def assert_printed(self, script, wanted):
        self.assertEqual(console.run(script, "box").decode().splitlines(), wanted)

    def test_a_box_without_a_house_record(self):
        self.assert_printed(b"""bare 8 100 199 100:By:0
handle 8 1 {1.1:R:0:3:2:3}
bare 8 2 2 2:Do:2.50
handle 8 1 {1.1:R:9:3:2:3}
bare 8 0 9 3:St:\\x20
handle 8 1 {1.1:R:9:3:2:3}""", [
            "made", "reply {1.1:A:0:3:3:Nil:0:3:Nil:0}", "made", "reply {1.1:A:9:3:0:Do:2.5:3:Nil:0}",
            "made", "reply {1.1:A:9:3:1:Nil:0:0:St:\\x20}"])

    def test_making(self):
        self.assert_printed(b"""mount 9 S M 99 199 150:By:0
mount 9 S M 100 199 150:By:0
mount 9 S M 99 199 150:By:0
look 9 150
library 9 S M \\xce\\xb1:0:-5
look 9 100
look 9 102
dome 9 S M a:0:0 / 102 199 150:By:0
dome 9 S M a:0:0 / 103 199 150:By:0:fixed
dome 9 / / a:0:0 / 103 199 150:By:1
look 9 1
look 9 150
mount 9 S M 100 199""", [
            "refused 13", "made", "refused 13", "0 By 0", "made", "0 St \\xce\\xb1 fixed", "0 In -5 fixed",
            "refused 13", "made", "made", "0 St / fixed", "0 By 1", "refused 13"])

    def test_lines_that_are_not_understood(self):
        made = b"bare 9 100 199 100:By:0\n"
        for line in (b"bare 9 100", b"bare 9 100 65536 100:By:0", b"bare 9 100 199 100:By", b"bare 9 100 199 100:By:",
                     b"bare 9 100 199 100:By:0:", b"bare 9 100 199 100:By:0:Fixed", b"bare 9 100 199 100:Nil:0",
                     b"bare 4294967296 100 199 100:By:0", b"bare 9 0100 199 100:By:0", b"mount 9 S M 100",
                     b"library 9 S", b"library 9 S M a:0", b"library 9 S M a:0:2147483648", b"library 9 S M a:-0:0",
                     b"library 9 S M :0:0", b"dome 9 S M a:0:0 100 199 100:By:0",
                     b"dome 9 S M a:0:0 / / 200 201 200:By:0", b"dome 9 S M a:0:0 / 200", b"look 9", b"look 9 65536",
                     b"look 8 1", b"handle 8 1 {}", b"handle 9 1", b"handle 9 -1 {}",
                     b"owner-write 9 100 Nil 0", b"owner-write 9 100 By", b"owner-write 8 100 By 0"):
            with self.subTest(line=line):
                self.assert_printed(made + line + b"\nlook 9 100", ["made", "error", "0 By 0"])

    def test_owner_and_packets(self):
        self.assert_printed(b"""mount 9 S M 100 199 100:Si:1
handle 9 1 {1.1:R:0:2:100:2.0}
owner-write 9 100 Si 3.0
owner-write 9 100 Do 4
owner-write 9 101 Do 4
owner-write 9 200 Do x
handle 9 1 {1.1:R:0:2:100:2.0}
look 9 100
handle 9 1 {1.1:R:1:1:100}""", [
            "made", "reply {1.1:A:0:2:0}", "code 0", "code 2", "code 1", "code 3", "reply {1.1:A:0:2:0}", "0 Si 3",
            "reply {1.1:A:1:1:0:Si:3}"])


if __name__ == "__main__":
    unittest.main()
