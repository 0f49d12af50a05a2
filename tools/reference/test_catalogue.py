#!/usr/bin/env python3
"""Tests of catalogue.py and of the console's calls of a catalogue: examples worked out by hand."""

import copy
import sys
import unittest
from pathlib import Path

sys.path.insert(0, str(Path(__file__).resolve().parent))

import console  # noqa: E402
from catalogue import (Again, Answered, Catalogue, Counts, Failed, Opened, discover, discovered)  # noqa: E402
from memory import BUFFER, SLAB, Part, hand_out, new_buffer, new_slab  # noqa: E402
from packets import Done, Told  # noqa: E402
from refusals import Refused  # noqa: E402


class Calls(unittest.TestCase):
    def setUp(self):
        self.catalogue = Catalogue(3000, 24000, 10)
        self.slab = new_slab()
        self.catalogue.enlist(9)

    def state(self):
        return copy.deepcopy(vars(self.catalogue)), bytes(self.slab)

    def assert_refused(self, wanted, call, *handed, field=None):
        before = self.state()
        with self.assertRaises(Refused) as caught:
            call(*handed)
        self.assertEqual((caught.exception.number, caught.exception.field), (wanted, field))
        self.assertEqual(self.state(), before)

    def test_making(self):
        for settings in [(1000, 1000, 0), (60000, 600000, 20), (60000, 60000, 20), (1000, 600000, 0)]:
            Catalogue(*settings)
        for settings in [(999, 1000, 0), (60001, 600000, 0), (1001, 1000, 0), (1000, 600001, 0), (1000, 1000, 21)]:
            self.assert_refused(13, Catalogue, *settings)

    def test_enlisting(self):
        self.assert_refused(14, self.catalogue.enlist, 9)
        for partner in range(1, 16):
            self.assertEqual(self.catalogue.enlist(100 + partner), partner)
        self.assert_refused(14, self.catalogue.enlist, 7)
        self.assert_refused(14, self.catalogue.enlist, 9)

    def test_opening(self):
        self.catalogue.enlist(8)
        self.slab[:] = b"." * len(self.slab)
        self.assertEqual(self.catalogue.open_write(1, 5, self.slab, [(101, b"90.50")]), Opened(0, Part(SLAB, 512, 21)))
        self.assertEqual(bytes(self.slab[510:536]), b"..{1.1:R:0:2:101:90.50}...")
        self.assertEqual(bytes(self.slab).count(b"."), len(self.slab) - 19)
        self.assertEqual(self.catalogue.open_read(0, 5, self.slab, [100, 4]), Opened(0, Part(SLAB, 0, 17)))
        self.assertEqual(self.catalogue.counts, Counts(opened=2))

    def test_grounds_of_opening(self):
        self.catalogue.open_read(0, 10, self.slab, [1])
        short = bytearray(8191)
        self.assert_refused(1, self.catalogue.open_read, 7, 9, short, [])
        self.assert_refused(1, self.catalogue.open_read, 7, 10**15 + 1, short, [])
        self.assert_refused(2, self.catalogue.open_read, 7, 10, short, [])
        self.assert_refused(10, self.catalogue.open_read, 1, 10, self.slab, [])
        self.assert_refused(13, self.catalogue.open_read, 0, 10, self.slab, [])
        self.assert_refused(13, self.catalogue.open_read, 0, 10, self.slab, [1] * 11)
        for text in (b"", b"a" * 41, b"a:b", b"{", b"\xff"):
            self.assert_refused(13, self.catalogue.open_write, 0, 10, self.slab, [(1, b"a"), (1, text)])
        self.assert_refused(15, self.catalogue.open_read, 0, 10, self.slab, [1] * 10)
        self.catalogue.partners[0].next_number = 65536
        self.assert_refused(15, self.catalogue.open_read, 0, 10, self.slab, [1])
        self.catalogue.withdraw(0)
        self.assert_refused(17, self.catalogue.open_read, 0, 10, self.slab, [1])
        self.assert_refused(13, self.catalogue.open_read, 0, 10, self.slab, [])

    def test_the_last_number(self):
        self.catalogue.partners[0].next_number = 65535
        opened = self.catalogue.open_write(0, 0, self.slab, [(65535, b"a" * 40)] * 10)
        self.assertEqual(opened, Opened(65535, Part(SLAB, 0, 485)))

    def test_polling_at_each_deadline(self):
        self.catalogue.open_read(0, 0, self.slab, [100])
        again = Again(Part(SLAB, 0, 15))
        for time, wanted in [(0, None), (2999, None), (3000, again), (8999, None), (9000, again), (20999, None),
                             (21000, again), (44999, None), (45000, Failed(0)), (45000, None)]:
            self.assertEqual(self.catalogue.poll(0, time), wanted, time)
        self.assertEqual(self.catalogue.counts, Counts(opened=1, failed=1, repeated=3))

    def test_a_late_poll_counts_from_its_own_time(self):
        self.catalogue.open_read(0, 0, self.slab, [100])
        self.catalogue.poll(0, 5000)
        self.assertEqual(self.catalogue.partners[0].waiting.deadline, 11000)

    def test_no_repeats(self):
        self.catalogue = Catalogue(1000, 600000, 0)
        self.catalogue.enlist(9)
        self.catalogue.open_read(0, 0, self.slab, [100])
        self.assertEqual(self.catalogue.poll(0, 1000), Failed(0))

    def test_times(self):
        self.assertIsNone(self.catalogue.poll(0, 50))
        self.assert_refused(1, self.catalogue.poll, 0, 49)
        self.assert_refused(10, self.catalogue.poll, 1, 60)
        self.assertIsNone(self.catalogue.poll(0, 50))
        self.assertIsNone(self.catalogue.poll(0, 10**15))
        self.assert_refused(1, self.catalogue.poll, 5, 10**15 + 1)
        self.catalogue.open_read(0, 10**15, self.slab, [100])
        self.assertIsNone(self.catalogue.poll(0, 10**15))

    def test_receiving(self):
        self.catalogue.enlist(8)
        self.catalogue.open_read(0, 0, self.slab, [100, 101])
        right = b"{1.0:A:0:1:0:By:7:1:Nil:0}"
        self.assert_refused(8, self.catalogue.receive, 5, b"{1.1:A:0:1:0:By:007}", field=6)
        self.assert_refused(9, self.catalogue.receive, 5, b"{1.1:R:0:1:100:101}")
        self.assert_refused(10, self.catalogue.receive, 5, right)
        self.assert_refused(10, self.catalogue.receive, 5, b"{1.1:A:0:3:0:St:M1:0:By:0}")
        for packet in (b"{1.1:A:1:1:0:By:7:1:Nil:0}", b"{1.1:A:0:2:0:0}", b"{1.1:A:0:1:0:By:7}",
                       b"{1.1:A:0:3:0:St:M1:0:By:0}"):
            self.assert_refused(12, self.catalogue.receive, 9, packet)
        self.assert_refused(12, self.catalogue.receive, 8, right)
        self.assertEqual(self.catalogue.receive(9, right), Answered(0, (Told(0, "By", b"7"), Told(1, "Nil", b"0"))))
        self.assert_refused(12, self.catalogue.receive, 9, right)
        self.assertEqual(self.catalogue.counts, Counts(opened=1, answered=1))
        self.assertEqual(self.catalogue.clock, 0)

    def test_answers_that_come_too_late(self):
        self.catalogue.open_write(0, 0, self.slab, [(100, b"1")])
        self.assertEqual(self.catalogue.withdraw(0), 0)
        self.assert_refused(16, self.catalogue.withdraw, 0)
        self.assert_refused(10, self.catalogue.withdraw, 1)
        self.assert_refused(12, self.catalogue.receive, 9, b"{1.1:A:0:2:0}")
        self.catalogue.open_write(0, 0, self.slab, [(100, b"2")])
        self.assert_refused(12, self.catalogue.receive, 9, b"{1.1:A:0:2:0}")
        self.assertEqual(self.catalogue.receive(9, b"{1.1:A:1:2:3}"), Answered(1, (Done(3),)))

    def test_discovery(self):
        buffer = new_buffer()
        part = discover(buffer)
        self.assertEqual(part, Part(BUFFER, 0, 15))
        self.assertEqual(hand_out(part, self.slab, buffer), b"{1.1:R:0:3:2:3}")
        self.assert_refused(2, discover, bytearray(511))
        self.assertEqual(discovered(b"{1.1:A:77:3:0:St:M1:1:Nil:0}"), (Told(0, "St", b"M1"), Told(1, "Nil", b"0")))
        self.assert_refused(9, discovered, b"{1.1:R:0:3:2:3}")
        self.assert_refused(12, discovered, b"{1.1:A:0:2:0:0}")
        self.assert_refused(6, discovered, b"{1.0:A:0:3:0:St:M1:1:Nil:0}", field=0)


EXAMPLE = [
    ("# a comment", None), ("value Do 2.2E17", "value 2.2E+17"), ("value  Si   -0", "value 0"), ("value In -0", "none"),
    ("value St \\xce\\xb1\\x20Lyr", "value \\xce\\xb1\\x20Lyr"), ("value St \\x56ega", "value Vega"),
    ("value St \\e", "none"), ("value Nil 0", "error"), ("value Do", "error"),
    ("packet {1.1:R:7:1:100:101}", "request 1.1 7 read 100 101"), ("packet {1.1:R:7:4:100}", "refused 7 3"),
    ("mount 9 S1 M1 100 199 100:St:Vega 101:Si:84.830", "made"), ("catalogue 1 3000 24000 10", "made"),
    ("enlist 1 9", "partner 0"), ("open-write 1 0 0 101=90.50", "sent 0 {1.1:R:0:2:101:90.50}"),
    ("handle 9 1 {1.1:R:0:2:101:90.50}", "reply {1.1:A:0:2:0}"), ("receive 1 9 {1.1:A:0:2:0}", "answered 0 0"),
    ("look 9 101", "0 Si 90.5"), ("counts 1", "opened 1 answered 1 failed 0 withdrawn 0 repeated 0 waiting 0"),
]


class Console(unittest.TestCase):
    def assert_printed(self, pairs):
        script = "".join(line + "\n" for line, _ in pairs).encode()
        wanted = [answer for _, answer in pairs if answer is not None]
        self.assertEqual(console.run(script, "all").decode().splitlines(), wanted)

    def test_the_example_of_the_rules(self):
        self.assert_printed(EXAMPLE)

    def test_a_conversation(self):
        self.assert_printed([
            ("catalogue 1 1000 2000 5", "made"), ("enlist 1 9", "partner 0"), ("enlist 1 9", "refused 14"),
            ("poll 1 0 0", "nothing due"), ("poll 1 0 1", "refused 10"), ("open-read 1 0 0", "refused 13"),
            ("open-read 1 0 0 7 65535", "sent 0 {1.1:R:0:1:7:65535}"), ("open-read 1 0 0 7", "refused 15"),
            ("poll 1 999 0", "nothing due"), ("poll 1 1000 0", "again {1.1:R:0:1:7:65535}"),
            ("poll 1 999 0", "refused 1"), ("poll 1 3000 0", "failed 0"), ("withdraw 1 0", "refused 16"),
            ("open-write 1 3000 0 5=a=\\x20b", "sent 1 {1.1:R:1:2:5:a=\\x20b}"), ("withdraw 1 0", "withdrawn 1"),
            ("receive 1 9 {1.1:A:1:2:0}", "refused 12"), ("receive 1 8 {1.1:A:1:2:0}", "refused 10"),
            ("receive 1 8 {1.1:A:1:2:4}", "refused 8 4"), ("open-read 1 3000 0 5", "sent 2 {1.1:R:2:1:5}"),
            ("receive 1 9 {1.1:A:2:1:0:St:\\xce\\xb1}", "answered 2 0:St:\\xce\\xb1"),
            ("discover 1", "sent 0 {1.1:R:0:3:2:3}"),
            ("discovered 1 {1.1:A:9:3:0:St:M1:3:Nil:0}", "found 0:St:M1 3:Nil:0"),
            ("discovered 1 {1.1:A:9:2:0}", "refused 12"),
            ("counts 1", "opened 3 answered 1 failed 1 withdrawn 1 repeated 1 waiting 0"),
        ])

    def test_lines_that_are_not_understood(self):
        for line in ("catalogue 2 1000 1000", "catalogue 2 1000 1000 0 0", "catalogue 2 1000 4294967296 0", "enlist 1",
                     "enlist 2 9", "enlist 1 -1", "open-read 1 0", "open-read 1 0 0 65536", "open-read 1 0 0 7=a",
                     "open-read 1 18446744073709551616 0 7", "open-write 1 0 0 7", "open-write 1 0 0 7=",
                     "open-write 1 0 0 =a", "open-write 1 0 0 07=a", "poll 1 0", "poll 1 0 0 0", "poll 9 0 0",
                     "withdraw 1", "receive 1 9", "receive 9 1 {}", "counts", "counts 9", "counts 2", "discover 9",
                     "discovered 9 {}", "discovered 1", "handle 1 9 {}", "look 1 0", "open 1 0 0 7"):
            with self.subTest(line=line):
                self.assert_printed([
                    ("catalogue 1 1000 1000 0", "made"), ("mount 9 S M 100 199 100:By:0", "made"), (line, "error"),
                    ("counts 1", "opened 0 answered 0 failed 0 withdrawn 0 repeated 0 waiting 0"),
                ])

    def test_a_station_takes_the_place_of_another(self):
        self.assert_printed([
            ("catalogue 1 1000 1000 0", "made"), ("enlist 1 1", "partner 0"), ("catalogue 1 1000 999 0", "refused 13"),
            ("enlist 1 1", "refused 14"), ("catalogue 1 1000 1000 0", "made"), ("enlist 1 1", "partner 0"),
            ("bare 1 0 9 5:By:0", "made"), ("counts 1", "error"), ("look 1 5", "0 By 0"),
            ("catalogue 1 1000 1000 0", "made"), ("look 1 5", "error"),
        ])


if __name__ == "__main__":
    unittest.main()
