#!/usr/bin/env python3
"""Tests of packets.py: examples worked out by hand, and what holds of every packet."""

import re
import sys
import unittest
from pathlib import Path

sys.path.insert(0, str(Path(__file__).resolve().parent))

import console  # noqa: E402
import packet_texts  # noqa: E402
import packet_vectors  # noqa: E402
import packets  # noqa: E402
import values  # noqa: E402
from dice import Dice  # noqa: E402
from packets import Asked, Done, Message, Place, Put, Told, read, write  # noqa: E402
from refusals import Refused  # noqa: E402


def refusal_of(packet):
    """The number of the refusal and its field, or None if the packet is read."""
    try:
        read(packet)
    except Refused as refused:
        return refused.number, refused.field
    return None


# Packets, and the refusal of each: its number and the field at fault.
REFUSED = [
    (b"", 4, None), (b"{", 4, None), (b"}", 4, None), (b"}{", 4, None), (b"{1.1:R:7:1:100", 4, None),
    (b"{1.1:R:7:{:1}", 4, None), (b"1.1:R:7:1:100}", 4, None), (b"\xff}", 4, None), (b"{{}", 4, None),
    (b"{1.1:R:7:2:100:\xff}", 5, None), (b"{\xff}", 5, None), (b"{1.1:R:7:2:100:\xce:\xb1}", 5, None),
    (b"{}", 6, 0), (b"{:}", 6, 0), (b"{1.2:R:7:1:100}", 6, 0), (b"{1.0:R:7:3:2:3}", 6, 0), (b"{1.0:X:99999:3}", 6, 0),
    (b"{1.0:X:7:03}", 6, 1), (b"{1.0:X:7}", 6, 1), (b"{1.1}", 6, 1), (b"{1.1:}", 6, 1), (b"{1.1:r:7:1:100}", 6, 1),
    (b"{1.0:R:7:03}", 6, 3), (b"{1.1:R:07:1:100}", 6, 2), (b"{1.1:R:65536:1:100}", 6, 2), (b"{1.1:R}", 6, 2),
    (b"{1.1:R:-1:1:100}", 6, 2), (b"{1.1:R:-0:1:100}", 6, 2), (b"{1.1:R::1:100}", 6, 2),
    (b"{1.1:R:7}", 6, 3), (b"{1.1:R:7:}", 6, 3), (b"{1.1:R:7:256:100}", 6, 3), (b"{1.1:R:7:01:100}", 6, 3),
    (b"{1.1:R:7:4:100}", 7, 3), (b"{1.1:R:7:0}", 7, 3), (b"{1.0:A:7:255}", 7, 3), (b"{1.1:A:7:33:x}", 7, 3),
    (b"{1.1:R:7:1}", 8, 4), (b"{1.1:R:7:1:}", 8, 4), (b"{1.1:R:7:1:65536}", 8, 4), (b"{1.1:R:7:1:100:}", 8, 5),
    (b"{1.1:R:7:1:0:1:2:3:4:5:6:7:8:9:10}", 8, 14), (b"{1.1:R:7:1:0:1:2:3:4:5:6:7:8:x:10}", 8, 13),
    (b"{1.1:R:7:2:100}", 8, 5), (b"{1.1:R:7:2:100:}", 8, 5), (b"{1.1:R:7:2:100:Vega:101}", 8, 7),
    (b"{1.1:R:7:2" + b":1:a" * 10 + b":}", 8, 24), (b"{1.1:R:7:2" + b":1:a" * 9 + b":1}", 8, 23),
    (b"{1.1:R:7:2:100:" + b"a" * 41 + b"}", 8, 5), (b"{1.1:R:7:3:3:2}", 8, 4), (b"{1.1:R:7:3:2}", 8, 5),
    (b"{1.1:R:7:3}", 8, 4), (b"{1.1:R:7:3:2:2}", 8, 5), (b"{1.1:R:7:3:2:3:4}", 8, 6), (b"{1.1:R:7:3:2:3:}", 8, 6),
    (b"{1.1:A:7:1:4:Nil:0}", 8, 4), (b"{1.1:A:7:1:00:By:0}", 8, 4), (b"{1.1:A:7:1:4}", 8, 4),
    (b"{1.1:A:7:1:0:Nil:0}", 8, 5), (b"{1.1:A:7:1:1:By:0}", 8, 5), (b"{1.1:A:7:1:0:by:0}", 8, 5),
    (b"{1.1:A:7:1:0}", 8, 5), (b"{1.1:A:7:1:1:Nil:1}", 8, 6), (b"{1.1:A:7:1:0:By:256}", 8, 6),
    (b"{1.1:A:7:1:0:By}", 8, 6), (b"{1.1:A:7:1:0:St:}", 8, 6), (b"{1.1:A:7:1:3:Nil}", 8, 6),
    (b"{1.1:A:7:1" + b":0:By:0" * 10 + b":0:By:0}", 8, 34), (b"{1.1:A:7:2" + b":0" * 11 + b"}", 8, 14),
    (b"{1.1:A:7:2:4}", 8, 4), (b"{1.1:A:7:2:0:}", 8, 5), (b"{1.1:A:7:3:0:St:M1}", 8, 7),
    (b"{1.1:A:7:3:0:St:M1:0:By:0:0}", 8, 10), (b"{1.1:A:7:3:0:St:M1:0:By}", 8, 9),
    (b"{" + b"a" * 510 + b"}", 6, 0), (b"{" + b"a" * 511 + b"}", 3, None), (b"a" * 513, 3, None),
    (b"\xff" * 513, 3, None), (b"{1.1:R:7:1" + b":0" * 250 + b"}", 8, 14),
    (b"{1.1:R:7:1" + b":0" * 251 + b"}", 3, None),
]


class Examples(unittest.TestCase):
    def test_refusals(self):
        for packet, number, field in REFUSED:
            with self.subTest(packet=packet):
                self.assertEqual(refusal_of(packet), (number, field))

    def test_lengths_of_the_examples(self):
        self.assertEqual(len(b"{1.1:R:7:1" + b":0" * 250 + b"}"), 511)
        self.assertEqual(len(b"{1.1:R:7:1" + b":0" * 251 + b"}"), 513)

    def test_messages(self):
        for packet, wanted in [
            (b"{1.1:R:7:1:100:101}", Message(b"1.1", b"R", 7, 1, (Asked(100), Asked(101)))),
            (b"{1.0:R:7:1:100:100}", Message(b"1.0", b"R", 7, 1, (Asked(100), Asked(100)))),
            (b"{1.1:R:7:2:100:Vega}", Message(b"1.1", b"R", 7, 2, (Put(100, b"Vega"),), (Place(15, 4),))),
            (b"{1.1:R:7:2:100:Vega:101:84.830}",
             Message(b"1.1", b"R", 7, 2, (Put(100, b"Vega"), Put(101, b"84.830")), (Place(15, 4), Place(24, 6)))),
            (b"{1.1:A:7:1:0:Si:84.830:1:Nil:0}",
             Message(b"1.1", b"A", 7, 1, (Told(0, "Si", b"84.830"), Told(1, "Nil", b"0")),
                     (Place(16, 6), Place(29, 1)))),
            (b"{1.1:A:7:2:0:2}", Message(b"1.1", b"A", 7, 2, (Done(0), Done(2)))),
            (b"{1.1:R:7:3:2:3}", Message(b"1.1", b"R", 7, 3, (Asked(2), Asked(3)))),
            (b"{1.1:A:7:3:0:St:M1:0:By:0}",
             Message(b"1.1", b"A", 7, 3, (Told(0, "St", b"M1"), Told(0, "By", b"0")), (Place(16, 2), Place(24, 1)))),
        ]:
            with self.subTest(packet=packet):
                self.assertEqual(read(packet), wanted)
                self.assertEqual(write(wanted), packet)

    def test_the_longest(self):
        longest = packets.request(65535, packets.WRITE, [Put(65535, b"a" * 40)] * 10)
        self.assertEqual(len(longest), 485)
        self.assertEqual(len(read(longest).groups), 10)
        answered = packets.answer(Message(b"1.1", b"R", 65535, 1, ()), [Told(0, "St", b"a" * 40)] * 10)
        self.assertEqual(len(answered), 475)
        self.assertEqual(len(read(answered).groups), 10)

    def test_writing(self):
        self.assertEqual(packets.discovery_request(), b"{1.1:R:0:3:2:3}")
        self.assertEqual(packets.request(7, packets.READ, [Asked(100), Asked(4)]), b"{1.1:R:7:1:100:4}")
        to = read(b"{1.0:R:8:1:101:4}")
        groups = [packets.told(0, values.read("Si", b"84.830")), packets.told(1)]
        self.assertEqual(packets.answer(to, groups), b"{1.0:A:8:1:0:Si:84.83:1:Nil:0}")


class Console(unittest.TestCase):
    def test_lines(self):
        for line, wanted in [
            (b"packet {1.1:R:7:1:100:101}", b"request 1.1 7 read 100 101"), (b"packet {1.1:R:7:4:100}", b"refused 7 3"),
            (b"packet {1.0:R:65535:2:0:\\xce\\xb1\\x20Lyr:1:a=b}",
             b"request 1.0 65535 write 0=\\xce\\xb1\\x20Lyr 1=a=b"),
            (b"packet {1.1:R:7:3:2:3}", b"request 1.1 7 discovery"),
            (b"packet {1.0:A:7:1:0:Si:84.830:1:Nil:0}", b"answer 1.0 7 read 0:Si:84.830 1:Nil:0"),
            (b"packet {1.1:A:7:2:0:2}", b"answer 1.1 7 write 0 2"),
            (b"packet {1.1:A:7:3:0:St:M1:0:By:0}", b"answer 1.1 7 discovery 0:St:M1 0:By:0"),
            (b"packet \\e", b"refused 4"), (b"packet {}", b"refused 6 0"), (b"packet", b"error"),
            (b"packet {} {}", b"error"), (b"packet {1.1:R:7:2:100:\\e}", b"error"),
            (b"packet \\x7b\\x7d", b"refused 6 0"),
        ]:
            with self.subTest(line=line):
                self.assertEqual(console.run(line, "packets"), wanted + b"\n")


NUMERAL = rb"(?:0|[1-9][0-9]{0,4})"
TEXT = rb"[^{}:]{1,40}"
GROUP = rb"(?:0:(?:Bo|In|Sh|USh|Lo|Si|Do|By|St):[^{}:]{1,40}|[123]:Nil:0)"
HEAD = rb"1\.[01]:%s:" + NUMERAL
WHOLE = re.compile(rb"\{(?:" + rb"|".join([
    HEAD % b"R" + rb":1(?::" + NUMERAL + rb"){1,10}",
    HEAD % b"A" + rb":1(?::" + GROUP + rb"){1,10}",
    HEAD % b"R" + rb":2(?::" + NUMERAL + rb":" + TEXT + rb"){1,10}",
    HEAD % b"A" + rb":2(?::[0123]){1,10}",
    rb"1\.1:R:" + NUMERAL + rb":3:2:3",
    rb"1\.1:A:" + NUMERAL + rb":3(?::" + GROUP + rb"){2}",
]) + rb")\}", re.DOTALL)


def kept_by_form(packet):
    """Whether a packet keeps all rules, told by one pattern instead of field by field."""
    if not values.is_utf8(packet) or not WHOLE.fullmatch(packet):
        return False
    fields = packet[1:-1].split(b":")
    numbers = [fields[2]]
    if fields[1] == b"R":
        numbers += fields[4::2] if fields[3] == b"2" else fields[4:]
    if any(int(number) > 65535 for number in numbers):
        return False
    if fields[1] == b"A" and fields[3] != b"2":
        pairs = zip(fields[5::3], fields[6::3])
        return all(kind == b"Nil" or values.read(kind.decode(), text) is not None for kind, text in pairs)
    return True


class Always(unittest.TestCase):
    """What holds of every packet, tried on many."""

    def cases(self):
        dice = Dice(11)
        for _ in range(15000):
            yield packet_texts.some_packet(dice)
        for _, part in packet_vectors.PARTS:
            yield from part()

    def test_a_packet_is_read_if_it_has_the_form(self):
        kept = 0
        for packet in self.cases():
            refusal = refusal_of(packet)
            self.assertEqual(refusal is None, kept_by_form(packet), packet)
            kept += refusal is None
            if refusal is None:
                self.assertLessEqual(len(packet), 485)
        self.assertGreater(kept, 5000)

    def test_a_message_is_written_as_it_was_read(self):
        for packet in self.cases():
            if refusal_of(packet) is None:
                message = read(packet)
                self.assertEqual(write(message), packet)
                parts = [packet[start : start + length] for start, length in message.places]
                self.assertEqual(parts, [group.text for group in message.groups if hasattr(group, "text")])

    def test_what_stands_behind_the_field_at_fault_does_not_matter(self):
        for packet in self.cases():
            number, field = refusal_of(packet) or (None, None)
            if number not in (6, 8):
                continue
            fields = packet[1:-1].split(b":")
            if (number, field) == (6, 0) and fields[0] == b"1.0":
                continue
            up_to_there = packet_texts.framed(fields[: field + 1])
            self.assertEqual(refusal_of(up_to_there), (number, field), packet)
            other = packet_texts.framed(fields[: field + 1] + [b"?", b"", b"2"])
            if field < len(fields) and len(other) <= 512 and not (field < 3 and fields[0] == b"1.0"):
                self.assertEqual(refusal_of(other), (number, field), packet)

    def test_what_stands_before_the_field_at_fault_was_right(self):
        """Cut off before the field at fault, a packet lacks that field or, behind its last group, is sound."""
        for packet in self.cases():
            number, field = refusal_of(packet) or (None, None)
            if number == 8:
                shorter = refusal_of(packet_texts.framed(packet[1:-1].split(b":")[:field]))
                self.assertIn(shorter, (None, (8, field)), packet)


if __name__ == "__main__":
    unittest.main()
