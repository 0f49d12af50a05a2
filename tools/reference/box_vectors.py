"""Lines about boxes for the console's sample: every making, every way to read and write, senders and numbers."""

from __future__ import annotations

from itertools import count
from typing import Iterator

import lines
import packet_vectors
import mischief
from dice import Dice
from packets import READ, REQUEST, WRITE, Asked, Message, Put, write
from values import KINDS

RANDOM_COUNT = 1800

# Texts for each type: some that it reads, in more than one spelling, and some that it does not.
TEXTS = {
    "Bo": [b"True", b"False", b"true", b"1", b"True "],
    "In": [b"0", b"-1", b"2147483647", b"2147483648", b"-2147483648", b"-2147483649", b"-0", b"007", b"+1", b"1.0"],
    "Sh": [b"0", b"32767", b"32768", b"-32768", b"-32769", b"-0", b"1E3"],
    "USh": [b"0", b"65535", b"65536", b"-1", b"00"],
    "Lo": [b"0", b"922337236854775807", b"922337236854775808", b"-922337236854775808", b"-922337236854775809",
           b"9223372036854775807"],
    "Si": [b"84.830", b"-0", b"0E999", b"1E-5", b"0.0001", b"12345678901", b"3.4028235E+38", b"3.4028236E+38",
           b"1.401298E-45", b"1.401297E-45", b"1E-46", b"007.50", b"1.000000000000000001", b".5", b"1e5"],
    "Do": [b"2.2E17", b"-0.0", b"1E-46", b"1.79769313486231570E+308", b"1.79769313486231571E+308", b"5E-324", b"4E-324",
           b"1234567890.12345678", b"123456789012345678", b"1234567890123456789", b"5.", b"+1"],
    "By": [b"0", b"255", b"256", b"-1", b"01"],
    "St": [b"Vega", b"\xce\xb1 Lyr", b"a" * 40, b"a" * 38 + b"\xce\xb1", b" ", b"\x00", b"0", b"\\", b"=", b"#"],
}

# A text that each type reads.
SOUND = {kind: some[0] for kind, some in TEXTS.items()}


# ---- lines ------------------------------------------------------------------------------------


def part(text: bytes) -> bytes:
    """A byte string as a part of a word whose parts have a `:` between."""
    return lines.encode(text).replace(b":", b"\\x3a")


def item(index: int, kind: str, text: bytes, fixed: bool = False) -> bytes:
    return b"%d:%s:%s%s" % (index, kind.encode(), part(text), b":fixed" if fixed else b"")


def handle(address: int, sender: int, packet: bytes) -> bytes:
    return b"handle %d %d %s" % (address, sender, lines.encode(packet))


def look(address: int, *indices: int) -> list[bytes]:
    return [b"look %d %d" % (address, index) for index in indices]


def owner_write(address: int, index: int, kind: str, text: bytes) -> bytes:
    return b"owner-write %d %d %s %s" % (address, index, kind.encode(), lines.encode(text))


def reads(number: int, *indices: int, version: bytes = b"1.1") -> bytes:
    return write(Message(version, REQUEST, number, READ, tuple(Asked(index) for index in indices)))


def writes(number: int, *pairs: tuple[int, bytes], version: bytes = b"1.1") -> bytes:
    return write(Message(version, REQUEST, number, WRITE, tuple(Put(index, text) for index, text in pairs)))


def discovers(number: int = 0) -> bytes:
    return b"{1.1:R:%d:3:2:3}" % number


def shelf_of_all(first: int) -> list[bytes]:
    """One element of each type from an index on, and the same again, fixed."""
    free = [item(first + at, kind, SOUND[kind]) for at, kind in enumerate(KINDS)]
    return free + [item(first + 20 + at, kind, SOUND[kind], fixed=True) for at, kind in enumerate(KINDS)]


def mount_of_all(address: int = 9) -> bytes:
    return b"mount %d S1 M1 100 199 " % address + b" ".join(shelf_of_all(100))


# ---- making -----------------------------------------------------------------------------------


def shelves() -> Iterator[bytes]:
    """Every way in which the making of a shelf is refused, and its neighbours that are not."""
    one = b"100:By:0"
    for low, high in [(0, 65535), (100, 100), (0, 100), (100, 65535), (101, 100), (65535, 0), (101, 200), (0, 99),
                      (99, 100), (100, 101), (0, 0), (65535, 65535)]:
        yield b"bare 9 %d %d %s" % (low, high, one)
        yield from look(9, max(0, low - 1), low, 100, high, min(65535, high + 1))
    for items in [b"", b"0:By:0", b"65535:By:0", b"0:By:0 65535:By:255", b"100:By:0 100:By:0", b"101:By:0 100:By:0",
                  b"100:By:0 101:By:0 101:By:0", b"100:By:0 101:By:0 100:By:0", b"100:By:0:fixed 101:By:0:fixed",
                  b"5:By:1 6:By:2 7:By:3 4:By:4"]:
        yield b"bare 9 0 65535 " + items
        yield from look(9, 0, 100, 101, 65535)
    yield b"bare 9 100 199 99:By:0 100:By:0"
    yield b"bare 9 100 199 100:By:0 200:By:0"
    for length in (255, 256, 257, 300):
        yield b"bare 9 1 65535 " + b" ".join(b"%d:USh:%d" % (200 + 2 * at, at) for at in range(length))
        yield from look(9, 200, 201, 200 + 2 * (length - 1))
    for kind in KINDS:
        for text in TEXTS[kind] + [b"", b"a" * 41, b":", b"{", b"\xff"]:
            yield b"bare 9 100 199 %s" % item(100, kind, text)
            yield from look(9, 100)
        yield b"bare 9 100 199 %s %s" % (item(100, kind, SOUND[kind], True), item(101, kind, SOUND[kind]))
        yield from look(9, 100, 101)


def house_records() -> Iterator[bytes]:
    """Serials and identifiers, and how the house record is joined."""
    sound = (b"a", b"a" * 40, b"\xc3\xa9" * 20, b" ", b"\x00", b"0", b"/", b"=", b"#")
    bad = (b"", b"a" * 41, b"\xc3\xa9" * 21, b"a:b", b":", b"{", b"}", b"\xff", b"\xc3", b"a" * 39 + b"\xc3")
    for text in sound + bad:
        for serial, identifier in ((text, b"M"), (b"S", text), (text, text)):
            yield b"mount 9 %s %s 100 199 100:By:1" % (lines.encode(serial), lines.encode(identifier))
            yield b"library 8 %s %s Vega:1:2" % (lines.encode(serial), lines.encode(identifier))
        yield from look(9, 1, 2)
        yield from look(8, 1, 2)
        yield handle(9, 1, discovers())
    for low in (0, 1, 98, 99, 100, 101, 1000):
        yield b"mount 9 S M %d 2000 1500:By:%d" % (low, low % 256)
        yield from look(9, 0, 4, 99, 100, 101, 999, 1000, 1500, 2000, 2001)
    yield b"mount 9 S M 100 99 100:By:0"
    yield b"mount 9 S M 100 199"
    yield from look(9, 1500)


def star_rows() -> Iterator[bytes]:
    """Stars at the ends of their angles, their counts, and how their rows are joined."""
    for angle in (-2147483648, -1, 0, 1, 1295999998, 1295999999, 1296000000, 2147483647):
        yield b"library 9 S M a:%d:0" % angle
        yield from look(9, 101)
    for angle in (-2147483648, -324000001, -324000000, -323999999, -1, 0, 323999999, 324000000, 324000001, 2147483647):
        yield b"library 9 S M a:0:%d" % angle
        yield from look(9, 102)
        yield b"library 9 S M a:0:0 b:1:%d c:2:2" % angle
        yield from look(9, 105)
    for name in (b"Vega", b"\xce\xb1 Lyr", b"a" * 40, b"a" * 41, b"", b":", b"a:b", b"{", b"\xff", b"/", b"\x00", b"0"):
        yield b"library 9 S M %s:0:0" % part(name)
        yield from look(9, 100)
        yield b"dome 9 S M a:1:1 %s:2:2 / 200 299 200:By:0" % part(name)
        yield from look(9, 103)
    yield b"library 9 S M"
    for length in (1, 2, 3, 17):
        stars = b" ".join(b"s%d:%d:%d" % (at, at, -at) for at in range(length))
        yield b"library 9 S M " + stars
        yield from look(9, 99, 100, 101, 102, 103, 99 + 3 * length, 100 + 3 * length)
        for low in (0, 99, 100, 99 + 3 * length, 100 + 3 * length, 101 + 3 * length, 1000):
            yield b"dome 9 S M %s / %d 2000 1500:By:%d" % (stars, low, length)
            yield from look(9, 98 + 3 * length, 99 + 3 * length, 100 + 3 * length, 999, 1000, 1500, 2000, 2001)
    yield b"dome 9 S M / 200 299 200:By:0"
    yield b"dome 9 S M a:0:0 / 200 299"
    yield b"dome 9 S M a:0:0 / 299 200 250:By:0"
    yield from look(9, 1500)


def many_stars() -> Iterator[bytes]:
    """As many stars as there may be, and one more."""
    yield b"library 9 S M" + b" a:5:-6" * 20000
    yield from look(9, 100, 60096, 60097, 60098, 60099, 60100, 65535)
    yield handle(9, 1, reads(0, 60097, 60098, 60099, 60100, 100))
    yield b"library 9 S M" + b" a:0:0" * 20001
    yield from look(9, 60099)


def stations_in_place_of_others() -> Iterator[bytes]:
    """A making that is refused leaves what was there; one that is not takes its place, records and all."""
    yield b"mount 9 S M 100 199 100:By:1"
    yield handle(9, 1, writes(5, (100, b"2")))
    yield b"mount 9 S M 99 199 100:By:3"
    yield from look(9, 100)
    yield handle(9, 1, reads(4, 100))
    yield handle(9, 1, reads(5, 100))
    yield b"bare 9 100 199 100:By:4"
    yield from look(9, 100, 1)
    yield handle(9, 1, reads(4, 100))
    for address in (0, 1, 65535, 65536, 2147483648, 4294967294, 4294967295):
        yield from look(address, 100)
        yield b"bare %d 100 199 100:USh:%d" % (address, address % 65536)
        yield from look(address, 100)
        yield handle(address, 4294967295, reads(0, 100))


# ---- reading and writing ----------------------------------------------------------------------


def looks() -> Iterator[bytes]:
    """Every index that matters, of every kind of box."""
    yield mount_of_all()
    yield b"library 8 S2 L1 Vega:1005324000:139621000 Deneb:1115556000:163014000"
    yield b"dome 7 S3 D1 Vega:1005324000:139621000 / 150 199 " + b" ".join(shelf_of_all(150))
    yield b"bare 6 150 199 " + b" ".join(shelf_of_all(150))
    for address in (9, 8, 7, 6):
        yield from look(address, *range(0, 6), 10, 17, *range(97, 114), 120, 128, 129)
        yield from look(address, *range(147, 160), *range(168, 180), 198, 199, 200, 65534, 65535)
        yield handle(address, 1, reads(0, 0, 1, 2, 3, 4, 99, 100, 101, 102, 103))
        yield handle(address, 1, reads(1, 104, 105, 106, 107, 108, 109, 149, 150, 151, 152, version=b"1.0"))
        yield handle(address, 1, reads(2, 153, 158, 159, 170, 178, 179, 199, 200, 1000, 65535))


def owner_writes() -> Iterator[bytes]:
    """The owner's write of every type to every element."""
    yield mount_of_all()
    for at, kind in enumerate(KINDS):
        for text in TEXTS[kind] + [b"", b"a" * 41, b":", b"\xff"]:
            yield owner_write(9, 100 + at, kind, text)
            yield from look(9, 100 + at)
        yield owner_write(9, 120 + at, kind, SOUND[kind])
        yield from look(9, 120 + at)
    for at, kind in enumerate(KINDS):
        for other in KINDS:
            yield owner_write(9, 100 + at, other, SOUND[other])
        yield from look(9, 100 + at)
    for index in (0, 1, 2, 3, 4, 99, 109, 119, 129, 199, 200, 65535):
        for kind, text in (("By", b"0"), ("St", b"x"), ("By", b"x"), ("In", b"")):
            yield owner_write(9, index, kind, text)
    yield b"library 8 S L Vega:1:2"
    for index, kind, text in ((100, "St", b"x"), (101, "In", b"5"), (102, "By", b"5"), (103, "In", b"5"),
                              (99, "In", b"5")):
        yield owner_write(8, index, kind, text)
    yield from look(8, 100, 101, 102)


def writes_of_every_type() -> Iterator[bytes]:
    """Each text to its type by a packet, and back by another."""
    yield mount_of_all()
    numbers = count()
    for at, kind in enumerate(KINDS):
        for text in TEXTS[kind]:
            yield handle(9, 1, writes(next(numbers), (100 + at, text)))
            yield handle(9, 1, reads(next(numbers), 100 + at, version=b"1.0"))
        yield from look(9, 100 + at)
    for at, kind in enumerate(KINDS):
        pairs = [(100 + at, SOUND[other]) for other in KINDS]
        yield handle(9, 1, writes(next(numbers), *pairs))
        yield from look(9, 100 + at)
        yield handle(9, 1, writes(next(numbers), (120 + at, SOUND[kind]), (100 + at, SOUND[kind]), (120 + at, b"x")))
        yield handle(9, 1, reads(next(numbers), 100 + at, 120 + at))
    for index in (0, 1, 2, 3, 4, 99, 109, 119, 129, 199, 200, 65535):
        yield handle(9, 1, writes(next(numbers), (index, b"0"), (index, b"x"), (index, b"True")))
        yield handle(9, 1, reads(next(numbers), index))
    yield b"dome 8 S D Vega:1:2 / 200 299 200:By:7"
    yield handle(8, 1, writes(0, (100, b"x"), *[(index, b"5") for index in (101, 102, 103, 199, 200, 300)]))
    yield handle(8, 1, reads(1, 100, 101, 102, 103, 199, 200, 201, 299, 300))


def groups() -> Iterator[bytes]:
    """Several groups in one request: each sees what those before it have done, and none stops another."""
    yield b"mount 9 S M 100 199 100:By:1 101:Si:2 102:St:c 103:Bo:True:fixed"
    numbers = count(10)
    for pairs in [
        [(100, b"5"), (100, b"6")], [(100, b"5"), (100, b"x")], [(100, b"x"), (100, b"7")],
        [(100, b"1"), (100, b"2"), (100, b"3"), (100, b"4"), (100, b"5"), (100, b"6"), (100, b"7"), (100, b"8"),
         (100, b"9"), (100, b"10")],
        [(104, b"1"), (200, b"1"), (103, b"True"), (100, b"300"), (100, b"30"), (101, b"30"), (102, b"30")],
        [(200, b"x"), (104, b"x"), (100, b"x"), (103, b"False"), (102, b"x")],
        [(102, b"a"), (101, b"-0"), (102, b"b"), (101, b"1E-5"), (102, b"c"), (101, b"x"), (100, b"0")],
    ]:
        yield handle(9, 1, writes(next(numbers), *pairs))
        yield handle(9, 1, reads(next(numbers), 100, 101, 102, 103, 104, 200, 100))
        yield from look(9, 100, 101, 102, 103)
    for length in range(1, 12):
        yield handle(9, 1, reads(next(numbers), *[100 + at % 5 for at in range(length)]))
        yield handle(9, 1, writes(next(numbers), *[(100 + at % 5, b"%d" % length) for at in range(length)]))
    yield from look(9, 100, 101, 102)


def longest_replies() -> Iterator[bytes]:
    """Replies of up to 475 bytes, and short ones after them in the same row."""
    items = b" ".join(item(100 + at, "St", bytes([0x61 + at]) * 40) for at in range(10))
    yield b"mount 9 S M 100 199 " + items
    every = tuple(range(100, 110))
    yield handle(9, 1, reads(65000, *every))
    yield handle(9, 2, reads(65535, *every))
    yield handle(9, 1, reads(65000, 100))
    yield handle(9, 1, writes(65001, (100, b"x")))
    yield handle(9, 1, writes(65001, (100, b"y")))
    yield handle(9, 2, reads(65535, 101))
    yield handle(9, 1, writes(65534, *[(65535, b"a" * 40)] * 10))
    yield handle(9, 1, writes(65535, *[(100 + at, b"z" * 40) for at in range(10)]))
    yield handle(9, 1, reads(65535, 100))
    yield handle(9, 2, reads(65535, 100))
    yield handle(9, 2, reads(65534, 100))
    yield handle(9, 3, reads(0, *every))
    yield from look(9, *every)


# ---- senders and numbers ----------------------------------------------------------------------


def numbers_of_a_sender() -> Iterator[bytes]:
    """Repeats, old numbers and jumps, at the beginning, in the middle and at the end of the numbers."""
    for first in (0, 1, 5, 32767, 65533, 65534, 65535):
        yield b"mount 9 S M 100 199 100:USh:1000"
        for step in (0, 0, -1, 1, 1, 0, -1, 3, 2, 3, 4, -2, 65535 - first, 65534 - first, 65535 - first, -first):
            number = first + step
            if 0 <= number <= 65535:
                yield handle(9, 7, writes(number, (100, b"%d" % number)))
                yield from look(9, 100)
    yield b"mount 9 S M 100 199 100:USh:1000"
    for number in (5, 4, 5, 6, 5, 6, 7, 65535, 0, 65535, 65534):
        yield handle(9, 7, reads(number, 100))


def repeats() -> Iterator[bytes]:
    """A repeat gets the kept reply: whatever else is in it, and whatever has happened since."""
    yield b"mount 9 S M 100 199 100:By:1 101:St:a"
    yield handle(9, 1, writes(5, (100, b"2")))
    for packet in (writes(5, (100, b"2")), writes(5, (100, b"3")), writes(5, (101, b"3"), (100, b"4")), reads(5, 100),
                   reads(5, 100, 101, version=b"1.0"), writes(5, (100, b"2"), version=b"1.0"), reads(5, 65535)):
        yield handle(9, 1, packet)
        yield from look(9, 100, 101)
    yield handle(9, 1, reads(6, 100, 101))
    yield owner_write(9, 100, "By", b"77")
    yield handle(9, 1, reads(6, 100, 101))
    yield handle(9, 2, writes(0, (100, b"78"), (101, b"b")))
    yield handle(9, 1, reads(6, 100, 101))
    yield handle(9, 1, writes(6, (100, b"9")))
    yield from look(9, 100)
    yield handle(9, 1, discovers(6))
    yield handle(9, 1, discovers(3))
    yield handle(9, 1, discovers(60000))
    yield handle(9, 1, reads(6, 100))
    yield handle(9, 1, reads(5, 100))
    yield handle(9, 1, reads(7, 100))
    for bad in (b"{1.1:R:7:1}", b"{1.1:R:7:2:100}", b"{1.1:A:7:2:0}", b"{1.1:R:7:4}", b"{1.1:R:7:1:100"):
        yield handle(9, 1, bad)
    yield handle(9, 1, reads(7, 101))
    yield handle(9, 1, reads(8, 101))


def seventeen_senders() -> Iterator[bytes]:
    """Sixteen senders find a record, the others do not; each of the sixteen keeps its own reply."""
    senders = [0, 4294967295, 7, 9, 1, 2, 3, 4, 5, 6, 8, 10, 65536, 65535, 2147483648, 99]
    others = [98, 100, 4294967294, 11]
    yield b"mount 9 S M 100 199 100:USh:1000"
    for at, sender in enumerate(senders):
        yield handle(9, others[0], discovers(at))
        yield handle(9, sender, writes(10 * at, (100, b"%d" % at)))
    for other in others:
        yield handle(9, other, reads(0, 100))
        yield handle(9, other, writes(65535, (100, b"7777")))
        yield handle(9, other, discovers())
        yield handle(9, other, b"{1.1:R:0:1}")
        yield handle(9, other, b"{1.1:A:0:2:0}")
    yield from look(9, 100)
    for at, sender in enumerate(senders):
        yield handle(9, sender, reads(10 * at, 100))
        if at:
            yield handle(9, sender, reads(10 * at - 1, 100))
        yield handle(9, sender, reads(10 * at + 1, *[100] * (at % 10 + 1)))
    for at, sender in reversed(list(enumerate(senders))):
        yield handle(9, sender, reads(10 * at + 1, 5))
        yield handle(9, sender, reads(10 * at, 100))
    yield handle(9, others[1], reads(3, 100))
    yield b"mount 9 S M 100 199 100:USh:1000"
    yield handle(9, others[1], reads(3, 100))


def discovery() -> Iterator[bytes]:
    """Discovery on boxes with and without a house record, and with anything at the indices 2 and 3."""
    yield b"mount 9 S1 \\xce\\xb1\\x20Lyr 100 199 100:By:0"
    yield b"library 8 S2 L1 Vega:1:2"
    yield b"dome 7 S3 " + b"d" * 40 + b" Vega:1:2 / 200 299 200:By:0"
    yield b"bare 6 100 199 100:By:0"
    for address in (9, 8, 7, 6):
        for number in (0, 1, 65535):
            yield handle(address, 1, discovers(number))
        for bad in (b"{1.0:R:0:3:2:3}", b"{1.1:R:0:3:3:2}", b"{1.1:R:0:3:2}", b"{1.1:R:0:3:2:3:4}", b"{1.1:R:0:3}",
                    b"{1.1:R:65536:3:2:3}", b"{1.1:A:0:3:0:St:M1:0:By:0}"):
            yield handle(address, 1, bad)
    for low, high, index in [(0, 1, 1), (2, 2, 2), (3, 3, 3), (0, 9, 5), (3, 9, 4), (0, 2, 0), (0, 3, 0), (4, 9, 4),
                             (0, 65535, 65535)]:
        yield b"bare 5 %d %d %d:By:7" % (low, high, index)
        yield handle(5, 1, discovers())
    for kind in KINDS:
        yield b"bare 5 2 3 %s %s" % (item(2, kind, SOUND[kind]), item(3, kind, SOUND[kind], True))
        yield handle(5, 1, discovers(7))
        yield handle(5, 1, writes(0, (2, TEXTS[kind][1]), (3, TEXTS[kind][1])))
        yield handle(5, 1, discovers(7))
    yield b"bare 5 2 3 2:St:" + b"a" * 40 + b" 3:St:" + b"b" * 40
    yield handle(5, 1, discovers(65535))


def grounds() -> Iterator[bytes]:
    """Packets that cannot be read, answers, and the order of the grounds."""
    yield b"mount 9 S M 100 199 100:By:1"
    for sender in (1, 2):
        for packet in (b"", b"{}", b"a" * 513, b"a" * 512, b"{\xff}", b"{1.2:R:5:1:100}", b"{1.1:X:5:1:100}",
                       b"{1.1:R:65536:1:100}", b"{1.1:R:5:256:100}", b"{1.1:R:5:4:100}", b"{1.1:A:5:4:100}",
                       b"{1.1:R:5:1:x}", b"{1.1:A:5:1:x}", b"{1.1:A:5:2:0}", b"{1.1:A:4:2:0}",
                       b"{1.1:A:5:1:0:By:1}", b"{1.0:A:5:1:1:Nil:0}", b"{1.1:A:5:3:0:St:M:0:By:0}", b"{1.1:A:5:3}"):
            yield handle(9, sender, packet)
        if sender == 1:
            yield handle(9, sender, reads(5, 100))
            yield handle(9, sender, reads(4, 100))
    for packet in packet_vectors.SIX:
        yield handle(9, 3, packet_vectors.framed(packet))
    yield from look(9, 100)


def by_chance() -> Iterator[bytes]:
    fresh = mischief.lines_without_end(Dice(20261119), "box")
    for _ in range(RANDOM_COUNT):
        yield next(fresh)


ABOUT_LINES = [
    b"bare", b"bare 9", b"bare 9 100", b"bare 9 100 199", b"bare  9  100  199  100:By:5 ", b"look 9 100",
    b"Bare 9 100 199 100:By:6",
    b"bare 9 100 199 100:By:6 ,", b"bare 9 100 199 100", b"bare 9 100 199 100:By", b"bare 9 100 199 100:By:",
    b"bare 9 100 199 100::6", b"bare 9 100 199 :By:6", b"bare 9 100 199 100:By:6:", b"bare 9 100 199 100:By:6:fix",
    b"bare 9 100 199 100:By:6:Fixed", b"bare 9 100 199 100:By:6:fixed:", b"bare 9 100 199 100:By:6:fixed:fixed",
    b"bare 9 100 199 100:By:6:\\x66ixed", b"bare 9 100 199 100:Nil:0", b"bare 9 100 199 100:by:6",
    b"bare 9 100 199 100:B\\x79:6",
    b"bare 9 100 199 0100:By:6", b"bare 9 100 199 -1:By:6", b"bare 9 100 199 65536:By:6",
    b"bare 9 100 199 1\\x300:By:6",
    b"bare 9 100 199 100:St:a:b", b"bare 9 100 199 100:St:\\xC3", b"bare 9 100 199 100:St:\\",
    b"bare 9 100 199 100:St:a\\e",
    b"bare 9 100 199 100:By:6 x", b"bare 9 100 199 x 100:By:6", b"bare 9 +100 199 100:By:6",
    b"bare 9 100 65536 100:By:6",
    b"bare 9 -0 199 100:By:6", b"bare -1 100 199 100:By:6", b"bare 4294967296 100 199 100:By:6",
    b"bare 09 100 199 100:By:6",
    b"bare 9 100 199 100:By:6 100:By", b"bare 9 200 100 100:By", b"look 9 100", b"bare 9 100 199 100:St:\\x3a",
    b"bare 9 100 199 100:St:\\e", b"look 9 100", b"bare 9 100 199 100:St:=:fixed", b"look 9 100",
    b"bare 9 100 199 100:St:fixed", b"look 9 100", b"bare 9 100 199 100:St:fixed:fixed", b"look 9 100",
    b"bare 9 100 199 100:St:/", b"look 9 100", b"bare 18446744073709551625 100 199 100:By:6",
    b"look 18446744073709551625 100",
    b"mount", b"mount 9", b"mount 9 S", b"mount 9 S M", b"mount 9 S M 100", b"mount 9 S M 100 199",
    b"mount 9 S 100 199 100:By:6",
    b"mount 9 \\ M 100 199 100:By:6", b"mount 9 S \\x 100 199 100:By:6", b"mount 9 S M 100 199 / 100:By:6",
    b"mount 9 S M x 199 100:By:6", b"mount 9 S M 100 199 100:By:6 101:By:7 /", b"look 9 100",
    b"library", b"library 9", b"library 9 S", b"library 9 S M", b"library 9 S M a", b"library 9 S M a:0",
    b"library 9 S M a:0:0:0",
    b"library 9 S M a:0:0:", b"library 9 S M :0:0", b"library 9 S M a::0", b"library 9 S M a:0:",
    b"library 9 S M a:-0:0",
    b"library 9 S M a:0:-0", b"library 9 S M a:00:0", b"library 9 S M a:0:+5", b"library 9 S M a:2147483648:0",
    b"library 9 S M a:-2147483649:0", b"library 9 S M a:0:2147483648", b"library 9 S M a:0:-2147483649",
    b"library 9 S M a:0:0.0",
    b"library 9 S M a:0:0 b", b"library 9 S M \\:0:0", b"library 9 S M \\x3a:0:0", b"library 9 S M a:0:0 /",
    b"look 9 100",
    b"library 9 S M a:9999999999:0", b"library 9 S M a:-2147483648:-2147483648",
    b"dome", b"dome 9 S M", b"dome 9 S M /", b"dome 9 S M / 200", b"dome 9 S M / 200 299", b"dome 9 S M a:0:0",
    b"dome 9 S M a:0:0 200 299 200:By:0", b"dome 9 S M a:0:0 / / 200 299 200:By:0",
    b"dome 9 S M a:0:0 / 200 299 200:By:0 /",
    b"dome 9 S M / a:0:0 / 200 299 200:By:0", b"dome 9 S M a:0:0 \\x2f 200 299 200:By:0",
    b"dome 9 S M a:0:0 // 200 299 200:By:0",
    b"dome 9 S M a:0:0 / 200", b"dome 9 S M a:0:0 / 200 299 a:0:0", b"dome 9 S M 200:By:0 / 200 299 200:By:0",
    b"look 9 100",
    b"dome 9 / M a:0:0 / 200 299 200:By:1", b"look 9 1", b"dome 9 S / a:0:0 / 200 299 200:By:2", b"look 9 2",
    b"dome 9 / / a:0:0 / 200 299 200:By:3", b"look 9 200", b"dome 9 / / / 200 299 200:By:4",
    b"dome 9 / / a:0:0 200 299 200:By:4",
    b"dome / S M a:0:0 / 200 299 200:By:5", b"look 9 200",
    b"handle", b"handle 9", b"handle 9 1", b"handle 9 1 {1.1:R:0:1:100} x", b"handle 9 1 \\", b"handle 9 1 \\e",
    b"handle 9 -1 {}",
    b"handle 9 4294967296 {}", b"handle 9 01 {}", b"handle x 1 {}", b"handle 123456 1 {}", b"Handle 9 1 {}",
    b"handle 9 {} 1",
    b"handle 9 1 {1.1:R:0:1:\\x32\\x300}", b"handle 9 1 \\x7b1.1:R:1:1:200}", b"handle  9  1  {1.1:R:1:1:200}",
    b"owner-write", b"owner-write 9", b"owner-write 9 200", b"owner-write 9 200 By", b"owner-write 9 200 By 1 2",
    b"owner-write 9 200 Nil 0", b"owner-write 9 200 by 0", b"owner-write 9 65536 By 0", b"owner-write 9 -1 By 0",
    b"owner-write 9 0200 By 0", b"owner-write 9 200 By \\", b"owner-write 9 200 By \\e", b"owner-write 9 200 By \\x31",
    b"owner-write 123456 200 By 1", b"ownerwrite 9 200 By 1", b"owner_write 9 200 By 1", b"owner-write 9 200 200 1",
    b"look", b"look 9", b"look 9 200 1", b"look 9 x", b"look 9 -1", b"look 9 65536", b"look 9 0200", b"look x 200",
    b"look 123456 200",
    b"look -1 200", b"look 4294967296 200", b"looks 9 200", b"  look   9  200  ", b"look 9 \\x31", b"#look 9 200",
]

RAW_LINES = [
    b"look 9 200\r", b"look\t9 200", b"handle 9 1 {1.1:R:2:1:200}\r", b"bare 9 100 199 100:St:\xce\xb1",
    b"bare 9 100 199 100:St:\x00",
    b"mount 9 \xff M 100 199 100:By:0", b"library 9 S M \xce\xb1:0:0", b"look 9 200",
]

PARTS = [
    ("making shelves", shelves),
    ("making house records", house_records),
    ("making star rows", star_rows),
    ("many stars", many_stars),
    ("stations in place of others", stations_in_place_of_others),
    ("looking", looks),
    ("the owner's writes", owner_writes),
    ("writes of every type, read back", writes_of_every_type),
    ("groups of one request", groups),
    ("the longest replies", longest_replies),
    ("numbers of a sender", numbers_of_a_sender),
    ("repeats", repeats),
    ("seventeen senders", seventeen_senders),
    ("Discovery", discovery),
    ("grounds of handling", grounds),
    ("boxes and senders, by chance", by_chance),
]


def sections() -> Iterator[tuple[str, list[bytes]]]:
    """Headings, each with its lines."""
    for heading, script in PARTS:
        yield heading, list(script())
