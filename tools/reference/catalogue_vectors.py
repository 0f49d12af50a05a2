"""Lines about catalogues for the console's sample: settings, partners, openings, deadlines, answers and counts."""

from __future__ import annotations

from typing import Iterable, Iterator, Sequence

import lines
import packet_vectors
import mischief
from box_vectors import TEXTS, discovers, handle, look, owner_write, reads, writes
from catalogue import LATEST_TIME, LONGEST_INTERVAL
from dice import Dice
from values import KINDS

RANDOM_COUNT = 2600
GREATEST_TIME = 2**64 - 1


# ---- lines ------------------------------------------------------------------------------------


def catalogue(address: int, first: int = 1000, longest: int = 8000, repeats: int = 2) -> bytes:
    return b"catalogue %d %d %d %d" % (address, first, longest, repeats)


def enlist(address: int, *partners: int) -> list[bytes]:
    return [b"enlist %d %d" % (address, partner) for partner in partners]


def open_read(address: int, time: int, partner: int, *indices: int) -> bytes:
    return b" ".join([b"open-read %d %d %d" % (address, time, partner)] + [b"%d" % index for index in indices])


def open_write(address: int, time: int, partner: int, *pairs: tuple[int, bytes]) -> bytes:
    groups = [b"%d=%s" % (index, lines.encode(text)) for index, text in pairs]
    return b" ".join([b"open-write %d %d %d" % (address, time, partner)] + groups)


def poll(address: int, time: int, partner: int) -> bytes:
    return b"poll %d %d %d" % (address, time, partner)


def receive(address: int, sender: int, packet: bytes) -> bytes:
    return b"receive %d %d %s" % (address, sender, lines.encode(packet))


def counts(address: int) -> bytes:
    return b"counts %d" % address


def discovered(address: int, packet: bytes) -> bytes:
    return b"discovered %d %s" % (address, lines.encode(packet))


def fresh(address: int = 1, *settings: int, partners: tuple[int, ...] = (9, 8)) -> list[bytes]:
    """A new catalogue with some partners."""
    return [catalogue(address, *settings)] + enlist(address, *partners)


# ---- making and enlisting ---------------------------------------------------------------------


def makings() -> Iterator[bytes]:
    """The ends of each setting, and one beyond."""
    for first in (0, 1, 999, 1000, 1001, 59999, 60000, 60001, 65536 + 1000, 4294967295):
        for longest in sorted({0, max(0, first - 1), first, first + 1, 599999, 600000, 600001}):
            if longest <= 4294967295:
                yield catalogue(1, first, longest, 0)
    for repeats in (0, 1, 19, 20, 21, 22, 255, 256, 4294967295):
        yield catalogue(1, 1000, 2000, repeats)
    yield catalogue(1, 60000, 4294967295, 0)
    yield catalogue(1, 999, 998, 21)
    for address in (0, 1, 4294967295):
        yield counts(address)
        yield catalogue(address)
        yield counts(address)


def partners() -> Iterator[bytes]:
    """Up to sixteen partners, and no address twice."""
    yield catalogue(1)
    for address in (9, 9, 0, 1, 4294967295, 9, 0, 2, 3, 4, 5, 6, 7, 8, 10, 11, 12, 13, 14, 14, 15, 16, 9, 1):
        yield from enlist(1, address)
    for partner in (0, 1, 14, 15, 16, 17, 255, 256, 65536, 4294967295):
        yield poll(1, 0, partner)
        yield open_read(1, 0, partner, partner % 65536)
        yield poll(1, 0, partner)
    yield receive(1, 14, b"{1.1:A:0:1:1:Nil:0}")
    yield receive(1, 16, b"{1.1:A:0:1:1:Nil:0}")
    yield receive(1, 9, b"{1.1:A:0:1:1:Nil:0}")
    yield counts(1)
    for partner in range(16):
        yield open_write(1, 5, partner, (partner, b"x" * (partner + 1)))
    for partner in (7, 15, 0, 1):
        yield poll(1, 1005, partner)
    yield counts(1)


# ---- opening ----------------------------------------------------------------------------------


def given_up(partner: int, orders: Iterable[Sequence[tuple[int, bytes]]]) -> Iterator[bytes]:
    """Orders to write, each at the deadline of the one before, which is given up then: there is no repeat."""
    yield from fresh(1, 1000, 8000, 0)
    for at, order in enumerate(orders):
        yield open_write(1, 1000 * at, partner, *order)
        yield poll(1, 1000 * (at + 1), partner)
    yield counts(1)


def openings() -> Iterator[bytes]:
    """Counts of groups, texts, and the packets that go out."""
    lengths = (0, 1, 2, 3, 9, 10, 11, 12, 30)
    yield from fresh(1, 1000, 8000, 0)
    for at, length in enumerate(lengths):
        yield open_read(1, 1000 * at, 0, *[65535 - index for index in range(length)])
        yield poll(1, 1000 * (at + 1), 0)
    yield from given_up(0, [[(index, b"%d" % index) for index in range(length)] for length in lengths])
    yield from given_up(0, [[(100, text)] for kind in KINDS for text in TEXTS[kind]])
    some = (b"", b"a" * 40, b"a" * 41, b":", b"{", b"}", b"a:b", b"\xff", b"\xc3\xa9" * 20, b"\xc3\xa9" * 21, b"\xc3",
            b"a" * 39 + b"\xc3\xa9", b"=", b"==", b"a=b", b"\\", b" ", b"/")
    yield from given_up(1, [[(0, b"x"), (65535, text), (1, b"y")] for text in some])
    longest = (65535, b"a" * 40)
    yield from given_up(0, [[longest] * 10, [longest] * 9 + [(65535, b"a" * 41)], [longest] * 11])
    yield open_read(1, 3000, 0, *[100] * 10)
    yield counts(1)


def grounds_of_opening() -> Iterator[bytes]:
    """Every pair of grounds for refusing an opening: the lower one is told, and nothing changes."""
    yield from fresh()
    yield open_read(1, 50, 0, 100)
    for time in (49, 50, LATEST_TIME + 1):
        for partner in (0, 1, 2, 4294967295):
            for indices in ((), (100,), (100,) * 11):
                yield open_read(1, time, partner, *indices)
            yield receive(1, 8, b"{1.1:A:0:1:0:By:1}")
            for text in (b"", b"a:b", b"ok"):
                yield open_write(1, time, partner, (100, text))
            yield receive(1, 8, b"{1.1:A:1:2:0}")
    yield counts(1)
    yield poll(1, 50, 0)


def times() -> Iterator[bytes]:
    """Times at the clock, before it, and at the greatest time there may be."""
    ends = (0, 1, LATEST_TIME - 1, LATEST_TIME, LATEST_TIME + 1, 2 * LATEST_TIME, 2**63, GREATEST_TIME)
    for end in ends:
        yield from fresh()
        yield poll(1, end, 0)
        yield poll(1, max(0, end - 1), 0)
        yield poll(1, end, 5)
        yield open_read(1, end, 0, 100)
        yield poll(1, min(GREATEST_TIME, end + 1000), 0)
        yield poll(1, LATEST_TIME, 0)
        yield poll(1, LATEST_TIME + 1, 0)
        yield counts(1)
    yield from fresh()
    for time in (100, 99, 100, 101, 100, 101, 0, 102):
        yield poll(1, time, 0)
        yield poll(1, time, 1)
    yield poll(1, 500, 7)
    yield poll(1, 102, 0)
    yield open_read(1, 500, 7, 100)
    yield open_read(1, 500, 0)
    yield poll(1, 102, 0)
    yield open_read(1, 400, 0, 100)
    yield open_read(1, 400, 1, 100)
    yield open_read(1, 500, 0, 100)
    yield poll(1, 399, 0)
    yield poll(1, 400, 0)
    yield receive(1, 9, b"{1.1:A:0:1:0:By:1}")
    yield poll(1, 399, 0)
    yield poll(1, 400, 0)
    for start in (LATEST_TIME - 1001, LATEST_TIME - 1000, LATEST_TIME - 999, LATEST_TIME):
        yield from fresh(1, 1000, 8000, 3)
        yield open_read(1, start, 0, 100)
        yield poll(1, min(LATEST_TIME, start + 999), 0)
        yield poll(1, min(LATEST_TIME, start + 1000), 0)
        yield poll(1, LATEST_TIME, 0)
        yield poll(1, start + 1000, 0)
        yield receive(1, 9, b"{1.1:A:0:1:0:By:1}")
        yield counts(1)


# ---- polling ----------------------------------------------------------------------------------


def polls_of(first: int, longest: int, repeats: int, start: int, late: int) -> Iterator[bytes]:
    """A transaction that is never answered, polled just before each deadline and at it, or late by some time."""
    yield from fresh(1, first, longest, repeats, partners=(9,))
    yield open_read(1, start, 0, 100)
    time, interval = start, first
    for _ in range(repeats + 1):
        yield poll(1, time + interval - 1, 0)
        yield poll(1, time + interval + late, 0)
        time, interval = time + interval + late, 2 * interval
        if interval > longest:
            break
    yield poll(1, time, 0)
    yield poll(1, time + 2 * interval, 0)
    yield open_read(1, time + 2 * interval, 0, 100)
    yield counts(1)


def polls() -> Iterator[bytes]:
    """Giving up at all corners of the three settings."""
    yield from polls_of(3000, 24000, 10, 0, 0)
    for first in (1000, 1001, 3000, 37500, 59999, 60000):
        ends = {first, 2 * first - 1, 2 * first, 2 * first + 1, 4 * first - 1, 4 * first, 8 * first, LONGEST_INTERVAL}
        for longest in sorted(end for end in ends if end <= LONGEST_INTERVAL):
            for repeats in (0, 1, 2, 3, 20):
                yield from polls_of(first, longest, repeats, 0, 0)
    for longest in (511999, 512000, 512001, 599999, 600000):
        for repeats in (8, 9, 10, 20):
            yield from polls_of(1000, longest, repeats, 12345, 0)
    for late in (1, 999, 1000, 100000):
        yield from polls_of(1000, 8000, 5, 7, late)
        yield from polls_of(1000, 8000, 2, 7, late)


def polls_of_several() -> Iterator[bytes]:
    """Partners do not disturb each other, but share one clock."""
    yield from fresh(1, 1000, 4000, 2, partners=(9, 8, 7))
    yield open_read(1, 0, 0, 100)
    yield open_write(1, 500, 1, (100, b"a"))
    yield poll(1, 999, 0)
    yield open_read(1, 999, 2, 102)
    for time in (1000, 1499, 1500, 1998, 1999, 2999, 3000, 3499, 3500, 3998, 3999, 6999, 7000, 7500, 8000, 8001, 20000):
        for partner in (2, 1, 0):
            yield poll(1, time, partner)
        yield counts(1)
    yield poll(1, 19999, 0)
    yield counts(1)


# ---- answers ----------------------------------------------------------------------------------


def answers() -> Iterator[bytes]:
    """Answers that agree with what waits, and answers that differ in one thing."""
    yield from fresh()
    yield open_read(1, 0, 0, 100, 101)
    yield open_write(1, 0, 1, (100, b"1"))
    for sender in (9, 8, 7, 1):
        for packet in (b"{1.1:A:1:1:0:By:1:0:By:2}", b"{1.1:A:0:2:0:0}", b"{1.1:A:0:1:0:By:1}", b"{1.1:A:0:2:0:0:0}",
                       b"{1.1:A:0:1:0:By:1:0:By:2:0:By:3}", b"{1.1:A:0:3:0:St:M1:0:By:0}", b"{1.1:A:65535:2:0}",
                       b"{1.1:R:0:1:100:101}", b"{1.1:R:0:3:2:3}", b"{1.1:A:0:1:0:By:1:0:By:256}", b"{1.1:A:0:1}",
                       b"{1.1:A:0:2:4}", b"{1.1:A:0:4}", b"{1.2:A:0:2:0}", b"{1.1:A:0:2:0", b"{\xff}", b"", b"a" * 513):
            yield receive(1, sender, packet)
    yield counts(1)
    yield receive(1, 9, b"{1.0:A:0:1:0:By:1:3:Nil:0}")
    yield receive(1, 9, b"{1.0:A:0:1:0:By:1:3:Nil:0}")
    yield receive(1, 8, b"{1.1:A:0:2:2}")
    yield receive(1, 8, b"{1.1:A:0:2:2}")
    yield counts(1)
    number = 0
    for kind in KINDS:
        for text in TEXTS[kind]:
            number += 1
            yield open_read(1, 0, 0, 100)
            for told in (number - 1, number + 1, number):
                yield receive(1, 9, b"{1.1:A:%d:1:0:%s:%s}" % (told, kind.encode(), text))
            yield receive(1, 9, b"{1.1:A:%d:1:1:Nil:0}" % number)


def answers_in_order() -> Iterator[bytes]:
    """Each code and each count of groups, with the numbers one after the other."""
    yield from fresh(1, partners=(9,))
    for length in range(1, 11):
        number = 2 * (length - 1)
        yield open_write(1, number, 0, *[(at, b"x") for at in range(length)])
        for told in (length - 1, length + 1, length):
            if 1 <= told <= 10:
                yield receive(1, 9, b"{1.1:A:%d:2%s}" % (number, b"".join(b":%d" % (at % 4) for at in range(told))))
        yield open_read(1, number, 0, *range(length))
        for told in (length - 1, length + 1, length):
            if 1 <= told <= 10:
                yield receive(1, 9, b"{1.1:A:%d:1%s}" % (number + 1, (b":0:St:" + b"a" * 40) * told))
    yield counts(1)


def early_and_late_answers() -> Iterator[bytes]:
    """Answers before anything was asked, from the wrong box, after giving up, and after the next opening."""
    yield from fresh(1, 1000, 4000, 1)
    told = [b"{1.1:A:%d:2:0}" % number for number in range(5)]
    yield receive(1, 9, told[0])
    yield open_write(1, 0, 0, (100, b"1"))
    yield receive(1, 8, told[0])
    yield receive(1, 9, told[1])
    yield receive(1, 9, told[0])
    yield receive(1, 9, told[0])
    yield open_write(1, 0, 0, (100, b"2"))
    yield receive(1, 9, told[0])
    yield poll(1, 1000, 0)
    yield receive(1, 9, told[1])
    yield poll(1, 3000, 0)
    yield open_write(1, 3000, 0, (100, b"3"))
    yield poll(1, 4000, 0)
    yield poll(1, 6000, 0)
    yield receive(1, 9, told[2])
    yield open_write(1, 6000, 0, (100, b"4"))
    yield open_write(1, 6000, 1, (100, b"4"))
    for number in (2, 4, 0):
        for sender in (9, 8):
            yield receive(1, sender, told[number])
    yield receive(1, 9, told[3])
    yield counts(1)


def discovery() -> Iterator[bytes]:
    """Discovery requests and answers; they are no transactions."""
    yield from fresh()
    yield b"discover 1"
    yield open_read(1, 0, 0, 2, 3)
    yield b"discover 1"
    for packet in (b"{1.1:A:0:3:0:St:M1:0:By:0}", b"{1.1:A:65535:3:1:Nil:0:3:Nil:0}",
                   b"{1.1:A:0:3:0:Do:2.50:0:Bo:True}",
                   b"{1.0:A:0:3:0:St:M1:0:By:0}", b"{1.1:A:0:3:0:St:M1}", b"{1.1:A:0:1:0:St:M1:0:By:0}",
                   b"{1.1:A:0:2:0:0}", b"{1.1:R:0:3:2:3}", b"{1.1:R:0:1:2:3}", b"{1.1:A:0:4}",
                   b"{1.1:A:0:3:0:St:M1:0:By:0:0}", b"{}", b"",
                   b"{\xff}", b"a" * 513, b"{1.1:A:1:3:0:St:" + b"a" * 40 + b":0:St:" + b"b" * 40 + b"}"):
        yield discovered(1, packet)
        yield receive(1, 9, packet)
        yield receive(1, 7, packet)
    yield counts(1)
    for fields in packet_vectors.SIX:
        yield discovered(1, packet_vectors.framed(fields))
        yield receive(1, 9, packet_vectors.framed(fields))
        yield receive(1, 7, packet_vectors.framed(fields))
    yield receive(1, 9, b"{1.1:A:0:1:0:St:M1:0:By:0}")


# ---- stations together ------------------------------------------------------------------------


def conversations() -> Iterator[bytes]:
    """Catalogues and boxes: every kind of request there and back, with packets lost, late and repeated."""
    yield b"mount 9 S1 M1 100 199 100:St:Vega 101:Si:84.830 102:By:7:fixed"
    yield b"mount 8 S2 M2 100 199 100:St:Deneb 101:Si:45.2"
    yield b"library 7 S3 L1 Vega:1005324000:139621000"
    yield from fresh(1, 3000, 24000, 10, partners=(9, 8, 7))
    yield from fresh(2, 1000, 1000, 0, partners=(9,))
    first, second = writes(0, (101, b"90.50")), writes(1, (101, b"91.50"))
    yield open_write(1, 0, 0, (101, b"90.50"))
    yield handle(9, 1, first)
    yield poll(1, 3000, 0)
    yield handle(9, 1, first)
    yield receive(1, 9, b"{1.1:A:0:2:0}")
    yield open_write(1, 3000, 0, (101, b"91.50"))
    yield handle(9, 1, second)
    yield handle(9, 1, first)
    yield from look(9, 101)
    yield receive(1, 9, b"{1.1:A:0:2:0}")
    yield receive(1, 9, b"{1.1:A:1:2:0}")
    yield open_write(1, 3000, 1, (101, b"1"))
    yield open_write(1, 3000, 0, (101, b"2"))
    yield handle(8, 1, writes(0, (101, b"1")))
    yield receive(1, 9, b"{1.1:A:0:2:0}")
    yield receive(1, 8, b"{1.1:A:0:2:0}")
    yield from look(9, 101)
    yield from look(8, 101)
    yield poll(1, 6000, 0)
    yield handle(9, 1, writes(2, (101, b"2")))
    yield receive(1, 9, b"{1.1:A:2:2:0}")
    yield receive(1, 9, b"{1.1:A:2:2:0}")
    yield open_read(1, 6000, 0, 100, 101, 102, 103, 200, 2)
    yield handle(9, 1, reads(3, 100, 101, 102, 103, 200, 2))
    yield owner_write(9, 101, "Si", b"5")
    yield handle(9, 1, reads(3, 100, 101, 102, 103, 200, 2))
    yield receive(1, 9, b"{1.1:A:3:1:0:St:Vega:0:Si:2:0:By:7:1:Nil:0:3:Nil:0:0:St:M1}")
    yield open_read(1, 6000, 2, 100, 101, 102, 103)
    yield handle(7, 1, reads(0, 100, 101, 102, 103))
    yield receive(1, 7, b"{1.1:A:0:1:0:St:Vega:0:In:1005324000:0:In:139621000:3:Nil:0}")
    yield open_write(2, 0, 0, (101, b"77"))
    yield handle(9, 2, writes(0, (101, b"77")))
    yield poll(2, 1000, 0)
    yield receive(2, 9, b"{1.1:A:0:2:0}")
    yield from look(9, 101)
    yield b"discover 1"
    for box, name in ((9, b"M1"), (8, b"M2"), (7, b"L1")):
        yield handle(box, 1, discovers())
        yield discovered(1, b"{1.1:A:0:3:0:St:%s:0:By:0}" % name)
    yield counts(1)
    yield counts(2)


def stations_in_place_of_others() -> Iterator[bytes]:
    """A catalogue in the place of a box and the other way round; calls to the wrong kind of station."""
    calls = [counts(5), b"discover 5", poll(5, 0, 0), open_read(5, 0, 0, 1), open_write(5, 0, 0, (1, b"x")),
             receive(5, 9, b"{1.1:A:0:2:0}"), discovered(5, b"{1.1:A:0:3:0:St:M1:0:By:0}"), *enlist(5, 9),
             handle(5, 1, reads(0, 100)), owner_write(5, 100, "By", b"1"), *look(5, 100)]
    yield from calls
    yield b"bare 5 100 199 100:By:0"
    yield from calls
    yield catalogue(5)
    yield from calls
    yield catalogue(5, 999)
    yield counts(5)
    yield catalogue(5)
    yield counts(5)
    yield b"bare 5 100 199 100:By:256"
    yield counts(5)
    yield b"bare 5 100 199 100:By:25"
    yield from look(5, 100)


def by_chance() -> Iterator[bytes]:
    script = mischief.lines_without_end(Dice(20261120), "transactions")
    for _ in range(RANDOM_COUNT):
        yield next(script)


ABOUT_LINES = [
    b"catalogue", b"catalogue 1", b"catalogue 1 1000", b"catalogue 1 1000 1000", b"catalogue 1 1000 2000 5",
    b"counts 1",
    b"catalogue 1 1000 2000 5 5", b"catalogue x 1000 2000 5", b"catalogue 1 01000 2000 5", b"catalogue 1 1000 2000 -1",
    b"catalogue 1 1000 4294967296 5", b"catalogue 1 1000 4294967295 5", b"catalogue 1 1E3 2000 5",
    b"Catalogue 1 1000 2000 5",
    b"catalog 1 1000 2000 5", b"catalogue 4294967296 1000 2000 5", b"  catalogue  1  1000  2000  5 ",
    b"enlist", b"enlist 1", b"enlist 1 9 8", b"enlist 1 x", b"enlist 1 -9", b"enlist 1 4294967296", b"enlist 1 09",
    b"enlist 1 9",
    b"enlist 123456 9", b"enlist 1 \\x39", b"open-read", b"open-read 1", b"open-read 1 0", b"open-read 1 0 0",
    b"open-read 1 0 0 x",
    b"open-read 1 0 0 65536", b"open-read 1 0 0 -1", b"open-read 1 0 0 100=x", b"open-read 1 0 0 100 101 x",
    b"open-read 1 -1 0 100",
    b"open-read 1 18446744073709551615 0 100", b"open-read 1 18446744073709551616 0 100",
    b"open-read 1 99999999999999999999 0 100",
    b"open-read 1 0 4294967296 100", b"open-read 1 0 00 100", b"open-read 1 0.0 0 100", b"open-read 123456 0 0 100",
    b"open 1 0 0 100",
    b"open-read 1 0 0 1 2 3 4 5 6 7 8 9 10 x", b"open-read 1 0 0 1 2 3 4 5 6 7 8 9 10 11", b"counts 1",
    b"open-write", b"open-write 1 0 0", b"open-write 1 0 0 100", b"open-write 1 0 0 =x", b"open-write 1 0 0 100=",
    b"open-write 1 0 0 100=\\e", b"open-write 1 0 0 100=\\", b"open-write 1 0 0 100:x", b"open-write 1 0 0 x=x",
    b"open-write 1 0 0 0100=x",
    b"open-write 1 0 0 65536=x", b"open-write 1 0 0 -1=x", b"open-write 1 0 0 100=x 101", b"open-write 1 0 0 100=a:b",
    b"open-write 1 0 0 100=\\x3a", b"open-write 1 0 0 100={", b"open-write 1 0 0 \\x3100=x",
    b"open-write 1 0 0 100\\x3dx",
    b"open-write 1 0 0 100=x =", b"open-write 1 0 0 100=a\\e", b"counts 1",
    b"open-write 1 0 0 100=a=b 101== 102=\\x3d 103=\\x20",
    b"receive 1 9 {1.1:A:0:2:0:0:0:0}", b"open-write 1 0 0 100=\\x41", b"receive 1 9 {1.1:A:1:2:0}",
    b"open-write  1  0  0  100=x ", b"receive 1 9 {1.1:A:2:2:0}",
    b"poll", b"poll 1", b"poll 1 0", b"poll 1 0 0 0", b"poll 1 x 0", b"poll 1 0 x", b"poll 1 -0 0",
    b"poll 1 18446744073709551615 0",
    b"poll 1 18446744073709551616 0", b"poll 1 0 4294967295", b"poll 1 0 4294967296", b"poll 123456 0 0",
    b"polls 1 0 0", b"poll 1 0 0",
    b"receive", b"receive 1", b"receive 1 9", b"receive 1 9 {} x", b"receive 1 9 \\", b"receive 1 9 \\e",
    b"receive 1 x {}",
    b"receive 1 4294967296 {}", b"receive 123456 9 {}", b"receive 1 {} 9", b"receive 1 9 {1.1:A:0:2:0}",
    b"recieve 1 9 {}",
    b"counts", b"counts 1 1", b"counts x", b"counts 123456", b"count 1", b"counts 01", b"counts 1",
    b"discover", b"discover 1 1", b"discover x", b"discover 123456", b"discover 1", b"discovered", b"discovered 1",
    b"discovered 1 {} {}",
    b"discovered 1 \\", b"discovered 123456 {}", b"discovered 1 9 {1.1:A:0:3:0:St:M1:0:By:0}",
    b"discovered 1 {1.1:A:0:3:0:St:M1:0:By:0}",
]

RAW_LINES = [
    b"counts 1\r", b"counts\t1", b"open-write 1 0 0 100=\xce\xb1", b"open-write 1 0 0 100=\x00",
    b"receive 1 9 \xff", b"counts 1",
]

PARTS = [
    ("making catalogues", makings),
    ("enlisting", partners),
    ("opening", openings),
    ("grounds of opening", grounds_of_opening),
    ("times", times),
    ("polling", polls),
    ("polling several partners", polls_of_several),
    ("answers", answers),
    ("answers in order", answers_in_order),
    ("early and late answers", early_and_late_answers),
    ("Discovery and its answers", discovery),
    ("conversations", conversations),
    ("catalogues and boxes in place of each other", stations_in_place_of_others),
    ("catalogues and boxes, by chance", by_chance),
]


def sections() -> Iterator[tuple[str, list[bytes]]]:
    """Headings, each with its lines."""
    for heading, script in PARTS:
        yield heading, list(script())
