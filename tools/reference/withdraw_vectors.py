"""Lines about withdrawing for the console's sample: where none waits, where one does, and what comes after."""

from __future__ import annotations

from typing import Iterator

import mischief
from box_vectors import handle, look, reads, writes
from catalogue import LATEST_TIME
from catalogue_vectors import catalogue, counts, discovered, enlist, fresh, open_read, open_write, poll, receive
from dice import Dice

RANDOM_COUNT = 2000


# ---- lines ------------------------------------------------------------------------------------


def withdraw(address: int, partner: int) -> bytes:
    return b"withdraw %d %d" % (address, partner)


# ---- one catalogue ----------------------------------------------------------------------------


def grounds() -> Iterator[bytes]:
    """Partners who are not there, partners where none waits, and partners where one does."""
    everyone = (0, 1, 2, 15, 16, 17, 255, 256, 65536, 4294967295)
    yield catalogue(1)
    for count in range(18):
        for partner in (*everyone, count):
            yield withdraw(1, partner)
        yield from enlist(1, 100 + count)
    for partner in everyone:
        yield open_read(1, 0, partner, partner % 65536)
        yield counts(1)
        yield withdraw(1, partner)
        yield withdraw(1, partner)
        yield counts(1)
    for partner in range(16):
        yield open_write(1, 5, partner, (partner, b"x"))
    for partner in (7, 15, 0, 7):
        yield withdraw(1, partner)
        yield counts(1)
    for partner in (15, 7, 8, 0):
        yield open_read(1, 5, partner, 1)
    yield counts(1)


def after_each_settling() -> Iterator[bytes]:
    """Where the last one was answered, failed or withdrawn, none waits; where one was refused, it waits still."""
    yield from fresh(1, 1000, 4000, 1)
    yield open_write(1, 0, 0, (100, b"1"))
    yield receive(1, 9, b"{1.1:A:0:2:0}")
    yield withdraw(1, 0)
    yield open_write(1, 0, 0, (100, b"2"))
    yield poll(1, 1000, 0)
    yield poll(1, 3000, 0)
    yield withdraw(1, 0)
    yield open_write(1, 3000, 0, (100, b"3"))
    yield withdraw(1, 0)
    yield withdraw(1, 0)
    yield open_write(1, 3000, 0, (100, b"4"))
    for refused in (open_write(1, 3000, 0, (100, b"5")), open_write(1, 2999, 0, (100, b"5")), open_write(1, 3000, 0),
                    receive(1, 9, b"{1.1:A:2:2:0}"), receive(1, 8, b"{1.1:A:3:2:0}"), receive(1, 9, b"{1.1:A:3:2:0:0}"),
                    receive(1, 9, b"{1.1:A:3:1:1:Nil:0}"), poll(1, 2999, 0), withdraw(1, 1), withdraw(1, 2)):
        yield refused
        yield counts(1)
    yield withdraw(1, 0)
    yield counts(1)


def numbers_are_not_taken_again() -> Iterator[bytes]:
    """Each opening has the next number, whatever became of the one before; late answers settle nothing."""
    yield from fresh()
    for number in range(12):
        yield open_read(1, number, 0, number)
        if number % 3:
            yield withdraw(1, 0)
        for told in (number - 1, number, number + 1):
            if told >= 0:
                yield receive(1, 9, b"{1.1:A:%d:1:0:By:%d}" % (told, number))
        yield withdraw(1, 0)
    yield open_write(1, 12, 0, (100, b"a"))
    yield open_write(1, 12, 1, (100, b"a"))
    for number in (11, 0, 12):
        for sender in (9, 8):
            yield receive(1, sender, b"{1.1:A:%d:2:0}" % number)
    yield counts(1)


def no_time() -> Iterator[bytes]:
    """Withdrawing leaves the clock as it is, and goes at any time; the next one has a deadline of its own."""
    yield from fresh(1, 1000, 8000, 3)
    yield poll(1, 400, 0)
    yield open_read(1, 400, 1, 100)
    yield withdraw(1, 1)
    yield poll(1, 399, 0)
    yield poll(1, 400, 1)
    yield open_read(1, 500, 0, 100)
    yield poll(1, 1500, 0)
    yield poll(1, 3500, 0)
    yield withdraw(1, 0)
    yield poll(1, 7500, 0)
    yield open_read(1, 7500, 0, 100)
    for time in (8499, 8500, 10499, 10500, 14499, 14500, 22499, 22500):
        yield poll(1, time, 0)
    yield withdraw(1, 0)
    yield open_read(1, LATEST_TIME, 0, 100)
    yield poll(1, LATEST_TIME, 0)
    yield withdraw(1, 0)
    yield open_write(1, LATEST_TIME, 0, (100, b"x"))
    yield withdraw(1, 0)
    yield counts(1)


def one_of_several() -> Iterator[bytes]:
    """What waits at the other partners is not disturbed: its packet, its deadline and its answer stay."""
    yield from fresh(1, 1000, 4000, 2, partners=(9, 8, 7))
    for partner in range(3):
        yield open_write(1, 100 * partner, partner, (100 + partner, b"x" * (partner + 1)))
    yield withdraw(1, 1)
    for time in (999, 1000, 1100, 1200):
        for partner in (2, 1, 0):
            yield poll(1, time, partner)
    yield open_read(1, 1200, 1, *range(10))
    yield withdraw(1, 0)
    for partner in (2, 1, 0):
        yield poll(1, 3200, partner)
    yield counts(1)
    for sender in (9, 8, 7):
        yield receive(1, sender, b"{1.1:A:0:2:0}")
    yield withdraw(1, 2)
    yield withdraw(1, 1)
    yield counts(1)


# ---- stations together ------------------------------------------------------------------------


def conversations() -> Iterator[bytes]:
    """What was withdrawn may be carried out all the same, before or after, but not behind a newer one."""
    yield b"mount 9 S1 M1 100 199 100:St:Vega 101:Si:84.830"
    yield from fresh(1, 3000, 24000, 10, partners=(9,))
    first, second, third = (writes(number, (101, b"%d" % number)) for number in range(3))
    yield open_write(1, 0, 0, (101, b"0"))
    yield handle(9, 1, first)
    yield withdraw(1, 0)
    yield receive(1, 9, b"{1.1:A:0:2:0}")
    yield from look(9, 101)
    yield open_write(1, 0, 0, (101, b"1"))
    yield handle(9, 1, first)
    yield withdraw(1, 0)
    yield open_write(1, 0, 0, (101, b"2"))
    yield handle(9, 1, third)
    yield handle(9, 1, second)
    yield from look(9, 101)
    yield receive(1, 9, b"{1.1:A:1:2:0}")
    yield receive(1, 9, b"{1.1:A:2:2:0}")
    yield open_read(1, 0, 0, 101)
    yield withdraw(1, 0)
    yield handle(9, 1, reads(3, 101))
    yield receive(1, 9, b"{1.1:A:3:1:0:Si:2}")
    yield counts(1)


def stations_in_place_of_others() -> Iterator[bytes]:
    """A box has nothing to withdraw, and neither has a new catalogue in the place of another."""
    yield withdraw(5, 0)
    yield b"bare 5 100 199 100:By:0"
    yield withdraw(5, 0)
    yield from fresh(5)
    yield open_read(5, 0, 0, 100)
    yield catalogue(5, 999)
    yield withdraw(5, 0)
    yield open_read(5, 0, 1, 100)
    yield from fresh(5)
    yield withdraw(5, 1)
    yield open_read(5, 0, 1, 100)
    yield discovered(5, b"{1.1:A:0:3:0:St:M1:0:By:0}")
    yield withdraw(5, 1)
    yield counts(5)


def by_chance() -> Iterator[bytes]:
    script = mischief.lines_without_end(Dice(20261121), "catalogue")
    for _ in range(RANDOM_COUNT):
        yield next(script)


ABOUT_LINES = [
    b"catalogue 1 1000 2000 5", b"enlist 1 9", b"open-read 1 0 0 100",
    b"withdraw", b"withdraw 1", b"withdraw 1 0 0", b"withdraw 1 x", b"withdraw x 0", b"withdraw 1 -0", b"withdraw 1 -1",
    b"withdraw 1 00", b"withdraw 1 +0", b"withdraw 1 0.0", b"withdraw 1 \\x30", b"withdraw \\x31 0", b"withdraw 1 \\e",
    b"withdraw 1 4294967295", b"withdraw 1 4294967296", b"withdraw 4294967296 0", b"withdraw 123456 0",
    b"withdraw 01 0", b"Withdraw 1 0", b"withdrawn 1 0", b"withdra 1 0", b"#withdraw 1 0", b"counts 1",
    b"  withdraw   1  0 ", b"withdraw 1 0", b"counts 1",
]

RAW_LINES = [
    b"open-read 1 0 0 100", b"withdraw 1 0\r", b"withdraw\t1 0", b"withdraw 1 0\xff", b"withdraw 1 0", b"counts 1",
]

PARTS = [
    ("grounds of withdrawing", grounds),
    ("withdrawing after each settling", after_each_settling),
    ("numbers of withdrawn transactions", numbers_are_not_taken_again),
    ("withdrawing takes no time", no_time),
    ("withdrawing one of several", one_of_several),
    ("conversations with withdrawals", conversations),
    ("withdrawing at stations in place of others", stations_in_place_of_others),
    ("catalogues and boxes with withdrawals, by chance", by_chance),
]


def sections() -> Iterator[tuple[str, list[bytes]]]:
    """Headings, each with its lines."""
    for heading, script in PARTS:
        yield heading, list(script())
