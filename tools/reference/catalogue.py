"""The catalogue: it opens transactions with up to sixteen partners, and settles each of them once.

Written from docs/PROTOCOL.md, section 6, and from nothing else.
"""

from __future__ import annotations

from dataclasses import dataclass
from typing import NamedTuple, Optional, Sequence, Union

import packets
import values
from memory import BUFFER_LENGTH, ROW_LENGTH, ROWS, SLAB, SLAB_LENGTH, Part, put_in_buffer, put_in_row, refuse_short
from packets import ANSWER, DISCOVERY, GREATEST_NUMBER, MOST_GROUPS, READ, REQUEST, WRITE, Asked, Group, Message, Put
from refusals import (DIRECTION, ENLISTED, EXHAUSTED, LIMIT, NO_MATCH, NONE_WAITS, STILL_WAITS, TIME, UNKNOWN,
                      Refused)

LATEST_TIME = 10**15
FIRST_INTERVALS = (1_000, 60_000)
LONGEST_INTERVAL = 600_000
MOST_REPEATS = 20


@dataclass
class Waiting:
    """A transaction that waits."""

    number: int
    command: int
    count: int
    length: int
    deadline: int
    interval: int
    repeats: int = 0


@dataclass
class Partner:
    """A station that is asked, with at most one transaction that waits."""

    address: int
    next_number: int = 0
    waiting: Optional[Waiting] = None


@dataclass
class Counts:
    """How many transactions were opened and settled in each way, and how many sends were repeated."""

    opened: int = 0
    answered: int = 0
    failed: int = 0
    withdrawn: int = 0
    repeated: int = 0


class Opened(NamedTuple):
    """An accepted opening: the number of the transaction, and the place of its packet."""

    number: int
    part: Part


class Again(NamedTuple):
    """A poll that sends the packet again, from this place."""

    part: Part


class Failed(NamedTuple):
    """A poll that gives the transaction with this number up."""

    number: int


Polled = Union[Again, Failed, None]


class Answered(NamedTuple):
    """An accepted answer: the number of the transaction, and the groups that were told."""

    number: int
    groups: tuple[Group, ...]


class Catalogue:
    """A catalogue. The packet of what waits at partner k lies at the start of row k of the slab."""

    def __init__(self, first: int, longest: int, repeats: int) -> None:
        least, greatest = FIRST_INTERVALS
        if not (least <= first <= greatest and first <= longest <= LONGEST_INTERVAL and 0 <= repeats <= MOST_REPEATS):
            raise Refused(LIMIT)
        self.first, self.longest, self.repeats = first, longest, repeats
        self.clock: Optional[int] = None
        self.partners: list[Partner] = []
        self.counts = Counts()

    # ---- partners and times -------------------------------------------------------------------

    def enlist(self, address: int) -> int:
        """Makes the station at an address a partner, and tells its number. Refused by 14."""
        if any(partner.address == address for partner in self.partners) or len(self.partners) == ROWS:
            raise Refused(ENLISTED)
        self.partners.append(Partner(address))
        return len(self.partners) - 1

    def refuse_time(self, time: int) -> None:
        """Refuses by 1 a time before the clock, and one that is too late."""
        if time > LATEST_TIME or (self.clock is not None and time < self.clock):
            raise Refused(TIME)

    def partner(self, number: int) -> Partner:
        """The partner with this number. Refused by 10."""
        if number >= len(self.partners):
            raise Refused(UNKNOWN)
        return self.partners[number]

    def waiting(self) -> int:
        """At how many partners a transaction waits."""
        return sum(partner.waiting is not None for partner in self.partners)

    # ---- opening ------------------------------------------------------------------------------

    def open_read(self, number: int, time: int, slab: bytearray, indices: Sequence[int]) -> Opened:
        """Opens a transaction that reads these elements."""
        return self.open(number, time, slab, READ, [Asked(index) for index in indices])

    def open_write(self, number: int, time: int, slab: bytearray, pairs: Sequence[tuple[int, bytes]]) -> Opened:
        """Opens a transaction that writes these texts to these elements."""
        return self.open(number, time, slab, WRITE, [Put(index, text) for index, text in pairs])

    def open(self, number: int, time: int, slab: bytearray, command: int, groups: Sequence[Group]) -> Opened:
        """Opens a transaction with the partner of this number. Refused by 1, 2, 10, 13, 15, 17."""
        self.refuse_time(time)
        refuse_short(slab, SLAB_LENGTH)
        partner = self.partner(number)
        if not 1 <= len(groups) <= MOST_GROUPS or not all(map(may_be_sent, groups)):
            raise Refused(LIMIT)
        if partner.waiting is not None:
            raise Refused(STILL_WAITS)
        if partner.next_number > GREATEST_NUMBER:
            raise Refused(EXHAUSTED)
        transaction = partner.next_number
        part = put_in_row(slab, number, packets.request(transaction, command, groups))
        partner.waiting = Waiting(transaction, command, len(groups), part.length, time + self.first, self.first)
        partner.next_number += 1
        self.clock = time
        self.counts.opened += 1
        return Opened(transaction, part)

    # ---- settling -----------------------------------------------------------------------------

    def poll(self, number: int, time: int) -> Polled:
        """What is due at a partner; None if nothing is. Refused by 1 and 10."""
        self.refuse_time(time)
        partner = self.partner(number)
        self.clock = time
        waiting = partner.waiting
        if waiting is None or time < waiting.deadline:
            return None
        doubled = 2 * waiting.interval
        if waiting.repeats == self.repeats or doubled > self.longest:
            partner.waiting = None
            self.counts.failed += 1
            return Failed(waiting.number)
        waiting.interval = doubled
        waiting.deadline = time + doubled
        waiting.repeats += 1
        self.counts.repeated += 1
        return Again(Part(SLAB, ROW_LENGTH * number, waiting.length))

    def receive(self, sender: int, packet: bytes) -> Answered:
        """Takes the answer to what waits at the sender. Refused by 3 to 10 and 12."""
        message = read_answer(packet)
        partner = next((partner for partner in self.partners if partner.address == sender), None)
        if partner is None:
            raise Refused(UNKNOWN)
        if partner.waiting is None or not agrees(partner.waiting, message):
            raise Refused(NO_MATCH)
        partner.waiting = None
        self.counts.answered += 1
        return Answered(message.number, message.groups)

    def withdraw(self, number: int) -> int:
        """Gives up what waits at a partner, and tells its number. Refused by 10 and 16."""
        partner = self.partner(number)
        if partner.waiting is None:
            raise Refused(NONE_WAITS)
        transaction = partner.waiting.number
        partner.waiting = None
        self.counts.withdrawn += 1
        return transaction


def may_be_sent(group: Group) -> bool:
    """Whether a group to be opened has a value text, if it has a text at all."""
    return not isinstance(group, Put) or values.is_value_text(group.text)


def agrees(waiting: Waiting, message: Message) -> bool:
    """Whether an answer has the number, the command and the count of groups of what waits."""
    return (message.number, message.command, len(message.groups)) == (waiting.number, waiting.command, waiting.count)


def read_answer(packet: bytes) -> Message:
    """The answer in a packet. Refused by 3 to 9."""
    message = packets.read(packet)
    if message.direction == REQUEST:
        raise Refused(DIRECTION)
    assert message.direction == ANSWER
    return message


def discover(buffer: bytearray) -> Part:
    """Writes a Discovery request to the start of a reply buffer. Refused by 2."""
    refuse_short(buffer, BUFFER_LENGTH)
    return put_in_buffer(buffer, packets.discovery_request())


def discovered(packet: bytes) -> tuple[Group, ...]:
    """The two groups of a Discovery answer. Refused by 3 to 9 and 12."""
    message = read_answer(packet)
    if message.command != DISCOVERY:
        raise Refused(NO_MATCH)
    return message.groups
